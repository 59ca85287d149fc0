#include "model.h"

#include <string.h>

struct reader {
    const uint8_t *at, *end;
    struct model *model;
};

/* The next byte, or 0 at the end. */
static uint8_t peek(const struct reader *r) { return r->at < r->end ? *r->at : 0; }

/* Is this byte next? Then it is read. */
static bool skip(struct reader *r, char byte)
{
    if (peek(r) != (uint8_t)byte)
        return false;
    r->at++;
    return true;
}

static unsigned read_number(struct reader *r)
{
    unsigned n = 0;
    while (peek(r) >= '0' && peek(r) <= '9')
        n = 10 * n + (unsigned)(*r->at++ - '0');
    return n;
}

/* Also at the end of the text, where the next byte is 0. */
static bool ends_name(uint8_t byte) { return strchr("[?!,|&)", byte) != NULL; }

static void read_atom(struct reader *r, struct part *atom)
{
    atom->name.at = r->at;
    while (!ends_name(peek(r)))
        r->at++;
    atom->name.len = (size_t)(r->at - atom->name.at);
    atom->min = atom->max = 1;
    if (skip(r, '[')) {
        atom->min = read_number(r);
        r->at += 2;
        atom->max = skip(r, '*') ? NO_END : read_number(r);
        r->at++;
    }
}

static struct part *read_member(struct reader *r);

/* The opening bracket has been read. */
static void read_group(struct reader *r, struct part *group)
{
    struct part **next = &group->first;
    group->sign = ',';
    while (!skip(r, ')')) {
        *next = read_member(r);
        next = &(*next)->next;
        if (peek(r) != ')')
            group->sign = (char)*r->at++;
    }
}

static struct part *read_member(struct reader *r)
{
    struct part *me = &r->model->part[r->model->parts++];
    *me = (struct part){0};
    if (skip(r, '('))
        read_group(r, me);
    else
        read_atom(r, me);
    me->optional = skip(r, '?');
    me->nonempty = skip(r, '!');
    return me;
}

void read_model(struct model *model, struct bytes text)
{
    struct reader r = {text.at, text.at + text.len, model};
    model->parts = 0;
    read_member(&r);
}
