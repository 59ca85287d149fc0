/* The plain C twin of desk_canonical: the nodes are tidied last to first, so that a group finds its
   members tidied on a stack, and those that stay hang in a list; the lists are sorted; the text is
   written into a place of its own and copied where the buffer has room. */
#include "twin.h"
#include "twin_parts.h"

/* A tidied member; a group without members is `()`. */
struct part {
    uint8_t kind;
    uint8_t mark;
    bool nullable;             /* holds the empty row without its mark */
    uint32_t min, max;         /* of an atom, min at least 1 */
    const struct name *name;   /* of an atom; once sorted, the smallest of a group */
    struct part *first, *next; /* first member and next sibling, or null */
    struct part **end;         /* of a group: the last member's `next` */
};

/* ---- tidying ---- */

static bool is_empty(const struct part *p) { return p->kind != ATOM && p->first == NULL; }

/* Does the part, with its mark, hold the empty row? */
static bool holds_empty_row(const struct part *p)
{
    return p->mark == PLAIN ? p->nullable : p->mark == OPTIONAL;
}

/* The mark takes the place of the one that is there, if it changes anything: `?` adds the empty
   row, `!` takes it away. `()` gets none. */
static void put_mark(struct part *p, enum mark mark)
{
    if (mark != PLAIN && !is_empty(p))
        p->mark = p->nullable == (mark == NONEMPTY) ? mark : PLAIN;
}

/* `a[0..n]` is `a[1..n]?`, and then comes its own mark. */
static struct part tidy_atom(const struct node *node, const struct name *name)
{
    struct part p = {.kind = ATOM, .mark = node->min == 0 ? OPTIONAL : PLAIN, .name = name,
                     .min = node->min == 0 ? 1 : node->min, .max = node->max};
    put_mark(&p, node->mark);
    return p;
}

/* The group, or what it gives way to. The empty row goes from the members of a choice to the choice
   itself, which holds it by its mark alone. */
static struct part *tidy_group(const struct node *node, struct part *group, struct part **member)
{
    bool choice = node->kind == CHOICE, some = false, each = true;
    *group = (struct part){.kind = node->kind};
    group->end = &group->first;
    for (uint32_t i = 0; i < node->members; i++) {
        struct part *m = member[i];
        some |= holds_empty_row(m);
        each &= holds_empty_row(m);
        if (choice)
            put_mark(m, NONEMPTY);
        if (is_empty(m))
            continue;
        bool joins = m->kind == node->kind && m->mark == PLAIN;
        *group->end = joins ? m->first : m;
        group->end = joins ? m->end : &m->next;
    }
    *group->end = NULL;
    group->nullable = group->first == NULL || (each && !choice);
    if (group->first != NULL && group->first->next == NULL)
        group = group->first;
    if (choice && some)
        put_mark(group, OPTIONAL);
    put_mark(group, node->mark);
    return group;
}

static struct part *tidy_model(const struct rule *rule, struct part *part)
{
    struct part *stack[MAX_NODES];
    struct part **top = stack + MAX_NODES;
    const struct name *name = rule->names.name + rule->names.count;
    for (uint32_t i = rule->node_count; i-- > 0;) {
        const struct node *node = &rule->node[i];
        struct part *p = &part[i];
        if (node->kind == ATOM)
            *p = tidy_atom(node, name--);
        else
            p = tidy_group(node, p, top);
        top += node->members;
        *--top = p;
    }
    return *top;
}

/* ---- sorting ---- */

/* Byte order; a name comes before one that it begins. */
static bool is_less(const struct name *a, const struct name *b)
{
    int order = memcmp(a->at, b->at, a->len < b->len ? a->len : b->len);
    return order != 0 ? order < 0 : a->len < b->len;
}

static struct part *merge(struct part *a, struct part *b)
{
    struct part *first = NULL, **end = &first;
    while (a != NULL && b != NULL) {
        struct part **least = is_less(b->name, a->name) ? &b : &a;
        *end = *least;
        end = &(*least)->next;
        *least = *end;
    }
    *end = a != NULL ? a : b;
    return first;
}

/* Sorts the first n of a list and moves *rest to what is behind them. */
static struct part *sort_list(struct part **rest, uint32_t n)
{
    if (n == 1) {
        struct part *one = *rest;
        *rest = one->next;
        one->next = NULL;
        return one;
    }
    struct part *front = sort_list(rest, n / 2);
    return merge(front, sort_list(rest, n - n / 2));
}

/* The members of choices and interleavings, in every group. */
static void sort_model(struct part *p)
{
    uint32_t members = 0;
    bool ordered = true;
    const struct name *before = NULL;
    for (struct part *m = p->first; m != NULL; m = m->next) {
        if (m->kind != ATOM)
            sort_model(m);
        if (p->name == NULL || is_less(m->name, p->name))
            p->name = m->name;
        ordered = ordered && (before == NULL || is_less(before, m->name));
        before = m->name;
        members++;
    }
    if (p->kind == SEQUENCE || ordered)
        return;
    struct part *rest = p->first;
    p->first = sort_list(&rest, members);
}

/* ---- writing: each function gives where the text goes on ---- */

static uint8_t *put_number(uint8_t *to, uint32_t number)
{
    if (number >= 10)
        to = put_number(to, number / 10);
    *to = (uint8_t)('0' + number % 10);
    return to + 1;
}

/* `a` is the same as `a[1..1]`. */
static uint8_t *put_atom(uint8_t *to, const struct part *p)
{
    memcpy(to, p->name->at, p->name->len);
    to += p->name->len;
    if (p->max == 1)
        return to;
    *to++ = '[';
    to = put_number(to, p->min);
    *to++ = '.';
    *to++ = '.';
    if (p->max == UNBOUNDED)
        *to++ = '*';
    else
        to = put_number(to, p->max);
    *to++ = ']';
    return to;
}

static uint8_t *put_part(uint8_t *to, const struct part *p);

static uint8_t *put_group(uint8_t *to, const struct part *p)
{
    uint8_t sign = p->kind == SEQUENCE ? ',' : p->kind == CHOICE ? '|' : '&';
    *to++ = '(';
    for (const struct part *m = p->first; m != NULL; m = m->next) {
        to = put_part(to, m);
        if (m->next != NULL)
            *to++ = sign;
    }
    *to++ = ')';
    return to;
}

static uint8_t *put_part(uint8_t *to, const struct part *p)
{
    to = p->kind == ATOM ? put_atom(to, p) : put_group(to, p);
    if (p->mark != PLAIN)
        *to++ = p->mark == OPTIONAL ? '?' : '!';
    return to;
}

/* ---- the whole ---- */

uint32_t twin_canonical(const uint8_t *model, size_t model_len, uint8_t *buffer, size_t buffer_len)
{
    struct rule rule;
    struct part part[MAX_NODES];
    uint8_t text[MAX_TEXT]; /* has room for every model that is read */
    size_t place;
    uint32_t refusal = read_model(model, model_len, &rule, &place);
    if (refusal != 0)
        return REFUSED + refusal;
    struct part *top = tidy_model(&rule, part);
    sort_model(top);
    size_t len = (size_t)(put_part(text, top) - text);
    if (len > buffer_len)
        return REFUSED + LONG_TEXT;
    memcpy(buffer, text, len);
    return (uint32_t)len;
}
