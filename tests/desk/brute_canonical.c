/* The canonical text of a model, slowly: the model as a tree, changed by one rule at one place at a
   time, in the words of document 02, W3, W4 and W7, until no rule fits anywhere; then its members
   are put in order, and it is written.

   Which rule comes first, and where, must not matter: every text is made twice, from the inside out
   with the rules in one order, and from the outside in with the rules in the other. */
#include "brute.h"

#include <stdbool.h>
#include <stdlib.h>
#include <string.h>

enum { MOST_PARTS = 128 };

static const uint32_t REFUSED = 2147483648;

struct piece {
    const uint8_t *at;
    size_t len;
};

/* A member of the model, and the model itself. */
struct part {
    char sign; /* `a` for an atom; blank for a group that is written with under two members */
    char mark; /* `?`, `!`, or 0 for none */
    struct piece name, min, max; /* of an atom; no min: it has no count */
    struct part *first, *next;   /* first member and next sibling, or null */
};

static bool is_atom(const struct part *p) { return p->sign == 'a'; }
static bool is_empty(const struct part *p) { return !is_atom(p) && p->first == NULL; }
static bool is_single(const struct part *p) { return p->first != NULL && p->first->next == NULL; }

static bool is(struct piece p, const char *word)
{
    return p.len == strlen(word) && memcmp(p.at, word, p.len) == 0;
}

/* ---- from the text ---- */

struct source {
    const uint8_t *at, *end;
    struct part *free; /* the next part to use */
};

/* The bytes up to one of these, or to the end. */
static struct piece take(struct source *s, const char *stops)
{
    struct piece p = {s->at, 0};
    while (s->at < s->end && strchr(stops, *s->at) == NULL)
        s->at++;
    p.len = (size_t)(s->at - p.at);
    return p;
}

static bool skip(struct source *s, char byte)
{
    if (s->at == s->end || *s->at != (uint8_t)byte)
        return false;
    s->at++;
    return true;
}

static char take_mark(struct source *s) { return skip(s, '?') ? '?' : skip(s, '!') ? '!' : 0; }

static struct part *grow(struct source *s);

static void grow_members(struct source *s, struct part *group)
{
    struct part **end = &group->first;
    group->sign = ' ';
    while (!skip(s, ')')) {
        *end = grow(s);
        end = &(*end)->next;
        if (*s->at != ')')
            group->sign = (char)*s->at++;
    }
}

/* The text is a good one. */
static struct part *grow(struct source *s)
{
    struct part *p = s->free++;
    *p = (struct part){.sign = 'a'};
    if (skip(s, '(')) {
        grow_members(s, p);
    } else {
        p->name = take(s, "[?!,|&)");
        if (skip(s, '[')) {
            p->min = take(s, ".");
            s->at += 2;
            p->max = take(s, "]");
            s->at++;
        }
    }
    p->mark = take_mark(s);
    return p;
}

/* ---- rules: each changes something at this part and says so, or finds nothing to change ---- */

static const uint8_t ONE[] = "1";

/* `[0..n]` is `[1..n]?`, and `[0..n]!` is `[1..n]!`. */
static bool count_from_one(struct part *p)
{
    if (!is(p->min, "0"))
        return false;
    p->min = (struct piece){ONE, 1};
    if (p->mark == 0)
        p->mark = '?';
    return true;
}

/* `[1..1]` is left out. */
static bool leave_out_count(struct part *p)
{
    if (!is(p->min, "1") || !is(p->max, "1"))
        return false;
    p->min = p->max = (struct piece){NULL, 0};
    return true;
}

/* `()` is dropped from a group; a choice without a mark gets `?`. */
static bool drop_empty(struct part *p)
{
    for (struct part **m = &p->first; *m != NULL; m = &(*m)->next)
        if (is_empty(*m)) {
            *m = (*m)->next;
            if (p->sign == '|' && p->mark == 0)
                p->mark = '?';
            return true;
        }
    return false;
}

/* `()?` is `()`. */
static bool unmark_empty(struct part *p)
{
    if (!is_empty(p) || p->mark == 0)
        return false;
    p->mark = 0;
    return true;
}

/* A group of one dissolves; a mark on it takes the place of its member's. */
static bool dissolve(struct part *p)
{
    if (!is_single(p))
        return false;
    struct part *next = p->next;
    char mark = p->mark;
    *p = *p->first;
    if (mark != 0)
        p->mark = mark;
    p->next = next;
    return true;
}

/* An unmarked group inside a group of the same sign joins it. */
static bool join(struct part *p)
{
    for (struct part **m = &p->first; *m != NULL; m = &(*m)->next)
        if ((*m)->sign == p->sign && (*m)->mark == 0 && (*m)->first != NULL) {
            struct part *behind = (*m)->next;
            *m = (*m)->first;
            while (*m != NULL)
                m = &(*m)->next;
            *m = behind;
            return true;
        }
    return false;
}

static bool holds_empty_row(const struct part *p);

/* The same, its mark left aside: some member of a choice does, each of another group. */
static bool holds_without_mark(const struct part *p)
{
    if (is_atom(p))
        return is(p->min, "0");
    if (p->first == NULL)
        return true;
    bool some = false, each = true;
    for (const struct part *m = p->first; m != NULL; m = m->next) {
        bool holds = holds_empty_row(m);
        some |= holds;
        each &= holds;
    }
    return p->sign == '|' ? some : each;
}

static bool holds_empty_row(const struct part *p)
{
    return p->mark == '?' || (p->mark == 0 && holds_without_mark(p));
}

static bool has_atom(const struct part *p)
{
    bool has = is_atom(p);
    for (const struct part *m = p->first; m != NULL; m = m->next)
        has |= has_atom(m);
    return has;
}

/* A choice's member is written without the empty row: one that holds it gets `!`, and the choice
   gets `?` if it has no mark. What is `()` in the end is left for another rule. */
static bool move_empty_row(struct part *p)
{
    if (p->sign != '|')
        return false;
    for (struct part *m = p->first; m != NULL; m = m->next)
        if (holds_empty_row(m) && has_atom(m)) {
            m->mark = '!';
            if (p->mark == 0)
                p->mark = '?';
            return true;
        }
    return false;
}

/* `?` is dropped from a group that holds the empty row without it, `!` from what does not. */
static bool drop_mark(struct part *p)
{
    bool holds = holds_without_mark(p);
    if (!(p->mark == '?' && holds && !is_atom(p)) && !(p->mark == '!' && !holds))
        return false;
    p->mark = 0;
    return true;
}

typedef bool rule(struct part *p);

static rule *const RULES[] = {
    count_from_one, leave_out_count, drop_empty, unmark_empty, dissolve, join, move_empty_row,
    drop_mark,
};

enum { MANY_RULES = sizeof RULES / sizeof RULES[0] };

/* ---- to where nothing changes ---- */

static bool change_here(struct part *p, bool inward)
{
    for (size_t i = 0; i < MANY_RULES; i++)
        if (RULES[inward ? MANY_RULES - 1 - i : i](p))
            return true;
    return false;
}

/* One change, at the first place that has one: members before their group, or behind it. */
static bool change(struct part *p, bool inward)
{
    if (inward && change_here(p, inward))
        return true;
    for (struct part *m = p->first; m != NULL; m = m->next)
        if (change(m, inward))
            return true;
    return !inward && change_here(p, inward);
}

/* ---- order ---- */

/* Byte order; a name comes before one that it begins. */
static bool is_less(struct piece a, struct piece b)
{
    for (size_t i = 0; i < a.len && i < b.len; i++)
        if (a.at[i] != b.at[i])
            return a.at[i] < b.at[i];
    return a.len < b.len;
}

/* The part has a name. */
static struct piece smallest_name(const struct part *p)
{
    if (is_atom(p))
        return p->name;
    struct piece least = smallest_name(p->first);
    for (const struct part *m = p->first->next; m != NULL; m = m->next) {
        struct piece name = smallest_name(m);
        if (is_less(name, least))
            least = name;
    }
    return least;
}

static void swap(struct part *a, struct part *b)
{
    struct part old = *a, *a_next = a->next, *b_next = b->next;
    *a = *b;
    *b = old;
    a->next = a_next;
    b->next = b_next;
}

/* Every member of a choice or an interleaving in its place, in every group. */
static void sort(struct part *p)
{
    for (struct part *m = p->first; m != NULL; m = m->next)
        sort(m);
    if (p->sign != '|' && p->sign != '&')
        return;
    for (struct part *m = p->first; m != NULL; m = m->next)
        for (struct part *other = m->next; other != NULL; other = other->next)
            if (is_less(smallest_name(other), smallest_name(m)))
                swap(m, other);
}

/* ---- to the text ---- */

/* The text is shorter than a model text may be. */
struct target {
    uint8_t *byte;
    size_t len;
};

static void put(struct target *t, struct piece p)
{
    memcpy(t->byte + t->len, p.at, p.len);
    t->len += p.len;
}

static void put_byte(struct target *t, char byte) { t->byte[t->len++] = (uint8_t)byte; }

static void put_atom(struct target *t, const struct part *p)
{
    put(t, p->name);
    if (p->min.len == 0)
        return;
    put_byte(t, '[');
    put(t, p->min);
    put_byte(t, '.');
    put_byte(t, '.');
    put(t, p->max);
    put_byte(t, ']');
}

static void put_part(struct target *t, const struct part *p)
{
    if (is_atom(p)) {
        put_atom(t, p);
    } else {
        put_byte(t, '(');
        for (const struct part *m = p->first; m != NULL; m = m->next) {
            put_part(t, m);
            if (m->next != NULL)
                put_byte(t, p->sign);
        }
        put_byte(t, ')');
    }
    if (p->mark != 0)
        put_byte(t, p->mark);
}

/* ---- the whole ---- */

static size_t rewrite(const uint8_t *text, size_t len, bool inward, uint8_t *to)
{
    struct part parts[MOST_PARTS];
    struct source source = {text, text + len, parts};
    struct target target = {to, 0};
    struct part *model = grow(&source);
    while (change(model, inward))
        ;
    sort(model);
    put_part(&target, model);
    return target.len;
}

uint32_t brute_rewrite(const uint8_t *model, size_t model_len, uint8_t *to)
{
    uint8_t other[BRUTE_ROOM];
    size_t len = rewrite(model, model_len, false, to);
    if (rewrite(model, model_len, true, other) != len || memcmp(to, other, len) != 0)
        return REFUSED + BRUTE_SPLIT;
    return (uint32_t)len;
}

uint32_t brute_canonical(const uint8_t *model, size_t model_len, uint8_t *buffer, size_t buffer_len)
{
    size_t place;
    uint8_t text[BRUTE_ROOM];
    uint32_t refusal = brute_model(model, model_len, &place);
    if (refusal != 0)
        return REFUSED + refusal;
    uint32_t answer = brute_rewrite(model, model_len, text);
    if (answer >= REFUSED)
        return answer;
    if (answer > buffer_len)
        return REFUSED + 51;
    for (uint32_t i = 0; i < answer; i++)
        buffer[i] = text[i];
    return answer;
}
