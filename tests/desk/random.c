/* Random models with rows of them or near them, and damaged texts; the seed fixes everything. */
#include "cases.h"
#include "dice.h"

#include <stdbool.h>
#include <stdio.h>
#include <stdlib.h>
#include <string.h>

enum { MEMBERS = 4000, NAMES = 64, FEW = 10, ROW = 4200, NAME_ROOM = 36 };

/* ---- a model as a tree ---- */

struct member {
    char sign; /* of a group; 'a' for an atom */
    char mark; /* `?`, `!`, or 0 for none */
    bool counted;
    unsigned min, max; /* max 0: no upper end */
    size_t name;
    size_t first, next; /* first member and next sibling; 0: none */
};

struct sketch {
    struct dice dice;
    struct member member[MEMBERS];
    size_t members, atoms;
    char name[NAMES][NAME_ROOM];
    size_t stretch; /* how far a count without upper end may go */
    size_t marked;  /* so many of a hundred members, where no habit says otherwise */
};

static size_t new_member(struct sketch *s, char sign)
{
    if (s->members == MEMBERS)
        abort();
    s->member[s->members] = (struct member){.sign = sign, .min = 1, .max = 1};
    return s->members++;
}

/* Marks so many of a hundred members: groups with `?` and `!` alike, atoms seldom with `!`, which
   mostly takes nothing from them. The member's names are those from `first` on; where it has none,
   `!` is refused, and stands there very seldom. */
static void roll_mark(struct sketch *s, size_t me, size_t percent, size_t first)
{
    struct dice *d = &s->dice;
    if (!chance(d, percent))
        return;
    size_t seldom = s->atoms == first ? 30 : s->member[me].sign == 'a' ? 5 : 2;
    s->member[me].mark = one_in(d, seldom) ? '!' : '?';
}

static size_t grow_atom(struct sketch *s)
{
    size_t me = new_member(s, 'a');
    struct member *m = &s->member[me];
    m->name = s->atoms++;
    m->counted = one_in(&s->dice, 2);
    if (m->counted) {
        m->min = (unsigned)below(&s->dice, 4);
        m->max = one_in(&s->dice, 3) ? 0 : m->min + (unsigned)below(&s->dice, 3);
        if (m->max == 0 && one_in(&s->dice, 3))
            m->min = 0;
    }
    roll_mark(s, me, s->marked, m->name);
    return me;
}

/* A member more, behind the last one; gives the new last one. */
static size_t add_member(struct sketch *s, size_t group, size_t last, size_t member)
{
    if (last == 0)
        s->member[group].first = member;
    else
        s->member[last].next = member;
    return member;
}

/* A member with this many names below it; `depth` brackets may still be opened. */
static size_t grow(struct sketch *s, size_t names, size_t depth)
{
    struct dice *d = &s->dice;
    if (names == 1 && (depth == 0 || !one_in(d, 8)))
        return grow_atom(s);
    size_t me = new_member(s, ",|&"[below(d, 3)]), last = 0, first = s->atoms;
    for (size_t placed = 0; placed < names;) {
        size_t part = depth <= 1 ? 1 : 1 + below(d, one_in(d, 3) ? names : (names + 1) / 2);
        if (part > names - placed)
            part = names - placed;
        bool empty = depth > 1 && one_in(d, 20);
        last = add_member(s, me, last, grow(s, empty ? 0 : part, depth - 1));
        placed += empty ? 0 : part;
    }
    roll_mark(s, me, s->marked, first);
    return me;
}

/* ---- deep models ---- */

/* How often, of a hundred groups inside each other, one is so. */
struct habit {
    size_t alone;  /* the next group is its only member */
    size_t turned; /* the next group has a sign of its own choice */
    size_t marked;
    size_t empty; /* `()`, or what is none but for its brackets, stands beside it */
};

/* A name, `()` or a small group. */
static size_t grow_small(struct sketch *s)
{
    size_t names = one_in(&s->dice, 4) ? 0 : one_in(&s->dice, 8) ? 2 : 1;
    return grow(s, s->atoms + names > NAMES ? 0 : names, 2);
}

/* So many groups inside each other, small members beside them, seldom a second such member. */
static size_t grow_deep(struct sketch *s, const struct habit *h, char sign, size_t groups)
{
    struct dice *d = &s->dice;
    if (groups == 0)
        return grow_small(s);
    size_t me = new_member(s, sign), before = s->atoms;
    char inner = chance(d, h->turned) ? ",|&"[below(d, 3)] : sign;
    size_t first = grow_deep(s, h, inner, groups - 1), last = first;
    for (size_t more = chance(d, h->alone) ? 0 : 1 + one_in(d, 4); more > 0; more--) {
        size_t beside = one_in(d, 60) ? grow_deep(s, h, inner, groups / 2) : grow_small(s);
        if (one_in(d, 2)) {
            s->member[beside].next = first;
            first = beside;
        } else {
            s->member[last].next = beside;
            last = beside;
        }
    }
    s->member[me].first = first;
    roll_mark(s, me, h->marked, before);
    return me;
}

/* ---- models with much to tidy ---- */

/* Every other one with a count; some of these are left out or written otherwise. */
static size_t grow_counted(struct sketch *s, const struct habit *h)
{
    static const struct {
        unsigned min, max;
    } COUNTS[] = {
        {1, 1}, {0, 1}, {0, 0}, {0, 2}, {1, 0}, {1, 2}, {2, 2}, {0, 10}, {1, 11}, {10, 21}, {11, 0},
    };
    size_t me = new_member(s, 'a'), kind = below(&s->dice, 2 * LENGTH(COUNTS));
    struct member *m = &s->member[me];
    m->name = s->atoms++;
    m->counted = kind < LENGTH(COUNTS);
    if (m->counted) {
        m->min = COUNTS[kind].min;
        m->max = COUNTS[kind].max;
    }
    roll_mark(s, me, h->marked, m->name);
    return me;
}

/* How many of these names go into the next member. */
static size_t share(struct sketch *s, const struct habit *h, size_t names, size_t depth)
{
    if (depth <= 1)
        return 1;
    return chance(&s->dice, h->alone) ? names : 1 + below(&s->dice, (names + 1) / 2);
}

/* A member with this many names below it, in a group of the sign; `depth` brackets may still be
   opened. */
static size_t grow_loose(struct sketch *s, const struct habit *h, char around, size_t names,
                         size_t depth)
{
    struct dice *d = &s->dice;
    if (names == 1 && (depth == 0 || !chance(d, h->alone)))
        return grow_counted(s, h);
    char sign = chance(d, h->turned) ? ",|&"[below(d, 3)] : around;
    size_t me = new_member(s, sign), last = 0, first = s->atoms;
    while (depth > 0) {
        if (chance(d, h->empty))
            last = add_member(s, me, last, grow_loose(s, h, sign, 0, depth / 3));
        if (names == 0)
            break;
        size_t part = share(s, h, names, depth);
        names -= part;
        last = add_member(s, me, last, grow_loose(s, h, sign, part, depth - 1));
    }
    roll_mark(s, me, h->marked, first);
    return me;
}

/* ---- texts ---- */

static void write_atom(const struct sketch *s, const struct member *m, struct text *t)
{
    char count[40] = "";
    put(t, s->name[m->name]);
    if (m->counted && m->max == 0)
        snprintf(count, sizeof count, "[%u..*]", m->min);
    else if (m->counted)
        snprintf(count, sizeof count, "[%u..%u]", m->min, m->max);
    put(t, count);
}

static void write_member(const struct sketch *s, size_t me, struct text *t)
{
    const struct member *m = &s->member[me];
    if (m->sign == 'a') {
        write_atom(s, m, t);
    } else {
        put(t, "(");
        for (size_t child = m->first; child != 0; child = s->member[child].next) {
            write_member(s, child, t);
            if (s->member[child].next != 0)
                put(t, (char[]){m->sign, 0});
        }
        put(t, ")");
    }
    put(t, (char[]){m->mark, 0});
}

/* ---- rows ---- */

struct row {
    uint8_t name[ROW];
    size_t len;
};

static void push(struct row *row, size_t name)
{
    if (row->len < ROW)
        row->name[row->len++] = (uint8_t)name;
}

/* Both rows shuffled into the first. */
static void riffle(struct dice *d, struct row *row, const struct row *more)
{
    struct row old = *row;
    size_t i = 0, k = 0;
    row->len = 0;
    while (i < old.len || k < more->len) {
        if (k == more->len || (i < old.len && one_in(d, 2)))
            push(row, old.name[i++]);
        else
            push(row, more->name[k++]);
    }
}

static void pick(struct sketch *s, size_t me, struct row *row);

static void pick_atom(struct sketch *s, const struct member *m, struct row *row)
{
    size_t most = m->max == 0 ? m->min + s->stretch : m->max;
    size_t count = m->min + below(&s->dice, most - m->min + 1);
    while (count-- > 0)
        push(row, m->name);
}

static void pick_choice(struct sketch *s, const struct member *m, struct row *row)
{
    size_t n = 0, child;
    for (child = m->first; child != 0; child = s->member[child].next)
        n++;
    child = m->first;
    for (size_t skip = n == 0 ? 0 : below(&s->dice, n); skip > 0; skip--)
        child = s->member[child].next;
    if (child != 0)
        pick(s, child, row);
}

/* Adds some row of the member, its mark left aside. */
static void pick_unmarked(struct sketch *s, const struct member *m, struct row *row)
{
    if (m->sign == 'a') {
        pick_atom(s, m, row);
    } else if (m->sign == '|') {
        pick_choice(s, m, row);
    } else {
        struct row all = {.len = 0};
        for (size_t child = m->first; child != 0; child = s->member[child].next) {
            struct row one = {.len = 0};
            pick(s, child, m->sign == ',' ? &all : &one);
            if (m->sign == '&')
                riffle(&s->dice, &all, &one);
        }
        for (size_t i = 0; i < all.len; i++)
            push(row, all.name[i]);
    }
}

/* Adds some row of the member; where `!` stands, seldom the empty row, which is none. */
static void pick(struct sketch *s, size_t me, struct row *row)
{
    const struct member *m = &s->member[me];
    size_t before = row->len;
    if (m->mark == '?' && one_in(&s->dice, 2))
        return;
    pick_unmarked(s, m, row);
    for (size_t tries = 0; m->mark == '!' && row->len == before && tries < 3; tries++)
        pick_unmarked(s, m, row);
}

/* ---- changes at one place ---- */

static void take_out(uint8_t *bytes, size_t *len, size_t at)
{
    if (at < *len)
        memmove(bytes + at, bytes + at + 1, --*len - at);
}

/* There is room for one more. */
static void put_in(uint8_t *bytes, size_t *len, size_t at, uint8_t byte)
{
    memmove(bytes + at + 1, bytes + at, (*len)++ - at);
    bytes[at] = byte;
}

/* One small change: cut off, take out, add or exchange; a number past the atoms is foreign. */
static void disturb(struct sketch *s, struct row *row)
{
    struct dice *d = &s->dice;
    size_t at = below(d, row->len + 1);
    switch (below(d, 5)) {
    case 0:
    case 1:
        row->len = at;
        break;
    case 2:
        take_out(row->name, &row->len, at);
        break;
    case 3:
        if (row->len < ROW)
            put_in(row->name, &row->len, at,
                   (uint8_t)below(d, s->atoms + one_in(d, 4) + (s->atoms == 0)));
        break;
    default:
        if (at < row->len) {
            size_t other = below(d, row->len);
            uint8_t name = row->name[at];
            row->name[at] = row->name[other];
            row->name[other] = name;
        }
    }
}

/* The same of a text: cut off, take out, add or exchange a byte for one of these. */
static void damage(struct dice *d, struct text *t, const char *bytes)
{
    size_t at = below(d, t->len + 1);
    uint8_t byte = (uint8_t)bytes[below(d, strlen(bytes))];
    switch (below(d, 7)) {
    case 0:
        t->len = at;
        break;
    case 1:
    case 2:
        take_out(t->byte, &t->len, at);
        break;
    case 3:
    case 4:
        put_in(t->byte, &t->len, at, byte);
        break;
    default:
        if (at < t->len)
            t->byte[at] = byte;
    }
}

/* ---- rows as texts ---- */

/* A name that is mostly not in the model, though close to one that may be. */
static void put_foreign(struct sketch *s, struct text *t)
{
    char name[NAME_ROOM + 1];
    strcpy(name, s->name[below(&s->dice, NAMES)]);
    size_t len = strlen(name);
    if (len < 32 && one_in(&s->dice, 2))
        strcpy(name + len, one_in(&s->dice, 2) ? "q" : "-");
    else if (len > 1 && one_in(&s->dice, 2))
        name[len - 1] = '\0';
    else
        name[below(&s->dice, len)] = 'b';
    put(t, name);
}

static void write_row(struct sketch *s, const struct row *row, struct text *t)
{
    begin(t, "");
    for (size_t i = 0; i < row->len; i++) {
        put(t, i == 0 ? "" : "\t");
        if (row->name[i] < s->atoms)
            put(t, s->name[row->name[i]]);
        else
            put_foreign(s, t);
    }
}

/* ---- whole cases ---- */

/* Short names that begin one another, in disorder, seldom one of them twice. */
static void short_names(struct sketch *s)
{
    static const char *const SHORT[FEW] = {
        "a", "b", "A", "ab", "a.", "a1", "Ba", "_-2", "aBc", "z:",
    };
    size_t start = below(&s->dice, FEW), step = one_in(&s->dice, 2) ? 3 : 7;
    for (size_t k = 0; k < NAMES; k++)
        strcpy(s->name[k], SHORT[(start + k * step) % FEW]);
    if (one_in(&s->dice, 40))
        strcpy(s->name[1 + below(&s->dice, 5)], s->name[0]);
}

/* Names of 1 to 32 characters that all differ. */
static void long_names(struct sketch *s)
{
    static const char FILLING[] =
        "abcdefghijklmnopqrstuvwxyzABCDEFGHIJKLMNOPQRSTUVWXYZ0123456789_-.:";
    for (size_t k = 0; k < NAMES; k++) {
        int used = snprintf(s->name[k], NAME_ROOM, "%c%zu-", (char)('a' + k % 26), k);
        size_t len = (size_t)used + below(&s->dice, one_in(&s->dice, 4) ? 33 - (size_t)used : 6);
        for (size_t i = (size_t)used; i < len; i++)
            s->name[k][i] = FILLING[below(&s->dice, sizeof FILLING - 1)];
        s->name[k][len] = '\0';
    }
}

/* Names of five letters out of three, one of them in both cases: many share length, letters, first
   and last. */
static void alike_names(struct sketch *s)
{
    for (size_t k = 0; k < NAMES; k++)
        for (size_t i = 0, rest = 3 * k; i < 6; i++, rest /= 3)
            s->name[k][i] = i == 5 ? '\0' : "aAb"[(rest + i) % 3];
}

/* Names of which each begins all longer ones, of two such kinds. */
static void nested_names(struct sketch *s)
{
    char longest[2][NAME_ROOM];
    for (size_t k = 0; k < 2; k++)
        for (size_t i = 0; i < 32; i++)
            longest[k][i] = i == 0 ? "ma"[k] : "aZz09-_.:"[below(&s->dice, 9)];
    for (size_t k = 0; k < NAMES; k++) {
        size_t len = k / 2 + 1;
        memcpy(s->name[k], longest[k % 2], len);
        s->name[k][len] = '\0';
    }
}

/* Names with one beginning, of any length, that differ in the two bytes behind it. */
static void common_names(struct sketch *s)
{
    char beginning[NAME_ROOM] = "c";
    size_t len = below(&s->dice, 31);
    for (size_t i = 1; i < len; i++)
        beginning[i] = "aZz09-_.:"[below(&s->dice, 9)];
    for (size_t k = 0; k < NAMES; k++) {
        memcpy(s->name[k], beginning, len);
        s->name[k][len] = "aAbB_wXz"[k / 8];
        s->name[k][len + 1] = "-.0:aA_z"[k % 8];
        s->name[k][len + 2] = '\0';
    }
}

static void shuffle_names(struct sketch *s, size_t names)
{
    for (size_t k = names; k > 1; k--) {
        char old[NAME_ROOM];
        size_t other = below(&s->dice, k);
        memcpy(old, s->name[k - 1], NAME_ROOM);
        memmove(s->name[k - 1], s->name[other], NAME_ROOM);
        memcpy(s->name[other], old, NAME_ROOM);
    }
}

/* The model's text, and a row that mostly is of it or near it. */
static void write_case(struct sketch *s, size_t top, struct text *model, struct text *children)
{
    struct row row = {.len = 0};
    begin(model, "");
    write_member(s, top, model);
    if (one_in(&s->dice, 8)) {
        for (size_t n = below(&s->dice, 6); n > 0; n--)
            push(&row, below(&s->dice, s->atoms + 1));
    } else {
        pick(s, top, &row);
        for (size_t changes = below(&s->dice, 4); changes > 0; changes--)
            disturb(s, &row);
    }
    write_row(s, &row, children);
}

/* A new model. */
static void make_case(struct sketch *s, size_t names, size_t depth, struct text *model,
                      struct text *children)
{
    s->members = s->atoms = 0;
    write_case(s, grow(s, names, depth), model, children);
}

/* The arguments of make_case are rolled one by one, so that the seed fixes their order too. */
static void make_small(struct sketch *s, struct text *model, struct text *children)
{
    s->stretch = 2;
    s->marked = 10 + below(&s->dice, 70);
    short_names(s);
    size_t depth = 1 + below(&s->dice, 4);
    make_case(s, below(&s->dice, 7), depth, model, children);
}

static void damage_model(struct sketch *s, struct text *model)
{
    for (size_t n = 1 + below(&s->dice, 3); n > 0; n--)
        damage(&s->dice, model, "()()[],,||&&!!??..*-0123459abcz%\n\tA \x80");
}

static void make_damaged(struct sketch *s, struct text *model, struct text *children)
{
    make_small(s, model, children);
    if (one_in(&s->dice, 5))
        damage(&s->dice, children, "\t\tabc1-A% \n");
    else
        damage_model(s, model);
}

/* One in eight is damaged too. */
static void make_deep(struct sketch *s, struct text *model, struct text *children)
{
    struct habit h;
    s->stretch = 2;
    s->marked = 30;
    alike_names(s);
    size_t groups = 17 + below(&s->dice, 54);
    size_t wide = 10 + below(&s->dice, groups < 45 ? groups - 10 : 35); /* so many not alone */
    h.alone = 100 - 100 * wide / groups;
    h.turned = below(&s->dice, 150);
    h.marked = below(&s->dice, 60);
    s->members = s->atoms = 0;
    write_case(s, grow_deep(s, &h, ",|&"[groups % 3], groups), model, children);
    if (one_in(&s->dice, 8))
        damage_model(s, model);
}

static void make_large(struct sketch *s, struct text *model, struct text *children)
{
    s->stretch = (size_t)2 << below(&s->dice, 12);
    s->marked = 10 + below(&s->dice, 70);
    if (one_in(&s->dice, 3))
        alike_names(s);
    else
        long_names(s);
    size_t depth = 1 + below(&s->dice, 16);
    make_case(s, 7 + below(&s->dice, NAMES - 6), depth, model, children);
}

/* Mostly with few names, which are in disorder. */
static void make_loose(struct sketch *s, struct text *model, struct text *children)
{
    static void (*const MAKE_NAMES[])(struct sketch *) = {
        nested_names, common_names, alike_names, long_names, short_names,
    };
    struct dice *d = &s->dice;
    struct habit h = {.alone = below(d, 40), .turned = below(d, 100), .marked = below(d, 80)};
    size_t names = one_in(d, 4) ? below(d, NAMES + 1) : below(d, FEW);
    h.empty = below(d, names > 30 ? 15 : 40);
    s->stretch = 2;
    MAKE_NAMES[below(d, names < FEW ? 5 : 4)](s);
    shuffle_names(s, names < FEW ? FEW : NAMES);
    s->members = s->atoms = 0;
    char sign = ",|&"[below(d, 3)];
    write_case(s, grow_loose(s, &h, sign, names, 1 + below(d, 20)), model, children);
}

typedef void make_texts(struct sketch *s, struct text *model, struct text *children);

static void try_made(make_texts *make, uint64_t seed, unsigned how_many, try_call *f,
                     struct report *to)
{
    static struct text model, children;
    static struct sketch s;
    s.dice.state = seed;
    for (unsigned i = 0; i < how_many; i++) {
        make(&s, &model, &children);
        f(to, (struct call){written(&model), children.len == 0 ? NO_BYTES : written(&children)});
    }
}

void try_random(uint64_t seed, struct amounts how_many, try_call *f, struct report *to)
{
    try_made(make_small, seed, how_many.small, f, to);
    try_made(make_damaged, seed + 1, how_many.damaged, f, to);
    try_made(make_large, seed + 2, how_many.large, f, to);
    try_made(make_deep, seed + 3, how_many.deep, f, to);
    try_made(make_loose, seed + 4, how_many.loose, f, to);
}
