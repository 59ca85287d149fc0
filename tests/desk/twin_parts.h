/* The parts of the plain C twin.

   The model text is read by recursive descent into nodes in the order they begin. Judging is two
   passes: one over the children, which notes for each name how often, from where and up to where it
   stands; one over the nodes, last to first, with a stack that holds for each member what the row
   looks like through that member's names alone. Where over 16 brackets were open at once, a walk
   over the nodes between reading and judging counts the depth. No state outlives a call.

   The functions are static and stand here so that twin.c, which is timed, has a copy of its own for
   the compiler to place in its one caller. */
#ifndef TWIN_PARTS_H
#define TWIN_PARTS_H

#include <stdbool.h>
#include <stddef.h>
#include <stdint.h>
#include <string.h>

enum {
    MAX_TEXT = 4096,
    MAX_NAME = 32,
    MAX_COUNT = 60000,
    MAX_DEPTH = 16, /* groups around an atom, after flattening */
    MAX_OPEN = 64,  /* round brackets open at once */
    MAX_ATOMS = 64,
    MAX_NODES = 128,
    MAX_CHILDREN_TEXT = 65535,
    MAX_CHILDREN = 4096,
    SLOT_BITS = 8,
    SLOTS = 1 << SLOT_BITS /* of the name table: at most a quarter is used */
};

enum answer {
    COMPLETE = 0,
    OPEN = 1,
    DEAD = 2,
    MODEL_SIZE = 10,
    SPELLING = 11,
    LONG_NAME = 12,
    WRONG_COUNT = 13,
    TOO_DEEP = 14,
    MANY_ATOMS = 15,
    MANY_NODES = 16,
    REPEATED_NAME = 17,
    NO_ATOM = 18,
    MANY_BRACKETS = 19,
    CHILDREN_SIZE = 30,
    NO_NAME = 35,
    MANY_CHILDREN = 36,
    SHORT_ROW = 46,
    LONG_TEXT = 51
};

static const uint32_t REFUSED = 1u << 31;     /* is added to a refusal, save the judge's */
static const uint32_t UNBOUNDED = UINT32_MAX; /* the upper count `*` */
static const uint32_t NOWHERE = UINT32_MAX;   /* the first place of a name that is not there */

/* ---- names ---- */

/* Letters of either case, digits, underscore, hyphen, dot and colon. */
static const bool NAME_BYTE[256] = {
    ['a'] = 1, ['b'] = 1, ['c'] = 1, ['d'] = 1, ['e'] = 1, ['f'] = 1, ['g'] = 1, ['h'] = 1,
    ['i'] = 1, ['j'] = 1, ['k'] = 1, ['l'] = 1, ['m'] = 1, ['n'] = 1, ['o'] = 1, ['p'] = 1,
    ['q'] = 1, ['r'] = 1, ['s'] = 1, ['t'] = 1, ['u'] = 1, ['v'] = 1, ['w'] = 1, ['x'] = 1,
    ['y'] = 1, ['z'] = 1, ['A'] = 1, ['B'] = 1, ['C'] = 1, ['D'] = 1, ['E'] = 1, ['F'] = 1,
    ['G'] = 1, ['H'] = 1, ['I'] = 1, ['J'] = 1, ['K'] = 1, ['L'] = 1, ['M'] = 1, ['N'] = 1,
    ['O'] = 1, ['P'] = 1, ['Q'] = 1, ['R'] = 1, ['S'] = 1, ['T'] = 1, ['U'] = 1, ['V'] = 1,
    ['W'] = 1, ['X'] = 1, ['Y'] = 1, ['Z'] = 1, ['0'] = 1, ['1'] = 1, ['2'] = 1, ['3'] = 1,
    ['4'] = 1, ['5'] = 1, ['6'] = 1, ['7'] = 1, ['8'] = 1, ['9'] = 1, ['_'] = 1, ['-'] = 1,
    ['.'] = 1, [':'] = 1,
};

/* A name begins with a letter or an underscore. */
static bool is_initial(int byte)
{
    return (byte >= 'a' && byte <= 'z') || (byte >= 'A' && byte <= 'Z') || byte == '_';
}

/* A name as it stands in a text. */
struct name {
    const uint8_t *at;
    uint32_t len;
    uint32_t hash;
};

/* The names of a model, numbered from 1; a slot holds a number, or 0 if it is free. */
struct names {
    uint32_t count;
    uint8_t slot[SLOTS];
    struct name name[MAX_ATOMS + 1];
};

/* The longest run of name bytes from `at`. */
static inline struct name scan_name(const uint8_t *text, size_t len, size_t at)
{
    uint32_t hash = 0;
    size_t end = at;
    for (; end < len && NAME_BYTE[text[end]]; end++)
        hash = (hash << 5 | hash >> 27) ^ text[end];
    return (struct name){text + at, (uint32_t)(end - at), hash};
}

static inline bool same_name(const struct name *a, const struct name *b)
{
    return a->hash == b->hash && a->len == b->len && memcmp(a->at, b->at, a->len) == 0;
}

/* The slot that holds the name, or the free one where it belongs. */
static inline uint32_t find_slot(const struct names *names, const struct name *name)
{
    uint32_t slot = name->hash * 2654435769u >> (32 - SLOT_BITS);
    while (names->slot[slot] != 0 && !same_name(&names->name[names->slot[slot]], name))
        slot = (slot + 1) % SLOTS;
    return slot;
}

/* ---- the model text ---- */

enum kind { ATOM, SEQUENCE, CHOICE, INTERLEAVING };

enum mark { PLAIN, OPTIONAL, NONEMPTY }; /* none, `?`, `!` */

struct node {
    uint8_t kind; /* a group of under two members counts as a sequence */
    uint8_t mark;
    uint16_t members; /* of a group */
    uint32_t min, max; /* of an atom */
};

struct rule {
    uint32_t node_count;
    struct node node[MAX_NODES];
    struct names names;
};

struct reader {
    const uint8_t *text;
    size_t len;
    size_t at;
    struct rule *rule;
    bool deep; /* over MAX_DEPTH brackets were open at once */
    uint32_t refusal;
    size_t place;
};

static bool refuse(struct reader *r, uint32_t refusal, size_t place)
{
    r->refusal = refusal;
    r->place = place;
    return false;
}

/* The next byte, or -1 at the end. */
static inline int peek(const struct reader *r) { return r->at < r->len ? r->text[r->at] : -1; }

static bool expect(struct reader *r, int byte)
{
    if (peek(r) != byte)
        return refuse(r, SPELLING, r->at);
    r->at++;
    return true;
}

/* A decimal number without leading zeros; beyond MAX_COUNT it stays at MAX_COUNT + 1. */
static bool read_number(struct reader *r, uint32_t *value)
{
    int byte = peek(r);
    if (byte < '0' || byte > '9')
        return refuse(r, SPELLING, r->at);
    *value = 0;
    do {
        *value = *value * 10 + (uint32_t)(byte - '0');
        if (*value > MAX_COUNT)
            *value = MAX_COUNT + 1;
        r->at++;
        byte = peek(r);
    } while (*value != 0 && byte >= '0' && byte <= '9');
    return true;
}

/* `[m..n]` or `[m..*]` */
static bool read_count(struct reader *r, uint32_t *min, uint32_t *max)
{
    if (!expect(r, '[') || !read_number(r, min) || !expect(r, '.') || !expect(r, '.'))
        return false;
    bool bounded = peek(r) != '*';
    if (!bounded) {
        r->at++;
        *max = UNBOUNDED;
    } else if (!read_number(r, max)) {
        return false;
    }
    size_t bracket = r->at;
    if (!expect(r, ']'))
        return false;
    if (*min > MAX_COUNT || *max == 0 || *max < *min || (bounded && *max > MAX_COUNT))
        return refuse(r, WRONG_COUNT, bracket);
    return true;
}

static bool read_atom(struct reader *r)
{
    struct rule *rule = r->rule;
    struct names *names = &rule->names;
    struct name name = scan_name(r->text, r->len, r->at);
    if (name.len > MAX_NAME)
        return refuse(r, LONG_NAME, r->at);
    if (names->count == MAX_ATOMS)
        return refuse(r, MANY_ATOMS, r->at);
    if (rule->node_count == MAX_NODES)
        return refuse(r, MANY_NODES, r->at);
    uint32_t slot = find_slot(names, &name);
    if (names->slot[slot] != 0)
        return refuse(r, REPEATED_NAME, r->at);
    names->slot[slot] = (uint8_t)++names->count;
    names->name[names->count] = name;
    struct node *node = &rule->node[rule->node_count++];
    *node = (struct node){.kind = ATOM, .min = 1, .max = 1};
    r->at += name.len;
    return peek(r) != '[' || read_count(r, &node->min, &node->max);
}

static bool read_member(struct reader *r, uint32_t open);

/* The kind of group that a sign makes; ATOM for a byte that is no sign. */
static enum kind kind_of_sign(int byte)
{
    return byte == ',' ? SEQUENCE : byte == '|' ? CHOICE : byte == '&' ? INTERLEAVING : ATOM;
}

/* `open` brackets are open around this group. */
static bool read_group(struct reader *r, uint32_t open)
{
    if (r->rule->node_count == MAX_NODES)
        return refuse(r, MANY_NODES, r->at);
    if (open == MAX_OPEN)
        return refuse(r, MANY_BRACKETS, r->at);
    r->deep |= open >= MAX_DEPTH;
    struct node *node = &r->rule->node[r->rule->node_count++];
    *node = (struct node){.kind = SEQUENCE};
    r->at++;
    if (peek(r) == ')') {
        r->at++;
        return true;
    }
    for (int sign = 0;; r->at++) {
        if (!read_member(r, open + 1))
            return false;
        node->members++;
        int byte = peek(r);
        if (byte == ')')
            break;
        if (kind_of_sign(byte) == ATOM || (sign != 0 && byte != sign))
            return refuse(r, SPELLING, r->at);
        sign = byte;
        node->kind = (uint8_t)kind_of_sign(sign);
    }
    r->at++;
    return true;
}

/* Is one of the nodes from this one on an atom? */
static bool has_atom(const struct rule *rule, const struct node *node)
{
    while (node < rule->node + rule->node_count)
        if (node++->kind == ATOM)
            return true;
    return false;
}

static bool read_member(struct reader *r, uint32_t open)
{
    struct node *node = &r->rule->node[r->rule->node_count]; /* where the member begins */
    int byte = peek(r);
    if (byte != '(' && !is_initial(byte))
        return refuse(r, SPELLING, r->at);
    if (!(byte == '(' ? read_group(r, open) : read_atom(r)))
        return false;
    byte = peek(r);
    if (byte == '?') {
        node->mark = OPTIONAL;
        r->at++;
    } else if (byte == '!') {
        if (!has_atom(r->rule, node))
            return refuse(r, NO_ATOM, r->at);
        node->mark = NONEMPTY;
        r->at++;
    }
    return true;
}

/* ---- the depth ---- */

/* What flattening leaves of a member. */
struct flat {
    bool empty; /* nothing but `()` */
    uint8_t kind;
    bool marked; /* by `?` or `!`, which keep a group apart alike */
    uint8_t depth; /* the largest number of groups around an atom, at most MAX_OPEN */
};

/* Flattens the member that begins at *next, and moves on to the node behind it. A group of one is
   its member, with the group's mark if it has one; a group that joins another counts no more. */
static struct flat flatten(const struct node **next)
{
    const struct node *node = (*next)++;
    struct flat all = {.kind = node->kind, .marked = node->mark != PLAIN}, last = all;
    if (node->kind == ATOM)
        return all;
    uint32_t left = 0; /* members that are not `()` */
    for (uint32_t i = 0; i < node->members; i++) {
        struct flat member = flatten(next);
        if (member.empty) {
            all.marked |= node->kind == CHOICE;
            continue;
        }
        bool joins = member.kind == node->kind && !member.marked;
        uint8_t depth = joins ? member.depth : member.depth + 1;
        if (depth > all.depth)
            all.depth = depth;
        last = member;
        left++;
    }
    if (left == 0)
        return (struct flat){.empty = true};
    last.marked |= all.marked;
    return left == 1 ? last : all;
}

static bool is_too_deep(const struct rule *rule)
{
    const struct node *first = rule->node;
    return flatten(&first).depth > MAX_DEPTH;
}

/* ---- the whole text ---- */

/* Fills the rule and gives 0, or gives the refusal and its place. */
static uint32_t read_model(const uint8_t *text, size_t len, struct rule *rule, size_t *place)
{
    *place = 0;
    if (len == 0 || len > MAX_TEXT)
        return MODEL_SIZE;
    rule->node_count = 0;
    rule->names.count = 0;
    memset(rule->names.slot, 0, sizeof rule->names.slot);
    struct reader r = {.text = text, .len = len, .rule = rule};
    if (read_member(&r, 0)) {
        if (r.at != len)
            refuse(&r, SPELLING, r.at);
        else if (r.deep && is_too_deep(rule))
            refuse(&r, TOO_DEEP, len);
    }
    *place = r.place;
    return r.refusal;
}

/* ---- the first pass: children ---- */

/* What the row holds of one name. */
struct tally {
    uint32_t count;
    uint32_t first;  /* its first place, or NOWHERE */
    uint32_t behind; /* one past its last place, or 0 */
};

/* Fills a tally for each name, and tally 0 for all foreign ones; gives 0 or the refusal. */
static uint32_t tally_children(const struct names *names, const uint8_t *text, size_t len,
                               struct tally *tally)
{
    for (uint32_t k = 0; k <= names->count; k++)
        tally[k] = (struct tally){0, NOWHERE, 0};
    if (len == 0)
        return 0;
    uint32_t row = 0;
    for (size_t at = 0;; at++) {
        struct name name = scan_name(text, len, at);
        if (name.len == 0 || name.len > MAX_NAME || !is_initial(text[at]))
            return NO_NAME;
        struct tally *t = &tally[names->slot[find_slot(names, &name)]];
        if (t->count++ == 0)
            t->first = row;
        t->behind = ++row;
        at += name.len;
        if (at == len)
            break;
        if (text[at] != '\t')
            return NO_NAME;
    }
    return row > MAX_CHILDREN ? MANY_CHILDREN : 0;
}

/* ---- the second pass: nodes ---- */

/* The row as a member sees it: of its children only those whose names stand in the member. */
struct view {
    uint32_t first;  /* place of the first such child, or NOWHERE */
    uint32_t behind; /* one past the last such child, or 0 if there is none */
    bool done;       /* these children are a row of the member */
    bool alive;      /* or begin one */
};

static inline bool touched(struct view v) { return v.behind != 0; }

static inline struct view view_atom(const struct node *node, const struct tally *t)
{
    bool enough = t->count >= node->min;
    bool allowed = t->count <= node->max;
    return (struct view){t->first, t->behind, enough && allowed, allowed};
}

/* x, then y: nothing of x behind anything of y, and x whole before y begins. */
static inline struct view join_sequence(struct view x, struct view y)
{
    bool ordered = x.behind <= y.first;
    bool alive = touched(y) ? x.done & ordered & y.alive : x.alive;
    return (struct view){x.first < y.first ? x.first : y.first,
                         x.behind > y.behind ? x.behind : y.behind,
                         x.done & ordered & y.done, alive};
}

/* x or y: at most one of them is touched. */
static inline struct view join_choice(struct view x, struct view y)
{
    if (!touched(x) && !touched(y))
        return (struct view){NOWHERE, 0, x.done | y.done, true};
    if (!touched(y))
        return x;
    if (!touched(x))
        return y;
    return (struct view){x.first < y.first ? x.first : y.first,
                         x.behind > y.behind ? x.behind : y.behind, false, false};
}

/* x and y, shuffled: neither hinders the other. */
static inline struct view join_interleaving(struct view x, struct view y)
{
    return (struct view){x.first < y.first ? x.first : y.first,
                         x.behind > y.behind ? x.behind : y.behind,
                         x.done & y.done, x.alive & y.alive};
}

static struct view view_group(const struct node *node, const struct view *member)
{
    if (node->members == 0)
        return (struct view){NOWHERE, 0, true, true};
    struct view all = member[0];
    for (uint32_t i = 1; i < node->members; i++)
        all = node->kind == SEQUENCE ? join_sequence(all, member[i])
            : node->kind == CHOICE ? join_choice(all, member[i])
                                   : join_interleaving(all, member[i]);
    return all;
}

/* Last node first, so that a group finds its members on the stack, its first member on top. A mark
   speaks of the empty row alone: `?` adds it, `!` takes it away. */
static struct view view_model(const struct rule *rule, const struct tally *tally)
{
    struct view stack[MAX_NODES];
    struct view *top = stack + MAX_NODES;
    const struct tally *t = tally + rule->names.count;
    for (uint32_t i = rule->node_count; i-- > 0;) {
        const struct node *node = &rule->node[i];
        struct view v = node->kind == ATOM ? view_atom(node, t--) : view_group(node, top);
        if (node->mark != PLAIN && !touched(v))
            v.done = node->mark == OPTIONAL;
        top += node->members;
        *--top = v;
    }
    return *top;
}

/* ---- both passes ---- */

/* Fills the rule and the tallies, and gives 0 or the refusal. */
static inline uint32_t read_texts(const uint8_t *model, size_t model_len, const uint8_t *children,
                                  size_t children_len, struct rule *rule, struct tally *tally)
{
    size_t place;
    uint32_t refusal = read_model(model, model_len, rule, &place);
    if (refusal != 0)
        return refusal;
    if (children_len > MAX_CHILDREN_TEXT)
        return CHILDREN_SIZE;
    return tally_children(&rule->names, children, children_len, tally);
}

static inline enum answer verdict(const struct rule *rule, const struct tally *tally)
{
    if (tally[0].count != 0)
        return DEAD;
    struct view v = view_model(rule, tally);
    return v.done ? COMPLETE : v.alive ? OPEN : DEAD;
}

#endif
