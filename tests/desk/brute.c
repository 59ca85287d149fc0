/* A slow oracle for the desk.

   Spelling: an Earley recogniser over the grammar of document 01 says how many bytes of a text
   begin some model text, and where names and nodes begin. The other refusals are tested place by
   place, in the words of the table.

   Depth: the text is flattened by one small change after the other, in the words of document 02,
   W3, until no group is left to change; then brackets are counted.

   Verdict: the model as a type of document 001, with T! of document 002, derived (Brzozowski) by
   each child in turn. Two further ways must agree on small inputs: membership by definition 2.1
   word for word, and a search through derived types for a longer row.

   Next names: the verdict on the row with each name behind it.

   First fault: the first child with which the row begins no row of a looser model any more, the one
   of the same names in any order, each at most as often as its upper count. */
#include "brute.h"

#include <ctype.h>
#include <stdbool.h>
#include <stdlib.h>
#include <string.h>

static void *grown(void *block, size_t bytes)
{
    block = realloc(block, bytes);
    if (block == NULL)
        abort();
    return block;
}

/* ---- the grammar ---- */

/* Upper case letters are nonterminals, M the model; @ is a letter or an underscore, # a digit, % a
   digit but 0. */
static const struct production {
    char left;
    const char *right;
} GRAMMAR[] = {
    {'M', "A"}, {'M', "A?"}, {'M', "A!"}, {'M', "G"}, {'M', "G?"}, {'M', "G!"},
    {'A', "N"}, {'A', "N[D..D]"}, {'A', "N[D..*]"},
    {'N', "@"}, {'N', "N@"}, {'N', "N#"}, {'N', "N-"}, {'N', "N."}, {'N', "N:"},
    {'D', "0"}, {'D', "P"}, {'P', "%"}, {'P', "P#"},
    {'G', "()"}, {'G', "(M)"}, {'G', "(S)"}, {'G', "(C)"}, {'G', "(I)"},
    {'S', "M,M"}, {'S', "S,M"},
    {'C', "M|M"}, {'C', "C|M"},
    {'I', "M&M"}, {'I', "I&M"},
};

enum { PRODUCTIONS = sizeof GRAMMAR / sizeof GRAMMAR[0] };

static bool is_nonterminal(char symbol) { return symbol >= 'A' && symbol <= 'Z'; }

/* A nonterminal matches no byte. */
static bool matches(char symbol, uint8_t byte)
{
    switch (symbol) {
    case '@': return isalpha(byte) || byte == '_';
    case '#': return byte >= '0' && byte <= '9';
    case '%': return byte >= '1' && byte <= '9';
    default: return !is_nonterminal(symbol) && byte == (uint8_t)symbol;
    }
}

/* ---- Earley's recogniser; no production is empty ---- */

struct item {
    const struct production *production;
    size_t dot;    /* symbols already found */
    size_t origin; /* the place where the first one begins */
};

/* Set p holds what can be under way after p bytes: items[begin[p]] to items[begin[p + 1]]. */
struct chart {
    struct item *items;
    size_t *begin;
    size_t count, room;
};

static char next_symbol(const struct item *item) { return item->production->right[item->dot]; }

static void add_item(struct chart *chart, size_t set, struct item item)
{
    for (size_t i = chart->begin[set]; i < chart->count; i++) {
        const struct item *old = &chart->items[i];
        if (old->production == item.production && old->dot == item.dot
            && old->origin == item.origin)
            return;
    }
    if (chart->count == chart->room) {
        chart->room = 2 * chart->room + 64;
        chart->items = grown(chart->items, chart->room * sizeof *chart->items);
    }
    chart->items[chart->count++] = item;
}

static void predict(struct chart *chart, size_t set, char left)
{
    for (size_t i = 0; i < PRODUCTIONS; i++)
        if (GRAMMAR[i].left == left)
            add_item(chart, set, (struct item){&GRAMMAR[i], 0, set});
}

/* The whole of a production was found: what waited for its left side goes on. */
static void complete(struct chart *chart, size_t set, struct item done)
{
    for (size_t i = chart->begin[done.origin]; i < chart->begin[done.origin + 1]; i++) {
        struct item item = chart->items[i];
        if (next_symbol(&item) == done.production->left)
            add_item(chart, set, (struct item){item.production, item.dot + 1, item.origin});
    }
}

static void close_set(struct chart *chart, size_t set)
{
    for (size_t i = chart->begin[set]; i < chart->count; i++) {
        struct item item = chart->items[i];
        if (next_symbol(&item) == '\0')
            complete(chart, set, item);
        else if (is_nonterminal(next_symbol(&item)))
            predict(chart, set, next_symbol(&item));
    }
    chart->begin[set + 1] = chart->count;
}

/* Reads byte `set`, from that set into the next one; false if no model begins so. */
static bool advance(struct chart *chart, size_t set, uint8_t byte)
{
    for (size_t i = chart->begin[set]; i < chart->begin[set + 1]; i++) {
        struct item item = chart->items[i];
        if (next_symbol(&item) != '\0' && matches(next_symbol(&item), byte))
            add_item(chart, set + 1, (struct item){item.production, item.dot + 1, item.origin});
    }
    if (chart->count == chart->begin[set + 1])
        return false;
    close_set(chart, set + 1);
    return true;
}

/* Has byte p begun a part of this kind? */
static bool begins(const struct chart *chart, char left, size_t p)
{
    for (size_t i = chart->begin[p + 1]; i < chart->begin[p + 2]; i++) {
        const struct item *item = &chart->items[i];
        if (item->production->left == left && item->dot == 1 && item->origin == p)
            return true;
    }
    return false;
}

/* Are the first n bytes a model? */
static bool is_model(const struct chart *chart, size_t n)
{
    for (size_t i = chart->begin[n]; i < chart->begin[n + 1]; i++) {
        const struct item *item = &chart->items[i];
        if (item->production->left == 'M' && item->origin == 0 && next_symbol(item) == '\0')
            return true;
    }
    return false;
}

/* What the grammar says of a text. */
struct spelling {
    size_t good;   /* so many bytes begin some model text */
    bool whole;    /* all of them are one */
    bool *name_at; /* a name begins at this place */
    bool *node_at; /* a node begins at this place */
};

static struct spelling spell(const uint8_t *text, size_t len)
{
    struct chart chart = {NULL, grown(NULL, (len + 2) * sizeof(size_t)), 0, 0};
    struct spelling s = {0, false, grown(NULL, len + 1), grown(NULL, len + 1)};
    chart.begin[0] = 0;
    predict(&chart, 0, 'M');
    close_set(&chart, 0);
    while (s.good < len && advance(&chart, s.good, text[s.good])) {
        size_t p = s.good++;
        s.name_at[p] = begins(&chart, 'N', p);
        s.node_at[p] = s.name_at[p] || begins(&chart, 'G', p);
    }
    s.whole = s.good == len && is_model(&chart, len);
    free(chart.items);
    free(chart.begin);
    return s;
}

static void free_spelling(struct spelling *s)
{
    free(s->name_at);
    free(s->node_at);
}

/* ---- the other refusals of a model text, each at one place ---- */

static bool is_name_byte(uint8_t byte)
{
    return matches('@', byte) || matches('#', byte) || byte == '-' || byte == '.' || byte == ':';
}

static size_t name_length(const uint8_t *text, size_t len, size_t place)
{
    size_t end = place;
    while (end < len && is_name_byte(text[end]))
        end++;
    return end - place;
}

static size_t how_many(const bool *flags, size_t before)
{
    size_t n = 0;
    for (size_t i = 0; i < before; i++)
        n += flags[i];
    return n;
}

static size_t how_many_bytes(const uint8_t *text, size_t before, char byte)
{
    size_t n = 0;
    for (size_t i = 0; i < before; i++)
        n += text[i] == (uint8_t)byte;
    return n;
}

/* Decimal numbers without leading zeros, as digits: is a below b? */
static bool below(const uint8_t *a, size_t a_len, const uint8_t *b, size_t b_len)
{
    return a_len != b_len ? a_len < b_len : memcmp(a, b, a_len) < 0;
}

/* The count that ends at this `]`: n is 0, n below m, or a number over 60,000. */
static bool wrong_count(const uint8_t *text, size_t bracket)
{
    static const uint8_t limit[] = "60000";
    size_t start = bracket, dots;
    while (text[start - 1] != '[')
        start--;
    for (dots = start; text[dots] != '.'; dots++)
        ;
    const uint8_t *m = text + start, *n = text + dots + 2;
    size_t m_len = dots - start, n_len = bracket - dots - 2;
    if (below(limit, 5, m, m_len))
        return true;
    if (*n == '*')
        return false;
    return *n == '0' || below(n, n_len, m, m_len) || below(limit, 5, n, n_len);
}

static bool written_before(const uint8_t *text, size_t len, const struct spelling *s, size_t place)
{
    size_t n = name_length(text, len, place);
    for (size_t q = 0; q < place; q++)
        if (s->name_at[q] && name_length(text, len, q) == n
            && memcmp(text + q, text + place, n) == 0)
            return true;
    return false;
}

/* Where the group that this bracket closes begins. */
static size_t group_begin(const uint8_t *text, size_t close)
{
    size_t p = close;
    for (size_t open = 1; open > 0;) {
        p--;
        open += text[p] == ')';
        open -= text[p] == '(';
    }
    return p;
}

/* Does the member that ends before this place have no atom? */
static bool is_atomless(const uint8_t *text, const struct spelling *s, size_t end)
{
    return text[end - 1] == ')'
           && how_many(s->name_at, end) == how_many(s->name_at, group_begin(text, end - 1));
}

/* Does this refusal of the table, 12 to 19 but for 14, stand at this place? */
static bool stands(uint32_t number, const uint8_t *text, size_t len, const struct spelling *s,
                   size_t p)
{
    switch (number) {
    case 12: return s->name_at[p] && name_length(text, len, p) > 32;
    case 13: return text[p] == ']' && wrong_count(text, p);
    case 15: return s->name_at[p] && how_many(s->name_at, p + 1) > 64;
    case 16: return s->node_at[p] && how_many(s->node_at, p + 1) > 128;
    case 17: return s->name_at[p] && written_before(text, len, s, p);
    case 18: return text[p] == '!' && is_atomless(text, s, p);
    case 19: return text[p] == '('
                    && how_many_bytes(text, p + 1, '(') > 64 + how_many_bytes(text, p, ')');
    default: return false;
    }
}

/* ---- the depth of a model text ---- */

/* Where the first member of these ends: at the first sign outside inner brackets, round or
   curly. */
static size_t member_length(const uint8_t *text, size_t len)
{
    size_t depth = 0, i;
    for (i = 0; i < len; i++) {
        if (depth == 0 && (text[i] == ',' || text[i] == '|' || text[i] == '&'))
            break;
        depth += text[i] == '(' || text[i] == '{';
        depth -= text[i] == ')' || text[i] == '}';
    }
    return i;
}

/* A model text in which every atom is an `a`, without count and mark. Groups in curly brackets are
   flattened, those in round ones not yet. */
struct shape {
    uint8_t *text;
    size_t len;
};

/* A group of a shape, by its brackets. */
struct group {
    size_t open, close;
    char sign; /* of a group of one or none `)` */
    bool marked;
};

static bool is_mark(uint8_t byte) { return byte == '?' || byte == '!'; }

/* How long the atom at this place is, with count and mark; 0 where there is none. */
static size_t atom_length(const uint8_t *text, size_t len, size_t place)
{
    size_t n = name_length(text, len, place), end = place + n;
    if (n != 0 && end < len && text[end] == '[')
        while (text[end++] != ']')
            ;
    if (n != 0 && end < len && is_mark(text[end]))
        end++;
    return end - place;
}

static struct shape shape_of(const uint8_t *text, size_t len)
{
    struct shape s = {grown(NULL, len), 0};
    for (size_t i = 0; i < len;) {
        size_t n = atom_length(text, len, i);
        s.text[s.len++] = n == 0 ? text[i] : 'a';
        i += n == 0 ? 1 : n;
    }
    return s;
}

static void cut(struct shape *s, size_t at, size_t n)
{
    s->len -= n;
    memmove(s->text + at, s->text + at + n, s->len - at);
}

/* Puts a `?` behind this bracket; there is room for it where something was cut. */
static void mark(struct shape *s, size_t bracket)
{
    memmove(s->text + bracket + 2, s->text + bracket + 1, s->len - bracket - 1);
    s->text[bracket + 1] = '?';
    s->len++;
}

/* The byte behind the first member of the group that this bracket opens. */
static char sign_of(const struct shape *s, size_t open, size_t close)
{
    return (char)s->text[open + 1 + member_length(s->text + open + 1, close - open - 1)];
}

/* The first group to close of those in round brackets; false if there is none. */
static bool innermost(const struct shape *s, struct group *g)
{
    const uint8_t *close = memchr(s->text, ')', s->len);
    if (close == NULL)
        return false;
    g->close = g->open = (size_t)(close - s->text);
    while (s->text[g->open] != '(')
        g->open--;
    g->sign = sign_of(s, g->open, g->close);
    g->marked = g->close + 1 < s->len && is_mark(s->text[g->close + 1]);
    return true;
}

/* A member `()` goes, and a sign beside it if there is one; it marks a choice that has no mark. */
static bool drop_empty(struct shape *s, struct group g)
{
    for (size_t at = g.open + 1, n; at < g.close; at += n + 1) {
        n = member_length(s->text + at, g.close - at);
        if (s->text[at] != '{' || s->text[at + 1] != '}')
            continue;
        size_t length = g.sign == ')' ? n : n + 1;
        cut(s, at > g.open + 1 ? at - 1 : at, length);
        if (g.sign == '|' && !g.marked)
            mark(s, g.close - length);
        return true;
    }
    return false;
}

/* A group without members is `()`, and no mark stays on it. */
static bool finish_empty(struct shape *s, struct group g)
{
    if (g.close != g.open + 1)
        return false;
    memcpy(s->text + g.open, "{}", 2);
    if (g.marked)
        cut(s, g.close + 1, 1);
    return true;
}

/* A group of one goes; its mark, if it has one, takes the place of the member's. */
static bool dissolve(struct shape *s, struct group g)
{
    if (g.sign != ')')
        return false;
    size_t lost = g.marked && is_mark(s->text[g.close - 1]) ? 2 : 1;
    cut(s, g.close + 1 - lost, lost);
    cut(s, g.open, 1);
    return true;
}

/* The brackets of an unmarked member of the same sign go. */
static bool join(struct shape *s, struct group g)
{
    for (size_t at = g.open + 1, n; at < g.close; at += n + 1) {
        n = member_length(s->text + at, g.close - at);
        size_t last = at + n - 1;
        if (s->text[last] != '}' || sign_of(s, at, last) != g.sign)
            continue;
        cut(s, last, 1);
        cut(s, at, 1);
        return true;
    }
    return false;
}

static void finish(struct shape *s, struct group g)
{
    s->text[g.open] = '{';
    s->text[g.close] = '}';
}

/* The largest number of groups around an atom, after flattening. */
static size_t depth_of(const uint8_t *text, size_t len)
{
    struct shape s = shape_of(text, len);
    struct group g;
    while (innermost(&s, &g))
        if (!drop_empty(&s, g) && !finish_empty(&s, g) && !dissolve(&s, g) && !join(&s, g))
            finish(&s, g);
    size_t depth = 0, around = 0;
    for (size_t i = 0; i < s.len; i++) {
        around += s.text[i] == '{';
        around -= s.text[i] == '}';
        if (s.text[i] == 'a' && around > depth)
            depth = around;
    }
    free(s.text);
    return depth;
}

/* ---- all refusals of a model text ---- */

uint32_t brute_model(const uint8_t *text, size_t len, size_t *place)
{
    *place = 0;
    if (len == 0 || len > 4096)
        return 10;
    struct spelling s = spell(text, len);
    uint32_t answer = 0;
    for (size_t p = 0; p < s.good && answer == 0; p++)
        for (uint32_t number = 12; number <= 19 && answer == 0; number++)
            if (stands(number, text, len, &s, p)) {
                answer = number;
                *place = p;
            }
    if (answer == 0 && !s.whole) {
        answer = 11;
        *place = s.good;
    } else if (answer == 0 && depth_of(text, len) > 16) {
        answer = 14;
        *place = len;
    }
    free_spelling(&s);
    return answer;
}

/* ---- types of 001, and the further ones that derivation makes ---- */

enum op { NONE, EMPTY_ROW, ATOM, CHOICE, SEQUENCE, SHUFFLE, LONGER };

struct type {
    enum op op;
    size_t name;
    long min, max; /* of an atom; max -1: no upper end */
    const struct type *left, *right; /* of T!, which is LONGER, T is on the left */
    struct type *next;               /* in its bucket */
    bool some, longer;               /* holds a row; holds one that is not empty */
    bool seen;                       /* by the search under way */
};

/* All types of one call; equal ones are made once. */
enum { BUCKETS = 4096 };
struct pool {
    struct type *bucket[BUCKETS];
};

/* Fills in `some` and `longer`; an atom's upper count is never 0. */
static void survey(struct type *t)
{
    switch (t->op) {
    case NONE:
        break;
    case EMPTY_ROW:
        t->some = true;
        break;
    case ATOM:
        t->some = t->longer = true;
        break;
    case CHOICE:
        t->some = t->left->some || t->right->some;
        t->longer = t->left->longer || t->right->longer;
        break;
    case SEQUENCE:
    case SHUFFLE:
        t->some = t->left->some && t->right->some;
        t->longer = t->some && (t->left->longer || t->right->longer);
        break;
    case LONGER:
        t->some = t->longer = t->left->longer;
    }
}

static const struct type *make(struct pool *pool, struct type t)
{
    size_t hash = t.op + 7 * t.name + 31 * (size_t)t.min + 101 * (size_t)t.max;
    hash = (hash ^ (uintptr_t)t.left >> 4) * 31 ^ (uintptr_t)t.right >> 4;
    struct type **bucket = &pool->bucket[hash % BUCKETS];
    for (struct type *old = *bucket; old != NULL; old = old->next)
        if (old->op == t.op && old->name == t.name && old->min == t.min && old->max == t.max
            && old->left == t.left && old->right == t.right)
            return old;
    struct type *type = grown(NULL, sizeof *type);
    *type = t;
    survey(type);
    type->next = *bucket;
    *bucket = type;
    return type;
}

static void free_pool(struct pool *pool)
{
    for (size_t i = 0; i < BUCKETS; i++)
        while (pool->bucket[i] != NULL) {
            struct type *type = pool->bucket[i];
            pool->bucket[i] = type->next;
            free(type);
        }
    free(pool);
}

static const struct type *leaf(struct pool *pool, enum op op)
{
    return make(pool, (struct type){.op = op});
}

static const struct type *atom(struct pool *pool, size_t name, long min, long max)
{
    return make(pool, (struct type){.op = ATOM, .name = name, .min = min, .max = max});
}

static const struct type *pair(struct pool *pool, enum op op, const struct type *left,
                               const struct type *right)
{
    return make(pool, (struct type){.op = op, .left = left, .right = right});
}

/* ---- a model text as a type ---- */

struct piece {
    const uint8_t *at;
    size_t len;
};

struct model {
    struct pool *pool;
    struct piece name[64];
    long max[64]; /* the upper count of each name; -1: no upper end */
    size_t names;
    bool small; /* low counts: the search through derived types ends soon */
};

static const struct type *type_of(struct model *model, const uint8_t *text, size_t len);

/* a, a[m..n], a[m..*]; a[0..n] is () or a[1..n]. */
static const struct type *type_of_atom(struct model *model, const uint8_t *text, size_t len)
{
    long min = 1, max = 1;
    size_t n = name_length(text, len, 0);
    size_t name = model->names++;
    model->name[name] = (struct piece){text, n};
    if (n < len) {
        char *end;
        min = strtol((const char *)text + n + 1, &end, 10);
        max = end[2] == '*' ? -1 : strtol(end + 2, &end, 10);
    }
    model->max[name] = max;
    if (min > 9 || max > 9)
        model->small = false;
    if (min > 0)
        return atom(model->pool, name, min, max);
    return pair(model->pool, CHOICE, leaf(model->pool, EMPTY_ROW), atom(model->pool, name, 1, max));
}

/* What stands between a group's brackets, nested to the left. */
static const struct type *type_of_members(struct model *model, const uint8_t *text, size_t len)
{
    if (len == 0)
        return leaf(model->pool, EMPTY_ROW);
    size_t end = member_length(text, len);
    const struct type *all = type_of(model, text, end);
    while (end < len) {
        enum op op = text[end] == ',' ? SEQUENCE : text[end] == '|' ? CHOICE : SHUFFLE;
        size_t next = member_length(text + end + 1, len - end - 1);
        all = pair(model->pool, op, all, type_of(model, text + end + 1, next));
        end += 1 + next;
    }
    return all;
}

static const struct type *type_of(struct model *model, const uint8_t *text, size_t len)
{
    if (text[len - 1] == '?')
        return pair(model->pool, CHOICE, leaf(model->pool, EMPTY_ROW),
                    type_of(model, text, len - 1));
    if (text[len - 1] == '!')
        return pair(model->pool, LONGER, type_of(model, text, len - 1), NULL);
    return text[0] == '(' ? type_of_members(model, text + 1, len - 2)
                          : type_of_atom(model, text, len);
}

/* ---- membership, definition 2.1 of 001 word for word, and 002's T! ---- */

enum { SHORT = 8, FOREIGN = 64 };

static bool holds(const struct type *t, const uint8_t *row, size_t n);

static bool holds_atom(const struct type *t, const uint8_t *row, size_t n)
{
    for (size_t i = 0; i < n; i++)
        if (row[i] != t->name)
            return false;
    return n > 0 && (long)n >= t->min && (t->max < 0 || (long)n <= t->max);
}

static bool holds_sequence(const struct type *t, const uint8_t *row, size_t n)
{
    for (size_t i = 0; i <= n; i++)
        if (holds(t->right, row + i, n - i) && holds(t->left, row, i))
            return true;
    return false;
}

/* Every way to share the row out between the two sides. */
static bool holds_shuffle(const struct type *t, const uint8_t *row, size_t n)
{
    for (unsigned shares = 0; shares < 1u << n; shares++) {
        uint8_t left[SHORT], right[SHORT];
        size_t l = 0, r = 0;
        for (size_t i = 0; i < n; i++) {
            if (shares >> i & 1)
                left[l++] = row[i];
            else
                right[r++] = row[i];
        }
        if (holds(t->right, right, r) && holds(t->left, left, l))
            return true;
    }
    return false;
}

static bool holds(const struct type *t, const uint8_t *row, size_t n)
{
    switch (t->op) {
    case EMPTY_ROW: return n == 0;
    case ATOM: return holds_atom(t, row, n);
    case CHOICE: return holds(t->left, row, n) || holds(t->right, row, n);
    case SEQUENCE: return holds_sequence(t, row, n);
    case SHUFFLE: return holds_shuffle(t, row, n);
    case LONGER: return n > 0 && holds(t->left, row, n);
    default: return false;
    }
}

/* ---- derivation ---- */

/* Does the type hold the empty row? */
static bool nullable(const struct type *t)
{
    switch (t->op) {
    case EMPTY_ROW: return true;
    case ATOM: return t->min == 0;
    case CHOICE: return nullable(t->left) || nullable(t->right);
    case SEQUENCE:
    case SHUFFLE: return nullable(t->left) && nullable(t->right);
    default: return false;
    }
}

/* Does the type hold no row at all? */
static bool barren(const struct type *t) { return !t->some; }

/* The choice of two, or the other where one holds nothing. */
static const struct type *either(struct pool *pool, const struct type *x, const struct type *y)
{
    return x->op == NONE || x == y ? y : y->op == NONE ? x : pair(pool, CHOICE, x, y);
}

/* Sequence or shuffle of two, short where one holds nothing or only the empty row. */
static const struct type *both(struct pool *pool, enum op op, const struct type *x,
                               const struct type *y)
{
    if (x->op == NONE || y->op == EMPTY_ROW)
        return x;
    if (y->op == NONE || x->op == EMPTY_ROW)
        return y;
    return pair(pool, op, x, y);
}

static const struct type *derive_atom(struct pool *pool, const struct type *t, size_t name)
{
    if (t->name != name)
        return leaf(pool, NONE);
    if (t->max == 1)
        return leaf(pool, EMPTY_ROW);
    return atom(pool, name, t->min > 0 ? t->min - 1 : 0, t->max < 0 ? -1 : t->max - 1);
}

/* The rows that make a row of the type when they follow this name. */
static const struct type *derive(struct pool *pool, const struct type *t, size_t name)
{
    if (t->op == ATOM)
        return derive_atom(pool, t, name);
    if (t->op == NONE || t->op == EMPTY_ROW)
        return leaf(pool, NONE);
    if (t->op == LONGER)
        return derive(pool, t->left, name);
    const struct type *left = derive(pool, t->left, name);
    const struct type *right = derive(pool, t->right, name);
    if (t->op == CHOICE)
        return either(pool, left, right);
    const struct type *begun = both(pool, t->op, left, t->right);
    if (t->op == SHUFFLE)
        return either(pool, begun, both(pool, SHUFFLE, t->left, right));
    return nullable(t->left) ? either(pool, begun, right) : begun;
}

/* Breadth first through the derived types: does some row, empty or not, make one nullable? */
static bool search(struct pool *pool, const struct type *from, size_t names)
{
    const struct type **queue = grown(NULL, sizeof *queue);
    size_t head = 0, count = 1;
    bool found = false;
    queue[0] = from;
    ((struct type *)from)->seen = true;
    while (head < count && !found) {
        const struct type *t = queue[head++];
        found = nullable(t);
        for (size_t name = 0; name < names && !found; name++) {
            struct type *next = (struct type *)derive(pool, t, name);
            if (next->seen)
                continue;
            next->seen = true;
            queue = grown(queue, (count + 1) * sizeof *queue);
            queue[count++] = next;
        }
    }
    while (count-- > 0)
        ((struct type *)queue[count])->seen = false;
    free(queue);
    return found;
}

/* ---- answers on a row ---- */

enum { FEW_NAMES = 6 };

static const uint32_t REFUSED = 2147483648; /* is added to a refusal, save the judge's */
static const uint32_t NO_FAULT = 65535;

/* The answer on a row of n by a model and its type. The row has room for one name more; names are
   listed in `list`. */
typedef uint32_t answer_row(struct model *model, const struct type *type, uint8_t *row, size_t n,
                            uint16_t *list);

struct asked {
    answer_row *answer;
    uint16_t *list;   /* null where no list is asked for */
    uint32_t refused; /* is added to a refusal */
};

static const struct type *derive_row(struct pool *pool, const struct type *t, const uint8_t *row,
                                     size_t n)
{
    for (size_t i = 0; i < n; i++)
        t = derive(pool, t, row[i]);
    return t;
}

/* `rest` is the type derived by the row. */
static uint32_t verdict(struct model *model, const struct type *type, const struct type *rest,
                        const uint8_t *row, size_t n)
{
    bool complete = nullable(rest), possible = !barren(rest);
    if (n <= SHORT && model->names <= FEW_NAMES && holds(type, row, n) != complete)
        return BRUTE_SPLIT;
    if (model->small && model->names <= FEW_NAMES
        && search(model->pool, rest, model->names) != possible)
        return BRUTE_SPLIT;
    return complete ? 0 : possible ? 1 : 2;
}

static uint32_t judge(struct model *model, const struct type *type, uint8_t *row, size_t n,
                      uint16_t *list)
{
    (void)list;
    return verdict(model, type, derive_row(model->pool, type, row, n), row, n);
}

/* How many names may come next, written into the list. */
static uint32_t list_next(struct model *model, const struct type *type, uint8_t *row, size_t n,
                          uint16_t *list)
{
    const struct type *rest = derive_row(model->pool, type, row, n);
    uint32_t listed = 0;
    for (size_t name = 0; name < model->names; name++) {
        row[n] = (uint8_t)name;
        uint32_t answer = verdict(model, type, derive(model->pool, rest, name), row, n + 1);
        if (answer == BRUTE_SPLIT)
            return REFUSED + BRUTE_SPLIT;
        if (answer != 2)
            list[listed++] = (uint16_t)(name + 1);
    }
    return listed;
}

/* The names of the model in any order, each at most as often as its upper count. */
static const struct type *loosened(const struct model *model)
{
    const struct type *empty = leaf(model->pool, EMPTY_ROW), *all = empty;
    for (size_t name = 0; name < model->names; name++)
        all = both(model->pool, SHUFFLE, all,
                   either(model->pool, empty, atom(model->pool, name, 1, model->max[name])));
    return all;
}

static uint32_t first_fault(struct model *model, const struct type *type, uint8_t *row, size_t n,
                            uint16_t *list)
{
    (void)type, (void)list;
    const struct type *rest = loosened(model);
    for (size_t i = 0; i < n; i++) {
        rest = derive(model->pool, rest, row[i]);
        if (barren(rest))
            return (uint32_t)i;
    }
    return NO_FAULT;
}

/* ---- children ---- */

static bool is_name(struct piece p)
{
    return p.len >= 1 && p.len <= 32 && matches('@', p.at[0])
           && name_length(p.at, p.len, 0) == p.len;
}

/* Splits at tabs; no bytes are no children. */
static size_t split(const uint8_t *text, size_t len, struct piece *children)
{
    size_t n = 0, start = 0;
    if (len == 0)
        return 0;
    for (size_t i = 0; i <= len; i++)
        if (i == len || text[i] == '\t') {
            children[n++] = (struct piece){text + start, i - start};
            start = i + 1;
        }
    return n;
}

static uint32_t children_refusal(const struct piece *children, size_t n)
{
    for (size_t i = 0; i < n; i++)
        if (!is_name(children[i]))
            return 35;
    return n > 4096 ? 36 : 0;
}

static uint8_t number_of(const struct model *model, struct piece child)
{
    for (size_t k = 0; k < model->names; k++)
        if (model->name[k].len == child.len && memcmp(model->name[k].at, child.at, child.len) == 0)
            return (uint8_t)k;
    return FOREIGN;
}

/* The children's numbers by a good model text, and the answer on them. */
static uint32_t answer_children(const uint8_t *text, size_t len, const struct piece *children,
                                size_t n, struct asked asked)
{
    struct model model = {.pool = calloc(1, sizeof(struct pool)), .small = true};
    uint8_t *row = grown(NULL, n + 1);
    if (model.pool == NULL)
        abort();
    const struct type *type = type_of(&model, text, len);
    for (size_t i = 0; i < n; i++)
        row[i] = number_of(&model, children[i]);
    uint32_t answer = asked.answer(&model, type, row, n, asked.list);
    free(row);
    free_pool(model.pool);
    return answer;
}

/* ---- both texts ---- */

/* The refusal of the texts, or the answer on the row. */
static uint32_t answer_texts(const uint8_t *model, size_t model_len, const uint8_t *children,
                             size_t children_len, struct asked asked)
{
    size_t place;
    uint32_t refusal = brute_model(model, model_len, &place);
    if (refusal != 0)
        return asked.refused + refusal;
    if (children_len > 65535)
        return asked.refused + 30;
    struct piece *pieces = grown(NULL, (children_len + 1) * sizeof *pieces);
    size_t n = split(children, children_len, pieces);
    refusal = children_refusal(pieces, n);
    uint32_t answer = refusal != 0 ? asked.refused + refusal
                                   : answer_children(model, model_len, pieces, n, asked);
    free(pieces);
    return answer;
}

uint32_t brute_judge(const uint8_t *model, size_t model_len,
                     const uint8_t *children, size_t children_len)
{
    return answer_texts(model, model_len, children, children_len, (struct asked){judge, NULL, 0});
}

uint32_t brute_next(const uint8_t *model, size_t model_len, const uint8_t *children,
                    size_t children_len, uint16_t *row, size_t row_len)
{
    uint16_t list[64];
    uint32_t answer = answer_texts(model, model_len, children, children_len,
                                   (struct asked){list_next, list, REFUSED});
    if (answer >= REFUSED)
        return answer;
    if (answer > row_len)
        return REFUSED + 46;
    for (uint32_t i = 0; i < answer; i++)
        row[i] = list[i];
    return answer;
}

uint32_t brute_first_fault(const uint8_t *model, size_t model_len,
                           const uint8_t *children, size_t children_len)
{
    return answer_texts(model, model_len, children, children_len,
                        (struct asked){first_fault, NULL, REFUSED});
}
