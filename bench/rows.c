#include "rows.h"

#include <ctype.h>
#include <stdio.h>
#include <stdlib.h>
#include <string.h>

enum {
    NAMES = MOST_NAMES,
    LONGEST = 32,     /* name */
    MANY = 4096,      /* children */
    MANY_LONG = 1985, /* children of the longest name: more have no room in a children text */
    OPEN = 64,        /* brackets at once */
    DEPTH = 16,       /* groups around a name, after flattening */
    NESTED = 32,      /* groups that flattening joins */
};

static const char ANY[] = "[0..*]", ONCE[] = "";

struct list {
    char name[NAMES][LONGEST + 1];
};

static const struct list WORDS = {{
    "axis", "target", "crawl", "gather", "hold", "fade", "dim", "colour", "gobo", "iris", "zoom",
    "focus", "pan", "tilt", "strobe", "shutter", "beam", "frost", "prism", "gel", "haze", "fog",
    "fan", "winch", "truss", "batten", "curtain", "drop", "fly", "lift", "revolve", "trap", "wagon",
    "track", "cue-light", "standby", "go", "follow", "wait", "link", "macro", "preset", "group",
    "channel", "dimmer-1", "dimmer-2", "sound", "level", "mute", "solo", "reverb", "delay-time",
    "video", "layer", "opacity", "position", "rotation", "scale", "mask", "playback", "tempo",
    "marker", "timecode", "release",
}};

/* ---- names that look alike ---- */

static struct list alike;

/* A beginning, then 1 to 64 in so many digits or more. */
static const struct list *numbered(const char *beginning, int digits)
{
    for (int i = 0; i < NAMES; i++)
        snprintf(alike.name[i], LONGEST + 1, "%s%0*d", beginning, digits, i + 1);
    return &alike;
}

/* A word of six small letters, each way with some of them as capitals. */
static const struct list *capitalised(const char *word)
{
    for (int i = 0; i < NAMES; i++) {
        strcpy(alike.name[i], word);
        for (int k = 0; k < 6; k++)
            if (i >> k & 1)
                alike.name[i][k] = (char)toupper(word[k]);
    }
    return &alike;
}

/* Two letters, then an end. */
static const struct list *lettered(const char *end)
{
    for (int i = 0; i < NAMES; i++)
        snprintf(alike.name[i], LONGEST + 1, "%c%c%s", 'a' + i / 8, 'a' + i % 8, end);
    return &alike;
}

/* ---- names of one slot, and of one key ---- */

/* The key and the slot of a name in the desk's table: where the desk changes them, these two
   functions follow. */
static uint64_t key_of(const char *name)
{
    uint64_t key = 0;
    for (; *name != '\0'; name++)
        key = (key << 8 | key >> 56) + (uint8_t)*name;
    return key;
}

static uint64_t slot_of(const char *name)
{
    uint64_t key = key_of(name);
    return ((uint32_t)key * UINT64_C(419952358) + (key >> 32) * 681387477) / (1 << 24) % 256;
}

typedef uint64_t slot_of_name(const char *name);

/* The slot that the desk had before, by three bytes of the name. */
static uint64_t former_slot_of(const char *name)
{
    size_t len = strlen(name);
    const uint8_t *at = (const uint8_t *)name;
    return (at[0] * 7 + at[len / 2] * 31 + at[len - 1] * 67 + len * 13) % 256;
}

/* Found by trial. They have one length and one beginning, so that comparing them has no short cut.
   The program stops if there are too few. */
static const struct list *of_one_slot(slot_of_name *slot)
{
    enum { ENDS = 26 * 26 * 26 * 26 };
    int n = 0;
    for (int i = 0; n < NAMES; i++) {
        if (i == ENDS)
            abort();
        strcpy(alike.name[n], "nameaaaa");
        for (int k = 7, rest = i; k > 3; k--, rest /= 26)
            alike.name[n][k] = (char)('a' + rest % 26);
        n += slot(alike.name[n]) == slot(alike.name[0]);
    }
    return &alike;
}

/* Two bytes that stand eight places apart may change places: the key stays. The program stops if
   it does not. */
static const struct list *of_one_key(void)
{
    enum { BITS = 6, APART = 8 };
    for (int i = 0; i < NAMES; i++) {
        char *name = alike.name[i];
        strcpy(name, "aaaaaa--bbbbbb");
        for (int bit = 0; bit < BITS; bit++)
            if (i >> bit & 1) {
                name[bit] = 'b';
                name[bit + APART] = 'a';
            }
        if (key_of(name) != key_of(alike.name[0]))
            abort();
    }
    return &alike;
}

/* ---- parts of rows ---- */

static void add_child(struct row *row, const char *name)
{
    put(&row->children, row->children.len == 0 ? "" : "\t");
    put(&row->children, name);
}

/* The names `from` to n - 1 as members, each with the same count or mark behind it; the first name
   of the list has no sign before it. */
static void members_of(struct row *row, const struct list *list, int from, int n, const char *sign,
                       const char *behind)
{
    for (int i = from; i < n; i++) {
        put(&row->model, i == 0 ? "" : sign);
        put(&row->model, list->name[i]);
        put(&row->model, behind);
    }
}

/* A group of the first n names. */
static void group_of(struct row *row, const struct list *list, int n, const char *sign,
                     const char *behind)
{
    put(&row->model, "(");
    members_of(row, list, 0, n, sign, behind);
    put(&row->model, ")");
}

static void interleaving(struct row *row, int n)
{
    group_of(row, &WORDS, n, "&", "");
    while (n-- > 0)
        add_child(row, WORDS.name[n]);
}

/* The names in a fixed disorder. */
static void disorder(struct row *row, const struct list *list, int children)
{
    uint32_t random = 1;
    group_of(row, list, NAMES, "&", ANY);
    for (int i = 0; i < children; i++) {
        random = random * 1664525u + 1013904223u;
        add_child(row, list->name[random >> 26]);
    }
}

/* One child less than many, in the order of the model; the first name has a count of its own. */
static void order(struct row *row, const struct list *list, const char *first)
{
    put(&row->model, "(");
    members_of(row, list, 0, 1, ",", first);
    members_of(row, list, 1, NAMES, ",", ANY);
    put(&row->model, ")");
    for (int i = 0; i < MANY - 1; i++)
        add_child(row, list->name[i * NAMES / MANY]);
}

/* ---- the rows ---- */

static void example(struct row *row)
{
    put(&row->model, "(axis,target,(crawl&gather)?,hold[0..2])");
    put(&row->children, row->answer == 0 ? "axis\ttarget\tgather\tcrawl\thold"
                                         : "axis\ttarget\tcrawl");
}

static void interleaving_of_20(struct row *row) { interleaving(row, 20); }
static void interleaving_of_64(struct row *row) { interleaving(row, NAMES); }

static void optional_sequence(struct row *row)
{
    group_of(row, &WORDS, NAMES, ",", "?");
    for (int i = 0; i < NAMES; i++)
        add_child(row, WORDS.name[i]);
}

static void choice_of_64(struct row *row)
{
    group_of(row, &WORDS, NAMES, "|", "");
    add_child(row, WORDS.name[NAMES - 1]);
}

/* Four names in each sequence; the children are those of the last one. */
static void nonempty_sequences(struct row *row)
{
    for (int i = 0; i < NAMES; i++) {
        put(&row->model, i == 0 ? "((" : i % 4 == 0 ? ")!|(" : ",");
        put(&row->model, WORDS.name[i]);
        put(&row->model, "?");
        if (i >= NAMES - 4)
            add_child(row, WORDS.name[i]);
    }
    put(&row->model, ")!)");
}

static void one_name(struct row *row)
{
    put(&row->model, "hold[1..*]");
    for (int i = 0; i < MANY; i++)
        add_child(row, "hold");
}

static void many_names(struct row *row) { disorder(row, &WORDS, MANY); }

/* The first name comes once more, behind names that it has to precede. */
static void dead_at_last(struct row *row)
{
    order(row, &WORDS, ANY);
    add_child(row, WORDS.name[0]);
}

static void model_alone(struct row *row)
{
    put(&row->model, "((axis,target,(crawl&gather)?,hold[0..2])|");
    put(&row->model, "(fade[1..3],(dim|colour|gobo)?,((iris&zoom&focus),pan[2..60000])))");
}

static void smallest(struct row *row)
{
    put(&row->model, "a");
    put(&row->children, "a");
}

/* As many brackets as may be open at once: shows what a bracket takes to read. */
static void name_in_brackets(struct row *row)
{
    put_times(&row->model, "(", OPEN);
    put(&row->model, "hold");
    put_times(&row->model, ")", OPEN);
    add_child(row, "hold");
}

/* Sequence and choice in turn, as deep as a model may be, and around each group one more bracket or
   two, as an exporter writes them: 40 are open at once. The children go down to the innermost. */
static void wrapped_groups(struct row *row)
{
    size_t open = 0;
    for (int i = 0; i < DEPTH; i++) {
        size_t around = i % 2 == 0 ? 2 : 3;
        put_times(&row->model, "(", around);
        open += around;
        put(&row->model, WORDS.name[i]);
        put(&row->model, i % 2 == 0 ? "," : "|");
        if (i % 2 == 0)
            add_child(row, WORDS.name[i]);
    }
    put(&row->model, WORDS.name[DEPTH]);
    put_times(&row->model, ")", open);
    add_child(row, WORDS.name[DEPTH]);
}

/* Each with a name and the next one in it: they are one sequence. Shows the walk that counts the
   depth, which is for models with over 16 groups of two members or more, one inside the other. */
static void nested_sequences(struct row *row)
{
    for (int i = 0; i <= NESTED; i++) {
        put(&row->model, i < NESTED ? "(" : "");
        put(&row->model, WORDS.name[i]);
        put(&row->model, i < NESTED ? "," : "");
        add_child(row, WORDS.name[i]);
    }
    put_times(&row->model, ")", NESTED);
}

static void numbers(struct row *row) { disorder(row, numbered("name", 2), MANY); }

/* A foreign name, which looks like the others, comes first. */
static void numbers_foreign_at_first(struct row *row)
{
    add_child(row, "name00");
    order(row, numbered("name", 2), ANY);
}

/* The first name may stand once, and the second child has it again. */
static void numbers_second_too_many(struct row *row)
{
    add_child(row, "name01");
    order(row, numbered("name", 2), ONCE);
}

static void numbers_foreign_at_last(struct row *row)
{
    order(row, numbered("name", 2), ANY);
    add_child(row, "name00");
}

static void numbers_dead_at_last(struct row *row)
{
    order(row, numbered("name", 2), ANY);
    add_child(row, "name01");
}

static void long_beginning(struct row *row)
{
    disorder(row, numbered("fly-tower-upstage-winch-motor-", 2), MANY_LONG);
}

static void long_end(struct row *row)
{
    disorder(row, lettered("-motor-of-an-upstage-fly-winch"), MANY_LONG);
}

static void short_numbers(struct row *row) { disorder(row, numbered("lx:go.", 1), MANY); }
static void capitals(struct row *row) { disorder(row, capitalised("fadein"), MANY); }
static void former_slot(struct row *row) { disorder(row, of_one_slot(former_slot_of), MANY); }
static void one_slot(struct row *row) { disorder(row, of_one_slot(slot_of), MANY); }
static void one_key(struct row *row) { disorder(row, of_one_key(), MANY); }

static const struct {
    const char *title;
    uint32_t answer;
    void (*make)(struct row *);
} PLAN[ROWS] = {
    {"example cue, complete", 0, example},
    {"example cue, open", 1, example},
    {"interleaving of 20, reverse order", 0, interleaving_of_20},
    {"interleaving of 64, reverse order", 0, interleaving_of_64},
    {"sequence of 64 optional names", 0, optional_sequence},
    {"choice of 64", 0, choice_of_64},
    {"choice of 16 optional sequences with !", 0, nonempty_sequences},
    {"one name 4,096 times", 0, one_name},
    {"64 names 4,096 times", 0, many_names},
    {"4,096 children, dead at the last", 2, dead_at_last},
    {"model text alone", 1, model_alone},
    {"model a, child a", 0, smallest},
    {"64 brackets round one name", 0, name_in_brackets},
    {"16 groups inside 40 brackets", 0, wrapped_groups},
    {"32 sequences, one inside the other", 0, nested_sequences},
    {"name01 to name64, 4,096 children", 0, numbers},
    {"name01 to name64, foreign at the first", 2, numbers_foreign_at_first},
    {"name01 to name64, second one too many", 2, numbers_second_too_many},
    {"name01 to name64, foreign at the last", 2, numbers_foreign_at_last},
    {"name01 to name64, dead at the last", 2, numbers_dead_at_last},
    {"lx:go.1 to lx:go.64, 4,096 children", 0, short_numbers},
    {"fadein to FADEIN, 4,096 children", 0, capitals},
    {"64 names, 30 first bytes equal", 0, long_beginning},
    {"64 names, 30 last bytes equal", 0, long_end},
    {"64 names of one slot of the former hash", 0, former_slot},
    {"64 names of one slot", 0, one_slot},
    {"64 names of one key", 0, one_key},
};

void make_row(struct row *row, int i)
{
    row->title = PLAN[i].title;
    row->answer = PLAN[i].answer;
    begin(&row->model, "");
    begin(&row->children, "");
    PLAN[i].make(row);
}

struct call call_of(const struct row *row)
{
    return (struct call){written(&row->model), written(&row->children)};
}

struct question question_of(judge_texts *judge, const struct row *row)
{
    return (struct question){judge, call_of(row)};
}

struct next_question next_question_of(next_names *next, const struct row *row)
{
    return (struct next_question){next, call_of(row), {0}};
}

static volatile uint32_t sink; /* keeps the calls */

void ask_again(void *question, long times)
{
    struct question q = *(struct question *)question;
    while (times-- > 0)
        sink = ask(q.judge, q.call);
}

void list_again(void *question, long times)
{
    struct next_question *q = question;
    while (times-- > 0)
        sink = ask_next(q->next, q->call, (struct places){q->row, MOST_NAMES});
}
