#include "rules.h"

#include <stdio.h>

enum {
    NAMES = MOST_NAMES,
    DEPTH = 16,   /* groups around a name, after flattening */
    BRACKETS = 40 /* that dissolve */
};

static const char EXAMPLE[] = "(axis,target,(crawl&gather)?,hold[0..2])";
static const char SHORT[] = "name", LONG[] = "fly-tower-upstage-winch-motor-";

/* ---- 64 names: a beginning, then 01 to 64 ---- */

typedef int place_of(int i);

static int rising(int i) { return i; }
static int falling(int i) { return NAMES - 1 - i; }
static int shuffled(int i) { return (i * 37 + 11) % NAMES; }

static void put_name(struct row *row, const char *beginning, int place, const char *behind)
{
    char number[8];
    snprintf(number, sizeof number, "%02d", place + 1);
    put(&row->model, beginning);
    put(&row->model, number);
    put(&row->model, behind);
}

/* In one group, each with the same count or mark behind it. */
static void group(struct row *row, const char *sign, const char *beginning, place_of *place,
                  const char *behind)
{
    for (int i = 0; i < NAMES; i++) {
        put(&row->model, i == 0 ? "(" : sign);
        put_name(row, beginning, place(i), behind);
    }
    put(&row->model, ")");
}

static void in_order(struct row *row) { group(row, "&", SHORT, rising, ""); }
static void in_disorder(struct row *row) { group(row, "&", SHORT, shuffled, ""); }
static void in_falling_order(struct row *row) { group(row, "&", SHORT, falling, ""); }
static void long_beginning(struct row *row) { group(row, "&", LONG, falling, ""); }
static void long_in_disorder(struct row *row) { group(row, "&", LONG, shuffled, ""); }

/* Every mark goes to the choice, and every count is written otherwise. */
static void optional_choice(struct row *row) { group(row, "|", SHORT, shuffled, "[0..9]"); }

/* Four names in each sequence, which gets `!`; the choice gets `?`. */
static void optional_sequences(struct row *row)
{
    for (int i = 0; i < NAMES; i++) {
        put(&row->model, i == 0 ? "((" : i % 4 == 0 ? ")|(" : ",");
        put_name(row, SHORT, shuffled(i), "?");
    }
    put(&row->model, "))");
}

/* Nothing to sort. */
static void sequence(struct row *row) { group(row, ",", SHORT, falling, "?"); }

/* ---- other models ---- */

static void smallest(struct row *row) { put(&row->model, "a"); }
static void example(struct row *row) { put(&row->model, EXAMPLE); }

/* The signs in turn, as deep as a model may be; the names fall, so that every group is sorted. */
static void deep(struct row *row)
{
    for (int i = 0; i < DEPTH; i++)
        put(&row->model, (const char[]){'(', (char)('z' - i), ",|&"[i % 3], 0});
    put(&row->model, "a");
    put_times(&row->model, ")", DEPTH);
}

static void brackets(struct row *row)
{
    put_times(&row->model, "(", BRACKETS);
    put(&row->model, EXAMPLE);
    put_times(&row->model, ")", BRACKETS);
}

static const struct {
    const char *title;
    void (*make)(struct row *);
} PLAN[RULES] = {
    {"model a", smallest},
    {"example's model", example},
    {"16 groups, signs in turn", deep},
    {"40 brackets round the example's model", brackets},
    {"sequence of 64 optional names", sequence},
    {"choice of 64 optional names, shuffled", optional_choice},
    {"choice of 16 optional sequences", optional_sequences},
    {"name01 to name64, in order", in_order},
    {"name01 to name64, shuffled", in_disorder},
    {"name01 to name64, falling", in_falling_order},
    {"30 first bytes equal, shuffled", long_in_disorder},
    {"30 first bytes equal, falling", long_beginning},
};

void make_rule(struct row *row, int i)
{
    row->title = PLAN[i].title;
    row->answer = 0;
    begin(&row->model, "");
    begin(&row->children, "");
    PLAN[i].make(row);
}

struct text_question text_question_of(write_canonical *write, const struct row *row)
{
    return (struct text_question){write, written(&row->model), {0}};
}

uint32_t write_text(struct text_question *question)
{
    return ask_canonical(question->write, question->model,
                         (struct buffer){question->buffer, TEXT_BYTES});
}

static volatile uint32_t sink; /* keeps the calls */

void write_again(void *question, long times)
{
    while (times-- > 0)
        sink = write_text(question);
}
