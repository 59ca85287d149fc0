/* The rows that are measured. */
#ifndef ROWS_H
#define ROWS_H

#include "call.h"

struct row {
    const char *title;
    uint32_t answer; /* the right one */
    struct text model, children;
};

/* The last rows have names of one slot, or of one key. */
enum { ROWS = 27, FIRST_OF_ONE_SLOT = 25, MOST_NAMES = 64 };

/* Row i, from 0. */
void make_row(struct row *row, int i);

struct call call_of(const struct row *row);

/* A judge, or a finder of faults, and what it is asked. */
struct question {
    judge_texts *judge;
    struct call call;
};

struct question question_of(judge_texts *judge, const struct row *row);

/* A lister of next names, what it is asked, and the row that it is lent. */
struct next_question {
    next_names *next;
    struct call call;
    uint16_t row[MOST_NAMES];
};

struct next_question next_question_of(next_names *next, const struct row *row);

/* To be timed: the question asked, or the names listed, so many times. */
void ask_again(void *question, long times);
void list_again(void *question, long times);

#endif
