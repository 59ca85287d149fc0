/* The models whose canonical texts are measured. */
#ifndef RULES_H
#define RULES_H

#include "rows.h"

enum { RULES = 12, TEXT_BYTES = 4096 };

/* Model i, from 0, as a row without children. */
void make_rule(struct row *row, int i);

/* A writer of canonical texts, what it is asked, and the buffer that it is lent. */
struct text_question {
    write_canonical *write;
    struct bytes model;
    uint8_t buffer[TEXT_BYTES];
};

struct text_question text_question_of(write_canonical *write, const struct row *row);

/* The length of the text, which is then in the buffer, or the refusal. */
uint32_t write_text(struct text_question *question);

/* To be timed: the text written so many times. */
void write_again(void *question, long times);

#endif
