/* Counts what was tried, prints differences, and says how it went. */
#ifndef REPORT_H
#define REPORT_H

#include "call.h"

struct report {
    unsigned long tried;
    unsigned long different;
    unsigned long met[100]; /* how often each answer was the right one */
};

/* The answer to a call; the texts are printed if it is not the right one. */
void report_answer(struct report *report, struct call c, uint32_t got, uint32_t right);

/* The answer to a call that lists names. */
void report_list(struct report *report, struct call c, uint32_t got, uint32_t right);

/* The answer to a call that finds the first fault. */
void report_fault(struct report *report, struct call c, uint32_t got, uint32_t right);

/* The answer to a call that writes a canonical text. */
void report_text(struct report *report, struct bytes model, uint32_t got, uint32_t right);

/* Something else that a call gives; `what` it is is printed with the texts. */
void report_value(struct report *report, struct call c, const char *what, size_t got,
                  size_t right);

/* A table of answers. */
struct answers {
    const uint32_t *number;
    size_t count;
};

/* Those of rows are the judge's by good model texts. */
extern const struct answers ANSWERS_OF_JUDGE, ANSWERS_OF_NEXT, ANSWERS_OF_FAULT,
    ANSWERS_OF_CANONICAL, ANSWERS_OF_ROWS;

/* Prints the summary; 0 if nothing differs and every answer of the table was met, else 1. */
int report_end(const struct report *report, const char *title, struct answers to_meet);

#endif
