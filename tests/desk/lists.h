/* Lists of next names, in rows of several lengths that end where memory ends. */
#ifndef LISTS_H
#define LISTS_H

#include "call.h"
#include "report.h"

enum { MOST_NAMES = 64 };

/* The right answer to a call with room for every name: `answer` names, or a refusal. */
struct list {
    uint32_t answer;
    uint16_t name[MOST_NAMES];
};

struct list list_by(next_names *next, struct call c);

/* Lends a row of so many places and reports the answer, and every place in the row or before it
   that is not what it has to be: the list at the row's beginning, or nothing changed where the list
   has no room or the texts are refused. */
void check_list(struct report *to, next_names *next, struct call c, struct list right, size_t len);

/* The same with rows of no places, of one less than the list, of just as many, and of more. */
void check_lists(struct report *to, next_names *next, struct call c, struct list right);

#endif
