/* Groups inside each other, each the last member of the one around it, as a model text. */
#ifndef CHAIN_H
#define CHAIN_H

#include "text.h"

struct chain {
    size_t outer, groups; /* so many brackets around so many groups */
    const char *signs;    /* of the groups, in turn */
    const char *beside;   /* a member for each letter: n a new name, e `()`; none: groups of one */
    const char *middle;   /* the last member of the innermost group */
    const char *behind;   /* each of the groups: a mark or nothing */
};

/* The k-th of many short names. */
void put_name(struct text *t, size_t k);

/* The names are those from the first one on. */
void put_chain(struct text *t, struct chain c);

#endif
