/* A model text as a tree. */
#ifndef MODEL_H
#define MODEL_H

#include "text.h"

#include <stdbool.h>

enum { MOST_PARTS = 128, NO_END = 0 };

/* A member of the model, and the model itself. */
struct part {
    char sign; /* `,`, `|` or `&`; of `()` and of a group of one `,`; of an atom 0 */
    bool optional, nonempty; /* marked with `?`, with `!` */
    struct bytes name;         /* of an atom */
    unsigned min, max;         /* of an atom; max may be NO_END */
    struct part *first, *next; /* first member and next sibling, or null */
};

struct model {
    struct part part[MOST_PARTS]; /* the first one is the whole */
    int parts;
};

/* The text is one that desk_judge accepts. */
void read_model(struct model *model, struct bytes text);

#endif
