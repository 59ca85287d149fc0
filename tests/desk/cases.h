/* Texts to try: known rows, texts at every limit, random ones with a fixed seed. */
#ifndef CASES_H
#define CASES_H

#include "call.h"
#include "report.h"

typedef uint32_t place_refusal(const uint8_t *text, size_t len, size_t *place);

/* Makes the call and reports how it went. */
typedef void try_call(struct report *to, struct call c);

/* Rows and texts whose answers stand in document 01 or follow from it. */
void check_known_rows(judge_texts *judge, struct report *report);
void check_known_texts(judge_texts *judge, struct report *report);
void check_known_places(place_refusal *model, struct report *report);

/* Lists of next names that stand in document 02 or follow from it. */
void check_known_lists(next_names *next, struct report *report);

/* First faults that follow from document 02. */
void check_known_faults(find_fault *find, struct report *report);

/* Canonical texts that stand in document 02 or follow from it. */
void check_known_canonical(write_canonical *write, struct report *report);

/* The texts of all these. */
void try_known(try_call *f, struct report *to);

/* Model texts at and past every limit, and children texts likewise. */
void try_limits(try_call *f, struct report *to);

struct amounts {
    unsigned small;   /* models of up to six names, short rows mostly of the model or near it */
    unsigned damaged; /* the same, some bytes of one text changed, lost, added or cut off */
    unsigned large;   /* models of up to 64 names, rows of up to 4,096 children and a few more */
    unsigned deep;    /* models with 17 to 70 brackets open at once, some of them damaged */
    unsigned loose;   /* models with `()`, groups of one, marks and counts in plenty */
};

/* So many random ones of each; the seed fixes them. */
void try_random(uint64_t seed, struct amounts how_many, try_call *f, struct report *to);

#endif
