/* Canonical texts, in buffers of several lengths that end where memory ends. */
#ifndef CANONICAL_H
#define CANONICAL_H

#include "call.h"
#include "report.h"

enum { MOST_BYTES = 4096 };

/* The right answer to a call with room for every text: `answer` bytes, or a refusal. */
struct canonical {
    uint32_t answer;
    uint8_t byte[MOST_BYTES];
};

struct canonical canonical_by(write_canonical *write, struct bytes model);

/* The text, where it is not refused. */
struct bytes text_of(const struct canonical *c);

/* Lends a buffer of so many bytes and reports the answer, and every byte in the buffer or before it
   that is not what it has to be: the text at the buffer's beginning, or nothing changed where the
   text has no room or the model is refused. */
void check_buffer(struct report *to, write_canonical *write, struct bytes model,
                  const struct canonical *right, size_t len);

/* The same with buffers of no bytes, of one less than the text, of just as many, and of more. */
void check_buffers(struct report *to, write_canonical *write, struct bytes model,
                   const struct canonical *right);

#endif
