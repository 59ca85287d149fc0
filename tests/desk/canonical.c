#include "canonical.h"
#include "desk.h"
#include "fence.h"

#include <string.h>

enum { AREA = MOST_BYTES + 64 };

/* What a byte is before the call; no text has such a one. */
static uint8_t mark(size_t place) { return (uint8_t)(128 | place); }

struct canonical canonical_by(write_canonical *write, struct bytes model)
{
    struct canonical c;
    c.answer = ask_canonical(write, model, (struct buffer){c.byte, MOST_BYTES});
    return c;
}

struct bytes text_of(const struct canonical *c)
{
    return c->answer < DESK_REFUSED ? (struct bytes){c->byte, c->answer} : NO_BYTES;
}

static uint32_t answer_for(const struct canonical *right, size_t len)
{
    return right->answer < DESK_REFUSED && right->answer > len ? DESK_REFUSED + 51 : right->answer;
}

/* The last bytes of a piece of memory, of which the buffer is the end. */
static uint8_t *area(void)
{
    static uint8_t *end;
    if (end == NULL)
        end = new_fence();
    return end - AREA;
}

void check_buffer(struct report *to, write_canonical *write, struct bytes model,
                  const struct canonical *right, size_t len)
{
    uint8_t *byte = area(), expected[AREA];
    uint32_t answer = answer_for(right, len);
    for (size_t i = 0; i < AREA; i++)
        byte[i] = expected[i] = mark(i);
    if (answer < DESK_REFUSED)
        memcpy(expected + AREA - len, right->byte, answer);
    report_text(to, model, ask_canonical(write, model, (struct buffer){byte + AREA - len, len}),
                answer);
    size_t wrong = 0;
    for (size_t i = 0; i < AREA; i++)
        wrong += byte[i] != expected[i];
    report_value(to, (struct call){model, NO_BYTES}, "wrong bytes of the buffer", wrong, 0);
}

void check_buffers(struct report *to, write_canonical *write, struct bytes model,
                   const struct canonical *right)
{
    size_t len = text_of(right).len;
    report_text(to, model, ask_canonical(write, model, (struct buffer){NULL, 0}),
                answer_for(right, 0));
    check_buffer(to, write, model, right, 0);
    if (len > 0)
        check_buffer(to, write, model, right, len - 1);
    check_buffer(to, write, model, right, len);
    check_buffer(to, write, model, right, len + 1);
    check_buffer(to, write, model, right, len < 1000 ? len + 100 : MOST_BYTES);
}
