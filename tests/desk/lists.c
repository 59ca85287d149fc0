#include "lists.h"
#include "desk.h"
#include "fence.h"

#include <string.h>

enum { AREA = MOST_NAMES + 16 };

/* What a place holds before the call; no name has such a number. */
static uint16_t mark(size_t place) { return (uint16_t)(50000 + place); }

struct list list_by(next_names *next, struct call c)
{
    struct list list = {0};
    list.answer = ask_next(next, c, (struct places){list.name, MOST_NAMES});
    return list;
}

static uint32_t answer_for(const struct list *right, size_t len)
{
    return right->answer < DESK_REFUSED && right->answer > len ? DESK_REFUSED + 46 : right->answer;
}

/* The last places of a piece of memory, of which the row is the end. */
static uint16_t *area(void)
{
    static uint8_t *end;
    if (end == NULL)
        end = new_fence();
    return (uint16_t *)end - AREA;
}

void check_list(struct report *to, next_names *next, struct call c, struct list right, size_t len)
{
    uint16_t *place = area(), expected[AREA];
    uint32_t answer = answer_for(&right, len);
    for (size_t i = 0; i < AREA; i++)
        place[i] = expected[i] = mark(i);
    if (answer < DESK_REFUSED)
        memcpy(expected + AREA - len, right.name, answer * sizeof *expected);
    report_list(to, c, ask_next(next, c, (struct places){place + AREA - len, len}), answer);
    size_t wrong = 0;
    for (size_t i = 0; i < AREA; i++)
        wrong += place[i] != expected[i];
    report_value(to, c, "wrong places of the row", wrong, 0);
}

void check_lists(struct report *to, next_names *next, struct call c, struct list right)
{
    size_t listed = right.answer < DESK_REFUSED ? right.answer : 0;
    report_list(to, c, ask_next(next, c, (struct places){NULL, 0}), answer_for(&right, 0));
    if (listed > 0)
        check_list(to, next, c, right, listed - 1);
    check_list(to, next, c, right, listed);
    check_list(to, next, c, right, listed + 1);
    check_list(to, next, c, right, MOST_NAMES + 1);
}
