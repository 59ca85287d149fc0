/* Compares desk_judge, desk_next and desk_first_fault with the twin. Each text, and the row that is
   lent for a list, ends where memory ends, so that a step past it stops the test; a text that a
   call has changed counts as a difference. */
#include "cases.h"
#include "desk.h"
#include "fence.h"
#include "lists.h"
#include "twin.h"

#include <string.h>

static const struct amounts HOW_MANY = {
    .small = 300000, .damaged = 300000, .large = 5000, .deep = 100000,
};

/* The ends of two pieces of memory, one for each text. */
static uint8_t *model_end, *children_end;

static struct report lists, faults;

static size_t changed(struct bytes lent, struct bytes text)
{
    return lent.at != NULL && memcmp(lent.at, text.at, text.len) != 0;
}

/* A row with a fault is dead, and no name may come next. */
static void check_fault(struct call lent, uint32_t right)
{
    uint32_t answer = ask(desk_first_fault, lent);
    report_fault(&faults, lent, answer, right);
    if (answer >= DESK_NO_FAULT)
        return;
    report_value(&faults, lent, "verdict with a fault", ask(desk_judge, lent), 2);
    report_value(&faults, lent, "names behind a fault", list_by(desk_next, lent).answer, 0);
}

static void compare(struct report *to, struct call c)
{
    struct call lent = {fenced(model_end, c.model), fenced(children_end, c.children)};
    report_answer(to, c, ask(desk_judge, lent), ask(twin_judge, c));
    check_lists(&lists, desk_next, lent, list_by(twin_next, c));
    check_fault(lent, ask(twin_first_fault, c));
    report_value(to, c, "texts changed",
                 changed(lent.model, c.model) + changed(lent.children, c.children), 0);
}

int main(void)
{
    struct report report = {0};
    model_end = new_fence();
    children_end = new_fence();
    check_known_rows(desk_judge, &report);
    check_known_texts(desk_judge, &report);
    check_known_lists(desk_next, &lists);
    check_known_faults(desk_first_fault, &faults);
    try_known(compare, &report);
    try_limits(compare, &report);
    try_random(11, HOW_MANY, compare, &report);
    int judged = report_end(&report, "desk_judge and twin", ANSWERS_OF_JUDGE);
    int listed = report_end(&lists, "desk_next and twin", ANSWERS_OF_NEXT);
    return report_end(&faults, "desk_first_fault and twin", ANSWERS_OF_FAULT) | listed | judged;
}
