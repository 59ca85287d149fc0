/* Compares the twin with the oracle: answers, places, lists, first faults and canonical texts,
   known, at limits and random. */
#include "brute.h"
#include "canonical.h"
#include "cases.h"
#include "desk.h"
#include "lists.h"
#include "twin.h"

static const struct amounts HOW_MANY = {
    .small = 60000, .damaged = 60000, .large = 60, .deep = 5000, .loose = 2000,
};

static struct report lists, faults, texts;

/* The oracle's canonical text of a model text that has this refusal, or 0. */
static struct canonical rewritten(struct bytes model, uint32_t refusal)
{
    struct canonical c = {.answer = DESK_REFUSED + refusal};
    if (refusal == 0)
        c.answer = brute_rewrite(model.at, model.len, c.byte);
    return c;
}

/* A canonical text is its own, and by it rows are judged as by the model. */
static void compare_texts(struct call c, uint32_t refusal, uint32_t answer)
{
    struct canonical right = rewritten(c.model, refusal);
    check_buffers(&texts, twin_canonical, c.model, &right);
    struct call again = {text_of(&right), c.children};
    if (again.model.at == NULL)
        return;
    check_buffer(&texts, twin_canonical, again.model, &right, again.model.len);
    report_value(&texts, c, "answer by the canonical text", ask(brute_judge, again), answer);
}

static void compare(struct report *to, struct call c)
{
    size_t twin_place, place;
    uint32_t answer = ask(brute_judge, c);
    report_answer(to, c, ask(twin_judge, c), answer);
    twin_model(c.model.at, c.model.len, &twin_place);
    uint32_t refusal = brute_model(c.model.at, c.model.len, &place);
    report_value(to, c, "place", twin_place, place);
    check_lists(&lists, twin_next, c, list_by(brute_next, c));
    report_fault(&faults, c, ask(twin_first_fault, c), ask(brute_first_fault, c));
    compare_texts(c, refusal, answer);
}

int main(void)
{
    struct report report = {0};
    check_known_rows(twin_judge, &report);
    check_known_rows(brute_judge, &report);
    check_known_texts(twin_judge, &report);
    check_known_places(twin_model, &report);
    check_known_places(brute_model, &report);
    check_known_lists(twin_next, &lists);
    check_known_lists(brute_next, &lists);
    check_known_faults(twin_first_fault, &faults);
    check_known_faults(brute_first_fault, &faults);
    check_known_canonical(twin_canonical, &texts);
    check_known_canonical(brute_canonical, &texts);
    try_known(compare, &report);
    try_limits(compare, &report);
    try_random(1, HOW_MANY, compare, &report);
    int bad = report_end(&report, "twin and oracle", ANSWERS_OF_JUDGE);
    bad |= report_end(&lists, "twin and oracle, next names", ANSWERS_OF_NEXT);
    bad |= report_end(&faults, "twin and oracle, first fault", ANSWERS_OF_FAULT);
    return bad | report_end(&texts, "twin and oracle, canonical text", ANSWERS_OF_CANONICAL);
}
