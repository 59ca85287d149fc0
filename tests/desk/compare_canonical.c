/* Compares desk_canonical with the oracle and with the twin, writes each canonical text again, and
   asks the desk's other functions about rows by the model and by its canonical text. Each text, and
   the buffer that is lent, ends where memory ends, so that a step past it stops the test; a model
   text that a call has changed counts as a difference. */
#include "brute.h"
#include "canonical.h"
#include "cases.h"
#include "desk.h"
#include "dice.h"
#include "fence.h"
#include "lists.h"
#include "twin.h"

#include <ctype.h>
#include <string.h>

static const struct amounts HOW_MANY = {
    .small = 20000, .damaged = 20000, .large = 1000, .deep = 20000, .loose = 50000,
};

enum { STEPS = 8 };

/* No model here has it. */
static const char FOREIGN[] = "q-q";

/* The ends of pieces of memory, one for each text. */
static uint8_t *model_end, *text_end, *children_end;

static struct dice dice;
static struct report rows;

/* ---- rows by the model and by its canonical text ---- */

/* Upper counts and names are the same, so the first fault is too. */
static void compare_row(struct bytes model, struct bytes text, struct bytes row)
{
    struct bytes children = fenced(children_end, row);
    struct call by_model = {model, children}, by_text = {text, children};
    report_answer(&rows, by_model, ask(desk_judge, by_text), ask(desk_judge, by_model));
    report_value(&rows, by_model, "first fault by the canonical text",
                 ask(desk_first_fault, by_text), ask(desk_first_fault, by_model));
    report_value(&rows, by_model, "next names by the canonical text",
                 list_by(desk_next, by_text).answer, list_by(desk_next, by_model).answer);
}

static bool is_initial(uint8_t byte) { return isalpha(byte) || byte == '_'; }

static bool is_name_byte(uint8_t byte)
{
    return is_initial(byte) || isdigit(byte) || byte == '-' || byte == '.' || byte == ':';
}

/* The names of a good model text are its words that begin with a letter or an underscore. */
static size_t find_names(struct bytes model, struct bytes *name)
{
    size_t names = 0;
    for (size_t at = 0, end; at < model.len; at = end + 1) {
        for (end = at; end < model.len && is_name_byte(model.at[end]);)
            end++;
        if (end > at && is_initial(model.at[at]))
            name[names++] = (struct bytes){model.at + at, end - at};
    }
    return names;
}

/* Rows that grow by a name that may come next, seldom by another one. */
static void walk(struct bytes model, struct bytes text)
{
    static struct text row;
    struct bytes name[MOST_NAMES];
    size_t names = find_names(model, name);
    begin(&row, "");
    for (size_t step = 0; step < STEPS; step++) {
        compare_row(model, text, written(&row));
        struct list next = list_by(desk_next, (struct call){model, written(&row)});
        if (next.answer == 0 || next.answer > MOST_NAMES)
            return;
        size_t k = one_in(&dice, 8) ? below(&dice, names)
                                    : (size_t)next.name[below(&dice, next.answer)] - 1;
        put(&row, row.len == 0 ? "" : "\t");
        put_bytes(&row, name[k]);
    }
}

/* The children, with a foreign name behind them, that name alone, and a walk from no children. */
static void compare_rows(struct bytes model, struct bytes text, struct bytes children)
{
    static struct text row;
    begin(&row, "");
    put_bytes(&row, children);
    compare_row(model, text, written(&row));
    put(&row, row.len == 0 ? "" : "\t");
    put(&row, FOREIGN);
    compare_row(model, text, written(&row));
    compare_row(model, text, bytes_of(FOREIGN));
    walk(model, text);
}

/* ---- the texts ---- */

static struct canonical right_text(struct bytes model)
{
    size_t place;
    struct canonical c = {.answer = twin_model(model.at, model.len, &place) + DESK_REFUSED};
    if (c.answer == DESK_REFUSED)
        c.answer = brute_rewrite(model.at, model.len, c.byte);
    return c;
}

static void compare(struct report *to, struct call c)
{
    struct bytes model = fenced(model_end, c.model);
    struct canonical right = right_text(c.model);
    check_buffers(to, desk_canonical, model, &right);
    check_buffer(to, twin_canonical, c.model, &right, MOST_BYTES);
    report_value(to, c, "model text changed",
                 model.at != NULL && memcmp(model.at, c.model.at, model.len) != 0, 0);
    if (right.answer >= DESK_REFUSED)
        return;
    struct bytes text = fenced(text_end, text_of(&right));
    check_buffer(to, desk_canonical, text, &right, text.len);
    compare_rows(model, text, c.children);
}

int main(void)
{
    struct report report = {0};
    model_end = new_fence();
    text_end = new_fence();
    children_end = new_fence();
    check_known_canonical(desk_canonical, &report);
    try_known(compare, &report);
    try_limits(compare, &report);
    try_random(21, HOW_MANY, compare, &report);
    int bad = report_end(&report, "desk_canonical and oracle", ANSWERS_OF_CANONICAL);
    return bad | report_end(&rows, "rows by canonical texts", ANSWERS_OF_ROWS);
}
