/* Measures judge_row, which C cannot call by itself: timing_judge_row reads the model text and then
   judges a row of numbers. What is printed is its time less that of the same call with no children,
   so that neither reading the text nor testing the rule counts. */
#include "measure.h"
#include "text.h"

#include <stdio.h>

uint32_t timing_judge_row(const uint8_t *model, size_t model_len, const uint16_t *row, size_t row_len);

enum { NAMES = 64, MANY = 4096 };

enum kind { SOUND, FOREIGN_FIRST, SECOND_TOO_MANY, FOREIGN_LAST };

static const struct {
    const char *title;
    enum kind kind;
    uint32_t verdict;
} ROWS[] = {
    {"4,096 children in order", SOUND, 0},
    {"foreign at the first", FOREIGN_FIRST, 2},
    {"second one too many", SECOND_TOO_MANY, 2},
    {"foreign at the last", FOREIGN_LAST, 2},
};

static struct text model;
static uint16_t row[MANY];
static volatile uint32_t sink; /* keeps the calls */

/* A sequence of 64 names, the first of which may stand once or any number of times. */
static void make_model(int first_once)
{
    char name[16];
    begin(&model, "(");
    for (int i = 1; i <= NAMES; i++) {
        snprintf(name, sizeof name, "%sname%02d", i == 1 ? "" : ",", i);
        put(&model, name);
        put(&model, i == 1 && first_once ? "" : "[0..*]");
    }
    put(&model, ")");
}

static void make_row(enum kind kind)
{
    make_model(kind == SECOND_TOO_MANY);
    for (int i = 0; i < MANY; i++)
        row[i] = (uint16_t)(i * NAMES / MANY + 1);
    if (kind == FOREIGN_FIRST)
        row[0] = 0;
    if (kind == FOREIGN_LAST)
        row[MANY - 1] = 0;
}

static void judge_again(void *len, long times)
{
    while (times-- > 0)
        sink = timing_judge_row(model.byte, model.len, row, *(size_t *)len);
}

int main(void)
{
    for (size_t i = 0; i < LENGTH(ROWS); i++) {
        size_t none = 0, all = MANY;
        struct job jobs[] = {{judge_again, &none, 0}, {judge_again, &all, 0}};
        struct figures f[LENGTH(jobs)];
        make_row(ROWS[i].kind);
        if (timing_judge_row(model.byte, model.len, row, MANY) != ROWS[i].verdict)
            return 1;
        measure(jobs, LENGTH(jobs), f);
        printf("| %-24s | %6.0f |\n", ROWS[i].title, f[1].ns - f[0].ns);
    }
    return 0;
}
