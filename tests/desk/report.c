#include "report.h"
#include "desk.h"

#include <stdio.h>

enum { SHOWN = 20, SHOWN_BYTES = 200 };

/* Every answer of include/desk.h; a list of no names and no fault stand as 0 here, a list of some
   names, a fault and a written text as 1. */
static const uint32_t OF_JUDGE[] = {0, 1, 2, 10, 11, 12, 13, 14, 15, 16, 17, 18, 19, 30, 35, 36};
static const uint32_t OF_NEXT[] = {0, 1, 10, 11, 12, 13, 14, 15, 16, 17, 18, 19, 30, 35, 36, 46};
static const uint32_t OF_FAULT[] = {0, 1, 10, 11, 12, 13, 14, 15, 16, 17, 18, 19, 30, 35, 36};
static const uint32_t OF_CANONICAL[] = {1, 10, 11, 12, 13, 14, 15, 16, 17, 18, 19, 51};
static const uint32_t OF_ROWS[] = {0, 1, 2, 30, 35, 36};
const struct answers ANSWERS_OF_JUDGE = {OF_JUDGE, LENGTH(OF_JUDGE)};
const struct answers ANSWERS_OF_NEXT = {OF_NEXT, LENGTH(OF_NEXT)};
const struct answers ANSWERS_OF_FAULT = {OF_FAULT, LENGTH(OF_FAULT)};
const struct answers ANSWERS_OF_CANONICAL = {OF_CANONICAL, LENGTH(OF_CANONICAL)};
const struct answers ANSWERS_OF_ROWS = {OF_ROWS, LENGTH(OF_ROWS)};

static void print_text(const char *title, struct bytes b)
{
    printf("  %s, %zu bytes: ", title, b.len);
    for (size_t i = 0; i < b.len && i < SHOWN_BYTES; i++) {
        if (b.at[i] > ' ' && b.at[i] < 127 && b.at[i] != '\\')
            putchar(b.at[i]);
        else
            printf("\\x%02x", b.at[i]);
    }
    puts(b.len > SHOWN_BYTES ? " ..." : "");
}

void report_value(struct report *report, struct call c, const char *what, size_t got, size_t right)
{
    if (got == right || report->different++ >= SHOWN)
        return;
    printf("%s %zu, right is %zu\n", what, got, right);
    print_text("model", c.model);
    print_text("children", c.children);
}

static void count(struct report *report, uint32_t answer)
{
    report->tried++;
    if (answer < LENGTH(report->met))
        report->met[answer]++;
}

void report_answer(struct report *report, struct call c, uint32_t got, uint32_t right)
{
    count(report, right);
    report_value(report, c, "answer", got, right);
}

void report_list(struct report *report, struct call c, uint32_t got, uint32_t right)
{
    count(report, right < DESK_REFUSED ? right != 0 : right - DESK_REFUSED);
    report_value(report, c, "answer of the list", got, right);
}

void report_fault(struct report *report, struct call c, uint32_t got, uint32_t right)
{
    count(report, right < DESK_REFUSED ? right != DESK_NO_FAULT : right - DESK_REFUSED);
    report_value(report, c, "answer of the first fault", got, right);
}

void report_text(struct report *report, struct bytes model, uint32_t got, uint32_t right)
{
    count(report, right < DESK_REFUSED ? 1 : right - DESK_REFUSED);
    report_value(report, (struct call){model, NO_BYTES}, "answer of the text", got, right);
}

int report_end(const struct report *report, const char *title, struct answers to_meet)
{
    unsigned long missing = 0;
    printf("%s: met", title);
    for (size_t i = 0; i < to_meet.count; i++) {
        unsigned long met = report->met[to_meet.number[i]];
        printf(" %u:%lu", to_meet.number[i], met);
        missing += met == 0;
    }
    printf("\n%s: %lu tried, %lu different, %lu answers never met\n", title, report->tried,
           report->different, missing);
    return report->different != 0 || missing != 0;
}
