/* Measures, row by row, desk_judge against its plain C twin, and desk_next and desk_first_fault
   against desk_judge, in this process and so at one place of the code of each. Prints three lines
   of figures for a row, which table.c reads. measure.h says how it is timed. */
#include "desk.h"
#include "measure.h"
#include "rows.h"
#include "twin.h"

#include <stdio.h>
#include <string.h>

enum { TWIN, DESK, NEXT, FAULT, JOBS };

static int differs(const struct row *row, const char *function, uint32_t answer, uint32_t right)
{
    if (answer == right)
        return 0;
    fprintf(stderr, "%s: %s %u, right %u\n", row->title, function, answer, right);
    return 1;
}

static int answers_differ(const struct row *row)
{
    struct call c = call_of(row);
    return differs(row, "twin_judge", ask(twin_judge, c), row->answer)
           | differs(row, "desk_judge", ask(desk_judge, c), row->answer)
           | differs(row, "desk_first_fault", ask(desk_first_fault, c), ask(twin_first_fault, c));
}

static int lists_differ(const struct row *row)
{
    uint16_t desk[MOST_NAMES] = {0}, twin[MOST_NAMES] = {0};
    struct call c = call_of(row);
    uint32_t answer = ask_next(desk_next, c, (struct places){desk, MOST_NAMES});
    uint32_t right = ask_next(twin_next, c, (struct places){twin, MOST_NAMES});
    return differs(row, "desk_next", answer, right)
           | differs(row, "another list", memcmp(desk, twin, sizeof desk) != 0, 0);
}

int main(void)
{
    static struct row row;
    for (int i = 0; i < ROWS; i++) {
        make_row(&row, i);
        struct question twin = question_of(twin_judge, &row), desk = question_of(desk_judge, &row);
        struct question fault = question_of(desk_first_fault, &row);
        struct next_question next = next_question_of(desk_next, &row);
        struct job jobs[JOBS] = {
            {ask_again, &twin, TWIN}, {ask_again, &desk, TWIN},
            {list_again, &next, DESK}, {ask_again, &fault, DESK},
        };
        struct figures f[JOBS];
        if (answers_differ(&row) || lists_differ(&row))
            return 1;
        measure(jobs, JOBS, f);
        for (int j = DESK; j < JOBS; j++)
            printf("%f %f %f %f\n", f[j].ns, f[jobs[j].against].ns, f[j].ratio, f[j].noise);
    }
    return 0;
}
