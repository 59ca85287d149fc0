/* Measures, model by model, desk_canonical against its plain C twin, and against desk_judge with no
   children, which reads the model and does little else, in this process and so at one place of the
   code of each. Prints two lines of figures for a model, which table.c reads. measure.h says how it
   is timed. */
#include "desk.h"
#include "measure.h"
#include "rules.h"
#include "twin.h"

#include <stdio.h>
#include <string.h>

/* The desk is timed twice, once for each of the others. */
enum { TWIN, READ, DESK, DESK_AGAIN, JOBS };

static int texts_differ(const struct row *row)
{
    static struct text_question desk, twin;
    desk = text_question_of(desk_canonical, row);
    twin = text_question_of(twin_canonical, row);
    uint32_t answer = write_text(&desk), right = write_text(&twin);
    if (answer == right && memcmp(desk.buffer, twin.buffer, TEXT_BYTES) == 0)
        return 0;
    fprintf(stderr, "%s: desk_canonical %u, right %u, or another text\n", row->title, answer,
            right);
    return 1;
}

int main(void)
{
    static struct row row;
    static struct text_question twin, desk;
    for (int i = 0; i < RULES; i++) {
        make_rule(&row, i);
        if (texts_differ(&row))
            return 1;
        struct question read = question_of(desk_judge, &row);
        twin = text_question_of(twin_canonical, &row);
        desk = text_question_of(desk_canonical, &row);
        struct job jobs[JOBS] = {
            {write_again, &twin, TWIN}, {ask_again, &read, READ},
            {write_again, &desk, TWIN}, {write_again, &desk, READ},
        };
        struct figures f[JOBS];
        measure(jobs, JOBS, f);
        for (int j = DESK; j < JOBS; j++)
            printf("%f %f %f %f\n", f[j].ns, f[jobs[j].against].ns, f[j].ratio, f[j].noise);
    }
    return 0;
}
