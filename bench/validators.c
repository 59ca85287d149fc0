/* Measures libxml2's validators against desk_judge, row by row, in this process, and prints the
   table of their times over desk_judge's, in Markdown. */
#include "desk.h"
#include "libxml.h"
#include "measure.h"

#include <stdio.h>

enum { DESK, ALONE, WITH_SCHEMA, JOBS };

static void print_notes(void)
{
    printf("libxml2 %s on the same rows: its time over desk_judge's, measured in turns\n"
           "RELAX NG, XSD: a parsed document validated by a schema compiled beforehand\n"
           "with schema: the schema compiled from its text as well, each time\n"
           "-: the language cannot say the model, or only with very many copies of a name\n"
           "refused: libxml2 does not take the schema\n"
           "wrong: its answer is not valid for complete, invalid for open and dead\n\n",
           libxml_version());
}

/* Of ratios under a hundred, the digits behind the point as well. */
static void print_ratio(double ratio)
{
    printf(" %11.*f |", ratio < 10 ? 2 : ratio < 100 ? 1 : 0, ratio);
}

static void print_language(const struct language *language, const struct row *row)
{
    const char *why;
    struct question desk = question_of(desk_judge, row);
    struct validator *v = new_validator(language, row, &why);
    if (v == NULL) {
        printf(" %11s | %11s |", why, why);
        return;
    }
    struct job jobs[JOBS] = {
        {ask_again, &desk, DESK}, {validate, v, DESK}, {compile_and_validate, v, DESK},
    };
    struct figures f[JOBS];
    measure(jobs, JOBS, f);
    free_validator(v);
    print_ratio(f[ALONE].ratio);
    print_ratio(f[WITH_SCHEMA].ratio);
}

int main(void)
{
    static struct row row;
    print_notes();
    printf("| %-39s | %11s | %11s | %11s | %11s |\n", "Row", "RELAX NG", "with schema", "XSD",
           "with schema");
    puts("|---|---|---|---|---|");
    for (int i = 0; i < ROWS; i++) {
        make_row(&row, i);
        printf("| %-39s |", row.title);
        print_language(RELAX_NG, &row);
        print_language(XSD, &row);
        putchar('\n');
        fflush(stdout);
    }
    return 0;
}
