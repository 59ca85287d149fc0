/* Prints tables in Markdown: `table rows` those of desk_judge against its twin and of desk_next and
   desk_first_fault against desk_judge, `table models` those of desk_canonical against its twin and
   against reading. Each further argument is a file with what bench.c or canonical.c printed at one
   placement of the code; a row's figures are medians over the placements. */
#include "measure.h"
#include "rules.h"

#include <stdio.h>
#include <stdlib.h>
#include <string.h>

enum { MOST_TABLES = 3, MOST_ROWS = 32, MOST_PLACEMENTS = 64 };

/* The heads of two columns and the ratios to reach; 0 where none is set, or no other one for names
   of one slot. */
struct table {
    const char *ns, *against;
    double limit, limit_of_one_slot, limit_of_median;
};

static const struct table OF_ROWS[] = {
    {"desk ns", "twin ns", 1.3, 4, 1.1},
    {"next ns", "judge ns", 1.5, 0, 0},
    {"fault ns", "judge ns", 1.1, 0, 0},
};

static const struct table OF_MODELS[] = {
    {"desk ns", "twin ns", 0, 0, 0},
    {"desk ns", "read ns", 10, 0, 0},
};

/* What one program measures. */
static const struct bench {
    const char *name;
    int rows, tables;
    void (*make)(struct row *row, int i);
    const struct table *table;
} BENCHES[] = {
    {"rows", ROWS, LENGTH(OF_ROWS), make_row, OF_ROWS},
    {"models", RULES, LENGTH(OF_MODELS), make_rule, OF_MODELS},
};

/* What a row took, at each placement, and what it is measured against. */
struct record {
    double ns[MOST_PLACEMENTS], against[MOST_PLACEMENTS];
    double ratio[MOST_PLACEMENTS], noise[MOST_PLACEMENTS];
};

static struct record record[MOST_TABLES][MOST_ROWS];

static void read_record(FILE *file, struct record *r, int p)
{
    if (fscanf(file, "%lf %lf %lf %lf", &r->ns[p], &r->against[p], &r->ratio[p], &r->noise[p]) != 4)
        abort();
}

static void read_placement(const struct bench *bench, const char *path, int p)
{
    FILE *file = fopen(path, "r");
    if (file == NULL)
        abort();
    for (int i = 0; i < bench->rows; i++)
        for (int t = 0; t < bench->tables; t++)
            read_record(file, &record[t][i], p);
    fclose(file);
}

/* With commas, as 12,345. */
static void print_ns(double ns)
{
    char digits[24];
    int n = snprintf(digits, sizeof digits, "%.0f", ns);
    printf(" %*s", 9 - n - (n - 1) / 3, "");
    for (int i = 0; i < n; i++)
        printf(i > 0 && (n - i) % 3 == 0 ? ",%c" : "%c", digits[i]);
    printf(" |");
}

/* Blank where none is set. */
static void print_limit(double limit)
{
    if (limit == 0)
        printf(" %7s |", "");
    else
        printf(" %7.1f |", limit);
}

/* Gives the ratio. */
static double print_row(const char *title, struct record *r, int placements, double limit)
{
    double ratio = median(r->ratio, placements);
    printf("| %-39s |", title);
    print_ns(median(r->ns, placements));
    print_ns(median(r->against, placements));
    printf(" %5.2f |", ratio);
    print_limit(limit);
    printf(" %5.2f | %8.2f | %5.1f %% |\n", r->ratio[0], r->ratio[placements - 1],
           100 * median(r->noise, placements));
    return ratio;
}

static void print_last(const char *title, double ratio, double limit)
{
    printf("| %-39s | %9s | %9s | %5.2f |", title, "", "", ratio);
    print_limit(limit);
    printf(" %5s | %8s | %7s |\n", "", "", "");
}

static double greatest(const double *values, int n)
{
    double most = values[0];
    for (int i = 1; i < n; i++)
        most = values[i] > most ? values[i] : most;
    return most;
}

static void print_head(const char *ns, const char *against)
{
    printf("| %-39s | %9s | %9s | %5s | %7s | %5s | %8s | %7s |\n", "Row", ns, against, "ratio",
           "at most", "least", "greatest", "noise");
    puts("|---|---|---|---|---|---|---|---|");
}

static void print_table(const struct bench *bench, const struct table *t, struct record *r,
                        int placements)
{
    static struct row row;
    double ratios[MOST_ROWS];
    int rows = bench->rows;
    int apart = t->limit_of_one_slot != 0 ? FIRST_OF_ONE_SLOT : rows; /* rows with another limit */
    print_head(t->ns, t->against);
    for (int i = 0; i < rows; i++) {
        bench->make(&row, i);
        ratios[i] = print_row(row.title, &r[i], placements,
                              i < apart ? t->limit : t->limit_of_one_slot);
    }
    print_last("worst", greatest(ratios, apart), t->limit);
    if (apart < rows)
        print_last("worst, names of one slot", greatest(ratios + apart, rows - apart),
                   t->limit_of_one_slot);
    if (t->limit_of_median != 0)
        print_last("median", median(ratios, rows), t->limit_of_median);
}

static int print_bench(const struct bench *bench, char **path, int placements)
{
    if (placements < 1 || placements > MOST_PLACEMENTS)
        return 2;
    for (int p = 0; p < placements; p++)
        read_placement(bench, path[p], p);
    for (int t = 0; t < bench->tables; t++) {
        if (t > 0)
            putchar('\n');
        print_table(bench, &bench->table[t], record[t], placements);
    }
    return 0;
}

int main(int count, char **word)
{
    for (size_t i = 0; count > 1 && i < LENGTH(BENCHES); i++)
        if (strcmp(word[1], BENCHES[i].name) == 0)
            return print_bench(&BENCHES[i], word + 2, count - 2);
    return 2;
}
