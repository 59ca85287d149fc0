#define _POSIX_C_SOURCE 200809L
#include "measure.h"

#include <stdlib.h>
#include <time.h>

enum { ROUNDS = 7, MOST_SAMPLES = 41, LEAST_SAMPLES = 5 };

static const double SAMPLE_NS = 300e3, ROUND_NS = 100e6;

static double now_ns(void)
{
    struct timespec t;
    clock_gettime(CLOCK_MONOTONIC, &t);
    return (double)t.tv_sec * 1e9 + (double)t.tv_nsec;
}

/* ns for this many calls */
static double sample(struct job job, long calls)
{
    double start = now_ns();
    job.run(job.with, calls);
    return now_ns() - start;
}

static int by_size(const void *a, const void *b)
{
    double x = *(const double *)a, y = *(const double *)b;
    return (x > y) - (x < y);
}

double median(double *values, int n)
{
    qsort(values, (size_t)n, sizeof *values, by_size);
    return n % 2 != 0 ? values[n / 2] : (values[n / 2 - 1] + values[n / 2]) / 2;
}

static double spread(double *values, int n)
{
    double middle = median(values, n);
    return (values[n - 1] - values[0]) / middle;
}

/* How often to call each job for one sample, and how many samples make a round. */
struct plan {
    long calls[MOST_JOBS];
    int samples;
};

static struct plan make_plan(const struct job *jobs, int n)
{
    struct plan plan;
    double turn = 0;
    for (int j = 0; j < n; j++) {
        double ns;
        for (plan.calls[j] = 1; (ns = sample(jobs[j], plan.calls[j])) < SAMPLE_NS;)
            plan.calls[j] *= 2;
        turn += ns;
    }
    plan.samples = turn * MOST_SAMPLES < ROUND_NS ? MOST_SAMPLES : (int)(ROUND_NS / turn);
    if (plan.samples < LEAST_SAMPLES)
        plan.samples = LEAST_SAMPLES;
    return plan;
}

/* There and back again through the jobs, so that none is always behind the same one. */
static void measure_round(const struct job *jobs, int n, const struct plan *plan, double *ns)
{
    double taken[MOST_JOBS][MOST_SAMPLES];
    for (int i = 0; i < plan->samples; i++)
        for (int k = 0; k < n; k++) {
            int j = i % 2 == 0 ? k : n - 1 - k;
            taken[j][i] = sample(jobs[j], plan->calls[j]) / (double)plan->calls[j];
        }
    for (int j = 0; j < n; j++)
        ns[j] = median(taken[j], plan->samples);
}

void measure(const struct job *jobs, int n, struct figures *figures)
{
    double ns[MOST_JOBS][ROUNDS], ratio[MOST_JOBS][ROUNDS], round[MOST_JOBS];
    struct plan plan = make_plan(jobs, n);
    for (int i = 0; i < ROUNDS; i++) {
        measure_round(jobs, n, &plan, round);
        for (int j = 0; j < n; j++) {
            ns[j][i] = round[j];
            ratio[j][i] = round[j] / round[jobs[j].against];
        }
    }
    for (int j = 0; j < n; j++)
        figures[j] = (struct figures){median(ns[j], ROUNDS), median(ratio[j], ROUNDS),
                                      spread(ratio[j], ROUNDS)};
}
