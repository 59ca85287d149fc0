/* Times functions against each other.

   A sample is many calls on end; a round is many samples, the functions taking turns; a round's
   figure is the median of its samples. What is given are the medians of the rounds' figures and of
   their ratios, and as noise the spread of the ratio between the rounds: largest less smallest, as
   a part of the median. */
#ifndef MEASURE_H
#define MEASURE_H

enum { MOST_JOBS = 4 };

/* Something to time: run(with, n) does it n times. Its ratio is that to the job `against`. */
struct job {
    void (*run)(void *with, long times);
    void *with;
    int against;
};

struct figures {
    double ns, ratio, noise; /* of a call */
};

/* Fills the figures of each of the n jobs. */
void measure(const struct job *jobs, int n, struct figures *figures);

/* Sorts; the smallest is then the first. */
double median(double *values, int n);

#endif
