/* Random numbers; the seed fixes them. */
#ifndef DICE_H
#define DICE_H

#include <stdbool.h>
#include <stddef.h>
#include <stdint.h>

struct dice {
    uint64_t state;
};

/* splitmix64 */
static inline uint64_t roll(struct dice *d)
{
    uint64_t z = d->state += 0x9e3779b97f4a7c15u;
    z = (z ^ z >> 30) * 0xbf58476d1ce4e5b9u;
    z = (z ^ z >> 27) * 0x94d049bb133111ebu;
    return z ^ z >> 31;
}

static inline size_t below(struct dice *d, size_t n) { return (size_t)(roll(d) % n); }
static inline bool one_in(struct dice *d, size_t n) { return below(d, n) == 0; }
static inline bool chance(struct dice *d, size_t percent) { return below(d, 100) < percent; }

#endif
