/* Bytes with a length, and texts that are written piece by piece. */
#ifndef TEXT_H
#define TEXT_H

#include <stddef.h>
#include <stdint.h>

#define LENGTH(array) (sizeof(array) / sizeof(array)[0])

/* Where there are none, the pointer may be null. */
struct bytes {
    const uint8_t *at;
    size_t len;
};

static const struct bytes NO_BYTES = {NULL, 0};

struct bytes bytes_of(const char *string);

enum { TEXT_ROOM = 150000 };

struct text {
    uint8_t byte[TEXT_ROOM];
    size_t len;
};

/* Starts again with these bytes. */
void begin(struct text *t, const char *string);

/* Adds these bytes; the program stops where they have no room. */
void put(struct text *t, const char *string);
void put_bytes(struct text *t, struct bytes bytes);
void put_times(struct text *t, const char *string, size_t times);

struct bytes written(const struct text *t);

#endif
