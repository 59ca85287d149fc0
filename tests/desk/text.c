#include "text.h"

#include <stdlib.h>
#include <string.h>

struct bytes bytes_of(const char *string)
{
    return (struct bytes){(const uint8_t *)string, strlen(string)};
}

void begin(struct text *t, const char *string)
{
    t->len = 0;
    put(t, string);
}

void put(struct text *t, const char *string) { put_bytes(t, bytes_of(string)); }

void put_bytes(struct text *t, struct bytes bytes)
{
    if (bytes.len > TEXT_ROOM - t->len)
        abort();
    if (bytes.len > 0)
        memcpy(t->byte + t->len, bytes.at, bytes.len);
    t->len += bytes.len;
}

void put_times(struct text *t, const char *string, size_t times)
{
    while (times-- > 0)
        put(t, string);
}

struct bytes written(const struct text *t) { return (struct bytes){t->byte, t->len}; }
