#include "chain.h"

#include <stdio.h>
#include <string.h>

void put_name(struct text *t, size_t k)
{
    char name[24];
    snprintf(name, sizeof name, "n%zu", k);
    put(t, name);
}

void put_chain(struct text *t, struct chain c)
{
    size_t names = 0, kinds = strlen(c.signs);
    put_times(t, "(", c.outer);
    for (size_t k = 0; k < c.groups; k++) {
        put(t, "(");
        for (const char *member = c.beside; *member != '\0'; member++) {
            if (*member == 'n')
                put_name(t, names++);
            else
                put(t, "()");
            put(t, (char[]){c.signs[k % kinds], 0});
        }
    }
    put(t, c.middle);
    for (size_t k = 0; k < c.groups; k++) {
        put(t, ")");
        put(t, c.behind);
    }
    put_times(t, ")", c.outer);
}
