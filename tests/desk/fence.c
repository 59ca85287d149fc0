#define _DEFAULT_SOURCE
#include "fence.h"

#include <stdio.h>
#include <stdlib.h>
#include <string.h>
#include <sys/mman.h>
#include <unistd.h>

uint8_t *new_fence(void)
{
    size_t page = (size_t)sysconf(_SC_PAGESIZE);
    uint8_t *block = mmap(NULL, FENCED + page, PROT_READ | PROT_WRITE,
                          MAP_PRIVATE | MAP_ANONYMOUS, -1, 0);
    if (block == MAP_FAILED || mprotect(block + FENCED, page, PROT_NONE) != 0) {
        perror("memory");
        exit(2);
    }
    return block + FENCED;
}

struct bytes fenced(uint8_t *end, struct bytes text)
{
    if (text.at == NULL)
        return text;
    memcpy(end - text.len, text.at, text.len);
    return (struct bytes){end - text.len, text.len};
}
