/* A client of the desk: judges the children named on the command line by the model of the example,
   says the verdict in words, the first child that is foreign or one too many, if any, which names
   may come next, and the model's canonical text. Without names it judges a cue that is still
   open. */
#include "desk.h"

#include <stdio.h>
#include <string.h>

static const char MODEL[] = "(axis,target,(crawl&gather)?,hold[0..2])";
static const char *const DEFAULT[] = {"axis", "target", "crawl"};

/* What a name begins with, and what it goes on with. */
#define INITIALS "abcdefghijklmnopqrstuvwxyzABCDEFGHIJKLMNOPQRSTUVWXYZ_"
#define INNERS INITIALS "0123456789-.:"

enum {
    ROOM = 65536,     /* one byte more than a children text may have */
    NAMES = 64,       /* a model has no more */
    MODEL_ROOM = 4096 /* a model text has no more bytes */
};

static const char *in_words(uint32_t answer)
{
    switch (answer) {
    case 0: return "complete";
    case 1: return "open";
    case 2: return "dead";
    case 10: return "refused: the model is empty or over 4,096 bytes";
    case 11: return "refused: no model begins so, or it stops short";
    case 12: return "refused: a name in the model is over 32 characters";
    case 13: return "refused: a count in the model is wrong";
    case 14: return "refused: over 16 groups are around a name, without needless brackets";
    case 15: return "refused: the model has over 64 atoms";
    case 16: return "refused: the model has over 128 nodes";
    case 17: return "refused: a name stands twice in the model";
    case 18: return "refused: a ! in the model stands behind a member without names";
    case 19: return "refused: over 64 round brackets are open at once";
    case 30: return "refused: the children are over 65,535 bytes";
    case 35: return "refused: a child is no name of 1 to 32 characters";
    case 36: return "refused: there are over 4,096 children";
    default: return "an answer that is not in the table";
    }
}

/* Names parted by tabs; what has no room is cut off, and the text is then refused as too long. */
static size_t write_children(char *text, const char *const *names, size_t count)
{
    size_t len = 0;
    for (size_t i = 0; i < count; i++) {
        if (i != 0 && len < ROOM)
            text[len++] = '\t';
        for (const char *byte = names[i]; *byte != '\0' && len < ROOM; byte++)
            text[len++] = *byte;
    }
    return len;
}

/* The names of a model text are its words that begin with a letter or an underscore. */
static void print_name(uint16_t number)
{
    const char *name = MODEL + strcspn(MODEL, INITIALS);
    while (--number > 0) {
        name += strspn(name, INNERS);
        name += strcspn(name, INITIALS);
    }
    printf(" %.*s", (int)strspn(name, INNERS), name);
}

/* Where there is a verdict, nothing is refused here either, and a zero stands behind the children.
   People count children from 1. */
static void print_fault(const char *children, size_t len)
{
    uint32_t place = desk_first_fault((const uint8_t *)MODEL, strlen(MODEL),
                                      (const uint8_t *)children, len);
    if (place >= DESK_NO_FAULT)
        return;
    const char *name = children;
    for (uint32_t passed = 0; passed < place; passed++)
        name = strchr(name, '\t') + 1;
    printf("fault: %.*s, child %u\n", (int)strcspn(name, "\t"), name, (unsigned)place + 1);
}

/* Where there is a verdict and room for every name, desk_next refuses nothing. */
static void print_next(const char *children, size_t len)
{
    uint16_t row[NAMES];
    uint32_t count = desk_next((const uint8_t *)MODEL, strlen(MODEL), (const uint8_t *)children,
                               len, row, NAMES);
    if (count >= DESK_REFUSED)
        return;
    printf("next:");
    for (uint32_t i = 0; i < count; i++)
        print_name(row[i]);
    puts(count == 0 ? " none" : "");
}

/* Where there is a verdict and room for every model text, desk_canonical refuses nothing. */
static void print_model(void)
{
    uint8_t text[MODEL_ROOM];
    uint32_t len = desk_canonical((const uint8_t *)MODEL, strlen(MODEL), text, MODEL_ROOM);
    if (len < DESK_REFUSED)
        printf("model: %.*s\n", (int)len, (const char *)text);
}

int main(int argc, char **argv)
{
    static char children[ROOM];
    size_t len = argc > 1
        ? write_children(children, (const char *const *)argv + 1, (size_t)argc - 1)
        : write_children(children, DEFAULT, sizeof DEFAULT / sizeof DEFAULT[0]);
    uint32_t answer = desk_judge((const uint8_t *)MODEL, strlen(MODEL),
                                 (const uint8_t *)children, len);
    puts(in_words(answer));
    if (answer > 2)
        return 1;
    print_fault(children, len);
    print_next(children, len);
    print_model();
    return 0;
}
