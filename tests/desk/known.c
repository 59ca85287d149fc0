/* Rows and texts whose answers stand in documents 01 and 02 or follow from them. */
#include "canonical.h"
#include "cases.h"
#include "chain.h"
#include "desk.h"
#include "lists.h"

#include <string.h>

/* Children are parted by spaces here. */
static const struct {
    const char *model, *children;
    uint32_t answer;
} ROWS[] = {
    /* 01, "Rows to try" */
    {"((a?&b[1..5]),(c|d[1..*]))", "b b a c", 0},
    {"((a?&b[1..5]),(c|d[1..*]))", "", 1},
    {"((a?&b[1..5]),(c|d[1..*]))", "c b", 2},
    {"((a?&b[1..5]),(c|d[1..*]))", "b b a c d", 2},
    {"((a?&b[1..5]),(c|d[1..*]))", "b b b b b b", 2},
    {"((a&b&c),d[0..*],(e|f|g))", "b c a d d d g", 0},
    {"((a&b&c),d[0..*],(e|f|g))", "b c a d", 1},
    {"((a&b&c),d[0..*],(e|f|g))", "b c a d d d g d", 2},
    {"(a,b)", "b", 2},
    {"(a,b)", "", 1},
    {"(a[2..3],b)", "a a b", 0},
    {"(a[2..3],b)", "a b", 2},
    {"((a,b)&(c,d))", "a c b d", 0},
    {"((a,b)&(c,d))", "c a", 1},
    {"((a,b)&(c,d))", "d c", 2},
    {"(a&b)", "b", 1},
    {"()", "", 0},
    {"()", "a", 2},
    {"(a|b)?", "", 0},
    {"(a|b)?", "a b", 2},
    /* 01, "Files" */
    {"(axis,target,(crawl&gather)?,hold[0..2])", "axis target", 0},
    {"(axis,target,(crawl&gather)?,hold[0..2])", "axis target gather crawl hold", 0},
    {"(axis,target,(crawl&gather)?,hold[0..2])", "axis target crawl", 1},
    {"(axis,target,(crawl&gather)?,hold[0..2])", "axis crawl gather", 2},
    /* foreign names, marks on nothing, a group of one */
    {"(a,b)", "a b aa", 2},
    {"()?", "", 0},
    {"(a?)?", "a", 0},
    {"((a))", "a", 0},
    {"((((a))))?", "a", 0},
    {"((a|b|())|c)", "", 0},
    {"((a|b|())|c)", "b c", 2},
    {"a[0..2]", "a a a", 2},
    {"a[1..2]?", "", 0},
    {"(a[2..2]|())", "a", 1},
    {"(a-,a)", "a- a", 0},
    /* 02, W5: case counts, and a name goes on with a dot */
    {"(A,a)", "A a", 0},
    {"(A,a)", "a A", 2},
    {"a", "A", 2},
    {"(Fade_In,lx:go)", "Fade_In lx:go", 0},
    {"(Fade_In,lx:go)", "Fade_In", 1},
    {"(Fade_In,lx:go)", "fade_in", 2},
    {"(_,__)", "_ __", 0},
    {"(a..b[1..2],a)", "a..b a..b a", 0},
    {"(a..b[1..2],a)", "a b", 2},
    /* 02, W7: not the empty row, alone and inside each kind of group */
    {"(a?,b?)!", "", 1},
    {"(a?,b?)!", "a", 0},
    {"(a?,b?)!", "b", 0},
    {"(a?,b?)!", "a b", 0},
    {"(a?,b?)!", "b a", 2},
    {"(a?,b?)!", "x", 2},
    {"a!", "", 1},
    {"a!", "a", 0},
    {"a[0..2]!", "", 1},
    {"a[0..2]!", "a a", 0},
    {"(a|b|())!", "", 1},
    {"(a|b|())!", "b", 0},
    {"((a?,b?)!)?", "", 0},
    {"((a?,b?)?)!", "", 1},
    {"((a?,b?)!,c)", "c", 2},
    {"((a?,b?)!,c)", "a", 1},
    {"((a?,b?)!,c)", "b c", 0},
    {"(c?,(a?,b?)!)", "", 1},
    {"(c?,(a?,b?)!)", "c", 1},
    {"(c?,(a?,b?)!)", "b", 0},
    {"((a?,b?)!&c?)", "", 1},
    {"((a?,b?)!&c?)", "c", 1},
    {"((a?,b?)!&c?)", "c b", 0},
    {"((a?,b?)!|c)", "", 1},
    {"((a?,b?)!|c)", "b", 0},
    {"((a?,b?)!|c)", "a c", 2},
    {"((a?,b?)!|c?)", "", 0},
    {"((a?,b?)!|c?)!", "", 1},
    /* children that are no names; the model's refusal comes first */
    {"a", "9", 35},
    {"a", ".", 35},
    {"a", ":a", 35},
    {"a", "@", 35},
    {"a", "a/b", 35},
    {"a", "a  a", 35},
    {"a", "a ", 35},
    {"a", "1a", 35},
    {"a", "-", 35},
    {"a??", "9", 11},
    {"()!", "9", 18},
};

#define NAME_31 "abcdefghijklmnopqrstuvwxyz01234"
#define OPEN_16 "(((((((((((((((("
#define CLOSE_16 "))))))))))))))))"
#define OPEN_64 OPEN_16 OPEN_16 OPEN_16 OPEN_16
#define CLOSE_64 CLOSE_16 CLOSE_16 CLOSE_16 CLOSE_16

/* A place: the length of the text. */
#define AT_END SIZE_MAX

/* The answer to a model text is 0 if it is one. */
static const struct {
    const char *text;
    uint32_t answer;
    size_t place;
} TEXTS[] = {
    /* 01, the paragraph under the rows, with the brackets of 02, W3 */
    {NAME_31 "5", 0, 0},
    {NAME_31 "56", 12, 0},
    {OPEN_64 "a" CLOSE_64, 0, 0},
    {OPEN_64 "(a)" CLOSE_64, 19, 64},
    {"a[2..1", 11, 6},
    {"a[2..1]", 13, 6},
    {"(a,b|c)", 11, 4},
    {"(a,a", 17, 3},
    /* a name is the longest run of name bytes */
    {"", 10, 0},
    {"(a,a%", 17, 3},
    {"(ab,a", 11, 5},
    {NAME_31 "56%", 12, 0},
    {NAME_31 "5%", 11, 32},
    /* counts */
    {"a[60000..60000]", 0, 0},
    {"a[60001..*]", 13, 10},
    {"a[1..60001]", 13, 10},
    {"a[1..4294967297]", 13, 15},
    {"a[0..0]", 13, 6},
    {"a[0..*]", 0, 0},
    {"a[60001..2%", 11, 10},
    {"a[0..0", 11, 6},
    {"a[01..2]", 11, 3},
    {"a[1.2]", 11, 4},
    {"a[1..]", 11, 5},
    {"a[1]", 11, 3},
    {"a[1..*5]", 11, 6},
    /* 11 before every other number at a place */
    {OPEN_16 "a(", 11, 17},
    {OPEN_64 "a(", 11, 65},
    /* marks, signs, what stands behind a model */
    {"a??", 11, 2},
    {"a?[1..2]", 11, 2},
    {"()?", 0, 0},
    {"(a)?", 0, 0},
    {"(a?)?", 0, 0},
    {"a,b", 11, 1},
    {"a)", 11, 1},
    {"()a", 11, 2},
    {"a\n", 11, 1},
    {"(a,)", 11, 3},
    {"(,a)", 11, 1},
    {"a-", 0, 0},
    {"-a", 11, 0},
    /* 02, W5 */
    {"(A,Z,_,aZ,a_,a.,a:,a..b)", 0, 0},
    {"(A,a)", 0, 0},
    {"(A,A)", 17, 3},
    {"(Fade_In,lx:go,Fade_In)", 17, 15},
    {"a..b[1..2]", 0, 0},
    {"a..b[1..2]..", 11, 10},
    {"a.[1..2]", 0, 0},
    {"1a", 11, 0},
    {".a", 11, 0},
    {":a", 11, 0},
    {"(_,@)", 11, 3},
    {"a/", 11, 1},
    {"a;", 11, 1},
    {"A@", 11, 1},
    {"Z{", 11, 1},
    {"_^", 11, 1},
    {"_`", 11, 1},
    {"a]", 11, 1},
    {"a\xe1", 11, 1},
    {"(", 11, 1},
    /* 02, W7: where `?` may stand, never both, and not behind a member without atoms */
    {"(a?,b?)!", 0, 0},
    {"a!", 0, 0},
    {"a[0..2]!", 0, 0},
    {"((a!)?)!", 0, 0},
    {"(()|a)!", 0, 0},
    {"((a)!,((),b!))!", 0, 0},
    {"a?!", 11, 2},
    {"a!?", 11, 2},
    {"a!!", 11, 2},
    {"a![1..2]", 11, 2},
    {"a[1..2!", 11, 6},
    {"()?!", 11, 3},
    {"!", 11, 0},
    {"(!)", 11, 1},
    {"(a,!)", 11, 3},
    {"(a!", 11, 3},
    {"()!", 18, 2},
    {"()!!", 18, 2},
    {"()!?", 18, 2},
    {"()!%", 18, 2},
    {"()%!", 11, 2},
    {"(())!", 18, 4},
    {"(()|())!", 18, 7},
    {"(()?,()?)!", 18, 9},
    {"((()&())!", 18, 8},
    {"(()!,", 18, 3},
    {"(a,()!)", 18, 5},
    {"(a,(()|())!,()!)", 18, 10},
    {"(()!,a,a)", 18, 3},
    {"(a,a,()!)", 17, 3},
    {"a[2..1]!!", 13, 6},
    {NAME_31 "56!", 12, 0},
    /* brackets round one name, with marks and beside other members */
    {"((((a))))", 0, 0},
    {OPEN_16 "(a)" CLOSE_16, 0, 0},
    {OPEN_64 "a?" CLOSE_64 "?", 0, 0},
    {OPEN_64 "a?" CLOSE_64 "!", 0, 0},
    {OPEN_64 "()" CLOSE_64, 19, 64},
    {OPEN_64 "(a)?" CLOSE_64, 19, 64},
    {OPEN_64 "(", 19, 64},
    {"(b,c?," OPEN_64 "a" CLOSE_64 ")", 19, 69},
    {"(" OPEN_16 "a" CLOSE_16 "|" OPEN_64 "b" CLOSE_64 ")", 19, 98},
    {"(" OPEN_16 "a" CLOSE_16 "," OPEN_16 "b" CLOSE_16 "," OPEN_16 "c" CLOSE_16 ")", 0, 0},
};

/* The same, of texts in which groups stand inside each other: brackets around them, groups, their
   signs, the members beside the next group, the innermost member, what stands behind a group. */
static const struct {
    struct chain chain;
    uint32_t answer;
    size_t place;
} CHAINS[] = {
    /* signs that differ keep groups apart */
    {{0, 16, ",|", "n", "z", ""}, 0, 0},
    {{0, 17, ",|", "n", "z", ""}, 14, AT_END},
    {{0, 17, "|,", "n", "z", ""}, 14, AT_END},
    {{0, 17, "&,|", "n", "z", ""}, 14, AT_END},
    {{0, 16, ",|", "n", "(y&z)", ""}, 14, AT_END},
    {{0, 63, "&|", "n", "z", ""}, 14, AT_END},
    /* the same signs, and brackets of one member around the groups or inside them */
    {{1, 16, ",|", "n", "z", ""}, 0, 0},
    {{2, 16, ",|", "n", "((z))?", ""}, 0, 0},
    {{48, 16, ",|", "n", "z", ""}, 0, 0},
    {{49, 16, ",|", "n", "z", ""}, 19, 114},
    {{47, 17, ",|", "n", "z", ""}, 14, AT_END},
    {{48, 17, ",|", "n", "z", ""}, 19, 118},
    /* one sign: they join, but for marked ones */
    {{0, 30, ",", "n", "z", ""}, 0, 0},
    {{0, 30, "|", "n", "z", ""}, 0, 0},
    {{0, 63, "&", "n", "z", ""}, 0, 0},
    {{0, 16, ",", "n", "z", "?"}, 0, 0},
    {{0, 17, ",", "n", "z", "?"}, 14, AT_END},
    {{0, 17, "|", "n", "z", "?"}, 14, AT_END},
    {{0, 17, "&", "n", "z", "?"}, 14, AT_END},
    {{0, 32, ",,||", "n", "z", ""}, 0, 0},
    {{0, 34, ",,||", "n", "z", ""}, 14, AT_END},
    {{0, 16, ",", "n", "z", "!"}, 0, 0},
    {{0, 17, ",", "n", "z", "!"}, 14, AT_END},
    {{0, 17, "|", "n", "z", "!"}, 14, AT_END},
    {{0, 17, "&", "n", "z", "!"}, 14, AT_END},
    {{0, 16, "|,", "n", "(y,z)", ""}, 0, 0},
    {{0, 16, "|,", "n", "(y,z)!", ""}, 14, AT_END},
    /* groups of one dissolve; `()` makes them */
    {{0, 64, ",", "", "z", "?"}, 0, 0},
    {{0, 65, ",", "", "z", "?"}, 19, 64},
    {{0, 64, ",", "", "()", ""}, 19, 64},
    {{0, 64, ",", "e", "z", ""}, 19, 253},
    {{0, 63, ",", "e", "z", ""}, 0, 0},
    {{0, 63, "&", "e", "z", "?"}, 0, 0},
    {{0, 63, "|", "e", "()", "?"}, 0, 0},
    {{0, 40, ",|", "e", "z", ""}, 0, 0},
    {{0, 40, ",|", "ee", "(y|z)", ""}, 0, 0},
    {{0, 30, ",", "en", "z", ""}, 0, 0},
    {{0, 17, ",", "n", "()", "?"}, 0, 0},
    {{0, 18, ",", "n", "()", "?"}, 14, AT_END},
    {{0, 64, ",", "", "z?", "!"}, 0, 0},
    {{0, 63, "&", "e", "z", "!"}, 0, 0},
    {{0, 17, ",", "n", "()", "!"}, 0, 0},
    {{0, 18, ",", "n", "()", "!"}, 14, AT_END},
    {{0, 63, "|", "e", "()", "!"}, 18, 255},
    /* a choice marked by `()` joins no choice around it */
    {{0, 17, "|", "n", "z", ""}, 0, 0},
    {{0, 16, "|", "ne", "z", ""}, 0, 0},
    {{0, 17, "|", "ne", "z", ""}, 14, AT_END},
    {{0, 17, "|", "en", "()", ""}, 0, 0},
    {{0, 18, "|", "en", "()", ""}, 14, AT_END},
    {{0, 16, "|", "ne", "(y|z)", ""}, 0, 0},
    {{0, 16, "|", "ne", "(y|z|())", ""}, 14, AT_END},
    {{0, 16, ",|", "n", "(z|())", ""}, 0, 0},
    {{0, 16, "|,", "n", "(()|(y,z))", ""}, 14, AT_END},
    {{0, 16, "|,", "n", "(()&(y,z))", ""}, 0, 0},
    /* a choice with `!` keeps it, and joins none either */
    {{0, 16, "|", "ne", "z", "!"}, 0, 0},
    {{0, 17, "|", "ne", "z", "!"}, 14, AT_END},
    {{0, 16, "|", "ne", "(y|z|())!", ""}, 14, AT_END},
    {{0, 16, ",|", "n", "(z|())!", ""}, 0, 0},
    {{0, 16, "|,", "n", "(()|(y,z))!", ""}, 14, AT_END},
    {{0, 16, "|,", "n", "(()&(y,z)!)", ""}, 14, AT_END},
    /* every other refusal comes before 14 */
    {{0, 17, ",|", "n", "z%", ""}, 11, 76},
    {{0, 17, ",|", "n", "(z", ""}, 11, AT_END},
    {{0, 17, ",|", "n", "z)", ""}, 11, 93},
    {{0, 17, ",|", "n", NAME_31 "56", ""}, 12, 75},
    {{0, 17, ",|", "n", "z[2..1]", ""}, 13, 81},
    {{0, 17, ",|", "nnnn", "z", ""}, 15, 263},
    {{0, 17, ",|", "neeeeee", "z", ""}, 16, 358},
    {{0, 17, ",|", "n", "n16", ""}, 17, 75},
    {{0, 17, ",|", "n", "()!", ""}, 18, 77},
    /* at one bracket 16 comes before 19, and 19 alone one node earlier */
    {{0, 64, ",", "n", "(z)", ""}, 16, 310},
    {{1, 63, ",", "n", "(z)", ""}, 19, 306},
};

#define EXAMPLE "(axis,target,(crawl&gather)?,hold[0..2])"
#define REFUSAL(n) (DESK_REFUSED + (n))

/* The names that may come next; ROOM is room for every name. */
enum { ROOM = 64 };
static const struct {
    const char *model, *children;
    size_t places;
    struct list list;
} LISTS[] = {
    {EXAMPLE, "", ROOM, {1, {1}}},
    {EXAMPLE, "axis", ROOM, {1, {2}}},
    {EXAMPLE, "axis target", ROOM, {3, {3, 4, 5}}},
    {EXAMPLE, "axis target crawl", ROOM, {1, {4}}},
    {EXAMPLE, "axis target hold", ROOM, {1, {5}}},
    {EXAMPLE, "axis target gather crawl", ROOM, {1, {5}}},
    {EXAMPLE, "axis target gather crawl hold hold", ROOM, {0, {0}}},
    /* dead rows, by order and by a foreign name */
    {EXAMPLE, "axis crawl gather", ROOM, {0, {0}}},
    {EXAMPLE, "axis stage", ROOM, {0, {0}}},
    /* what `!` asks for, and what must come before it */
    {"(a?,b?)!", "", ROOM, {2, {1, 2}}},
    {"(a?,b?)!", "a", ROOM, {1, {2}}},
    {"((a?,b?)!,c)", "", ROOM, {2, {1, 2}}},
    {"((a?,b?)!,c)", "a", ROOM, {2, {2, 3}}},
    {"((a?,b?)!,c)", "b", ROOM, {1, {3}}},
    {"(c?,(a?,b?)!)", "c", ROOM, {2, {2, 3}}},
    {"((a?,b?)!&c)", "c", ROOM, {2, {1, 2}}},
    {"((a?,b?)!|c)", "", ROOM, {3, {1, 2, 3}}},
    /* a lent row that is just long enough, and one that is too short */
    {EXAMPLE, "axis target", 3, {3, {3, 4, 5}}},
    {EXAMPLE, "axis target", 2, {REFUSAL(46), {0}}},
    {"()", "", 0, {0, {0}}},
    {"a", "a", 0, {0, {0}}},
    {"a", "", 0, {REFUSAL(46), {0}}},
    /* 46 comes behind every refusal of a text */
    {"a??", "9", 0, {REFUSAL(11), {0}}},
    {"()!", "9", 0, {REFUSAL(18), {0}}},
    {"a", "9", 0, {REFUSAL(35), {0}}},
};

/* The first child that is foreign or one too many. */
static const struct {
    const char *model, *children;
    uint32_t answer;
} FAULTS[] = {
    {"(a,b)", "", DESK_NO_FAULT},
    {"(a,b)", "x", 0},
    {"(a,b)", "a x", 1},
    {"(a,b)", "a a", 1},
    {"(a,b)", "a b b", 2},
    {"(a,b)", "a b a", 2},
    {"()", "", DESK_NO_FAULT},
    {"()", "a", 0},
    /* the upper count alone */
    {"a[0..2]", "a a", DESK_NO_FAULT},
    {"a[0..2]", "a a a", 2},
    {"a[2..2]", "a", DESK_NO_FAULT},
    {"a[3..*]", "a a a a", DESK_NO_FAULT},
    {EXAMPLE, "axis target hold hold hold", 4},
    /* dead by order, by exclusion, by too few of a name: no fault */
    {"(a,b)", "b a", DESK_NO_FAULT},
    {"(a|b)", "a b", DESK_NO_FAULT},
    {"(a[2..3],b)", "a b", DESK_NO_FAULT},
    {EXAMPLE, "hold hold gather target axis crawl", DESK_NO_FAULT},
    /* a mark allows no more of a name, and no less */
    {"a?", "a a", 1},
    {"a[0..2]!", "a a a", 2},
    {"(a?,b?)!", "", DESK_NO_FAULT},
    {"(a?,b?)!", "b a", DESK_NO_FAULT},
    {"(a?,b?)!", "a b b", 2},
    {"((a|b)?&c[0..*])?", "c b c a c a", 5},
    /* the first of several */
    {"(a,b)", "a b x a", 2},
    {"(a,b)", "a b a x", 2},
    {"(a,b)", "b a b a", 2},
    /* a name that begins another one is not that one */
    {"(a,b)", "a aa", 1},
    {"(ab,a)", "a ab", DESK_NO_FAULT},
    {"(ab,b)", "ab a", 1},
    /* nor one that differs in case */
    {"(a,b)", "A", 0},
    {"(a,A)", "A a", DESK_NO_FAULT},
    {"(a,A)", "A a A", 2},
    /* refusals come first, also that of a child behind the fault */
    {"(a,b)", "x 9", REFUSAL(35)},
    {"(a,b)", "a a b 1", REFUSAL(35)},
    {"(a,b)", "a a ", REFUSAL(35)},
    {"(a,b)%", "x", REFUSAL(11)},
    {"(a,a)", "x 9", REFUSAL(17)},
    {"()!", "x 9", REFUSAL(18)},
};

/* The same, with so many of a between the first child and the last. */
static const struct {
    const char *model, *first;
    size_t between;
    const char *last;
    uint32_t answer;
} LONG_FAULTS[] = {
    /* 4,096 children */
    {"a[1..*]", "a", 4094, "a", DESK_NO_FAULT},
    {"a[1..*]", "x", 4094, "a", 0},
    {"a[1..*]", "a", 4094, "x", 4095},
    {"a[1..60000]", "a", 4094, "a", DESK_NO_FAULT},
    {"a[1..4096]", "a", 4094, "a", DESK_NO_FAULT},
    {"a[1..4095]", "a", 4094, "a", 4095},
    {"a[1..4094]", "a", 4094, "a", 4094},
    /* 4,097, wherever the fault is; a child that is no name comes before their number */
    {"a[1..*]", "a", 4095, "a", REFUSAL(36)},
    {"a[1..*]", "x", 4095, "a", REFUSAL(36)},
    {"a[1..*]", "a", 4095, "x", REFUSAL(36)},
    {"a[1..4096]", "a", 4095, "a", REFUSAL(36)},
    {"a", "x", 4095, "9", REFUSAL(35)},
    /* 65,535 bytes, and two more */
    {"a", "x", 32766, "a", REFUSAL(36)},
    {"a", "x", 32766, "9", REFUSAL(35)},
    {"a", "x", 32767, "9", REFUSAL(30)},
};

/* Canonical texts. */
static const struct {
    const char *model, *text;
} CANONICAL[] = {
    {EXAMPLE, "(axis,target,(crawl&gather)?,hold[1..2]?)"},
    /* counts */
    {"a", "a"},
    {"a[1..1]", "a"},
    {"a[1..1]?", "a?"},
    {"a[0..1]", "a?"},
    {"a[0..1]?", "a?"},
    {"a[0..2]", "a[1..2]?"},
    {"a[0..10]?", "a[1..10]?"},
    {"a[0..*]", "a[1..*]?"},
    {"a[1..*]", "a[1..*]"},
    {"a[1..10]", "a[1..10]"},
    {"a[1..11]", "a[1..11]"},
    {"a[10..11]", "a[10..11]"},
    {"a[60000..60000]", "a[60000..60000]"},
    {"(b[1..1]&a[2..3])", "(a[2..3]&b)"},
    /* no atoms */
    {"()", "()"},
    {"()?", "()"},
    {"((),(()?)?)?", "()"},
    {"(()|(()&()))", "()"},
    /* groups of one */
    {"((((a))))", "a"},
    {"((a?))?", "a?"},
    {"((a[0..2])?)", "a[1..2]?"},
    {"((a,b)?)", "(a,b)?"},
    {"((),a,())", "a"},
    {"(()|a)", "a?"},
    {"(()|(a,b))", "(a,b)?"},
    {"((a|())&b)", "(a?&b)"},
    /* groups that join, and that a mark keeps apart */
    {"((a,b),c)", "(a,b,c)"},
    {"((a,b)?,c)", "((a,b)?,c)"},
    {"((a,b?)?,c?)", "((a,b?)?,c?)"},
    {"(c|(b|a))", "(a|b|c)"},
    {"((b&(d|c))&a)", "(a&b&(c|d))"},
    {"((b,(d,c)),a)", "(b,d,c,a)"},
    /* marks on members of a choice */
    {"(a?|b)", "(a|b)?"},
    {"(a[0..1]|b)", "(a|b)?"},
    {"(a[0..2]|b?)?", "(a[1..2]|b)?"},
    {"((a|b)?|c)", "(a|b|c)?"},
    {"((a|b|())|c)", "(a|b|c)?"},
    {"((a,b)?|c)", "((a,b)|c)?"},
    {"((a?|b)?,c)", "((a|b)?,c)"},
    /* marks that change nothing */
    {"(a?,b?)?", "(a?,b?)"},
    {"((a?,b?)?,c)", "(a?,b?,c)"},
    {"((a?,b?)|())", "(a?,b?)"},
    {"((a[0..2]&b?)?&c)", "(a[1..2]?&b?&c)"},
    {"((a?,((b?&c?)|())),d)", "(a?,(b?&c?),d)"},
    {"a!", "a"},
    {"a[2..3]!", "a[2..3]"},
    {"(a,b?)!", "(a,b?)"},
    {"((a,b)!,c)", "(a,b,c)"},
    {"((a?&b)!&c)", "(a?&b&c)"},
    {"((a|b)!|c)", "(a|b|c)"},
    {"(a!,b!)!", "(a,b)"},
    /* marks that take the empty row away, from counts too */
    {"(a?,b?)!", "(a?,b?)!"},
    {"((a?,b?)!,c)", "((a?,b?)!,c)"},
    {"((a?&b?)!&c)!", "((a?&b?)!&c)"},
    {"a[0..5]!", "a[1..5]"},
    {"a[0..1]!", "a"},
    {"(a[0..*]&b[0..3])!", "(a[1..*]?&b[1..3]?)!"},
    /* a mark in the place of another */
    {"(a?)!", "a"},
    {"(a!)?", "a?"},
    {"((a?,b?)!)?", "(a?,b?)"},
    {"((a?,b?)?)!", "(a?,b?)!"},
    {"((a,b)?)!", "(a,b)"},
    {"((a,b)!)?", "(a,b)?"},
    {"((((a?,b?)!)?)!)", "(a?,b?)!"},
    /* members of a choice, without the empty row */
    {"((a?,b?)|c)", "((a?,b?)!|c)?"},
    {"((a?,b?)?|c)", "((a?,b?)!|c)?"},
    {"((a?,b?)!|c)", "((a?,b?)!|c)"},
    {"((a?,b?)|c)?", "((a?,b?)!|c)?"},
    {"((a?,b?)|c)!", "((a?,b?)!|c)"},
    {"((a?,b?)!|c?)", "((a?,b?)!|c)?"},
    {"((a?,b?)|())!", "(a?,b?)!"},
    {"((a,b)?|())!", "(a,b)"},
    {"(a|b|())!", "(a|b)"},
    {"((a|())!,b)", "(a,b)"},
    {"(a[0..2]|b?)!", "(a[1..2]|b)"},
    {"((a|b|())!|c)", "(a|b|c)"},
    {"(((a?,b?)|c)?|d)", "((a?,b?)!|c|d)?"},
    {"(((a?,b?)|c)!|d)", "((a?,b?)!|c|d)"},
    {"((a?,b?)|(c|d)?)", "((a?,b?)!|c|d)?"},
    {"(e|(d?&c?)|(b?,a?))!", "((b?,a?)!|(c?&d?)!|e)"},
    {"((((a?,b?)|c),d?)|e)", "((((a?,b?)!|c)?,d?)!|e)?"},
    {"((((a?,b?)|c)!,d?)|e)", "((((a?,b?)!|c),d?)|e)"},
    /* order, of bytes; a name comes before one that it begins */
    {"(b,a)", "(b,a)"},
    {"(ab|b|a1|a|a-)", "(a|a-|a1|ab|b)"},
    {"(name10&name2&name1&name)", "(name&name1&name10&name2)"},
    {"(b&a&_&Z&A)", "(A&Z&_&a&b)"},
    {"(ab|a_b|aB|a:b|a1|a.b|a-b)", "(a-b|a.b|a1|a:b|aB|a_b|ab)"},
    {"(c|(d,b)|a)", "(a|(d,b)|c)"},
    {"(d|(c&(b,(f|a)))|e)", "(((b,(a|f))&c)|d|e)"},
};

/* 01, the last of the rows to try: 4,096 of a in a[60000..60000] are open. */
static void check_long_row(judge_texts *judge, struct report *report)
{
    static struct text children;
    begin(&children, "a");
    put_times(&children, "\ta", 4095);
    struct call c = {bytes_of("a[60000..60000]"), written(&children)};
    report_answer(report, c, ask(judge, c), 1);
}

/* The children's text stays until the next call. */
static struct call call_of(const char *model, const char *spaced)
{
    static struct text children;
    begin(&children, spaced);
    for (size_t k = 0; k < children.len; k++)
        if (children.byte[k] == ' ')
            children.byte[k] = '\t';
    return (struct call){bytes_of(model), written(&children)};
}

/* This one of the long faults; its text stays likewise. */
static struct call long_call(size_t i)
{
    static struct text children;
    begin(&children, LONG_FAULTS[i].first);
    put_times(&children, "\ta", LONG_FAULTS[i].between);
    put(&children, "\t");
    put(&children, LONG_FAULTS[i].last);
    return (struct call){bytes_of(LONG_FAULTS[i].model), written(&children)};
}

enum { KNOWN_TEXTS = LENGTH(TEXTS) + LENGTH(CHAINS) };

/* A model text, without children; where it is refused, the place is the one of the refusal. */
struct known {
    struct call call;
    uint32_t answer;
    size_t place;
};

/* This one of the texts, or of the chains behind them; it stays until the next call. */
static struct known known_text(size_t i)
{
    static struct text model;
    if (i < LENGTH(TEXTS)) {
        begin(&model, TEXTS[i].text);
        return (struct known){{written(&model), NO_BYTES}, TEXTS[i].answer, TEXTS[i].place};
    }
    i -= LENGTH(TEXTS);
    begin(&model, "");
    put_chain(&model, CHAINS[i].chain);
    return (struct known){{written(&model), NO_BYTES}, CHAINS[i].answer,
                          CHAINS[i].place == AT_END ? model.len : CHAINS[i].place};
}

void check_known_rows(judge_texts *judge, struct report *report)
{
    check_long_row(judge, report);
    for (size_t i = 0; i < LENGTH(ROWS); i++) {
        struct call c = call_of(ROWS[i].model, ROWS[i].children);
        report_answer(report, c, ask(judge, c), ROWS[i].answer);
    }
}

void check_known_texts(judge_texts *judge, struct report *report)
{
    for (size_t i = 0; i < KNOWN_TEXTS; i++) {
        struct known text = known_text(i);
        uint32_t answer = ask(judge, text.call);
        report_answer(report, text.call, answer <= 2 ? 0 : answer, text.answer);
    }
}

void check_known_places(place_refusal *model, struct report *report)
{
    for (size_t i = 0; i < KNOWN_TEXTS; i++) {
        struct known text = known_text(i);
        size_t place;
        uint32_t answer = model(text.call.model.at, text.call.model.len, &place);
        report_answer(report, text.call, answer, text.answer);
        if (answer != 0)
            report_value(report, text.call, "place", place, text.place);
    }
}

/* Behind 4,096 children names are listed; 4,097 are refused. */
static void check_long_lists(next_names *next, struct report *report)
{
    static struct text children;
    begin(&children, "a");
    put_times(&children, "\ta", 4095);
    struct bytes model = bytes_of("a[0..*]");
    check_lists(report, next, (struct call){model, written(&children)}, (struct list){1, {1}});
    put(&children, "\ta");
    check_lists(report, next, (struct call){model, written(&children)},
                (struct list){REFUSAL(36), {0}});
}

void check_known_lists(next_names *next, struct report *report)
{
    check_long_lists(next, report);
    for (size_t i = 0; i < LENGTH(LISTS); i++)
        check_list(report, next, call_of(LISTS[i].model, LISTS[i].children), LISTS[i].list,
                   LISTS[i].places);
}

/* A good model text without children has no fault. */
void check_known_faults(find_fault *find, struct report *report)
{
    for (size_t i = 0; i < LENGTH(FAULTS); i++) {
        struct call c = call_of(FAULTS[i].model, FAULTS[i].children);
        report_fault(report, c, ask(find, c), FAULTS[i].answer);
    }
    for (size_t i = 0; i < LENGTH(LONG_FAULTS); i++) {
        struct call c = long_call(i);
        report_fault(report, c, ask(find, c), LONG_FAULTS[i].answer);
    }
    for (size_t i = 0; i < KNOWN_TEXTS; i++) {
        struct known text = known_text(i);
        report_fault(report, text.call, ask(find, text.call),
                     text.answer == 0 ? DESK_NO_FAULT : REFUSAL(text.answer));
    }
}

/* A canonical text is its own. */
static void check_text(write_canonical *write, struct report *report, size_t i)
{
    struct bytes text = bytes_of(CANONICAL[i].text);
    struct canonical right = {.answer = (uint32_t)text.len};
    memcpy(right.byte, text.at, text.len);
    check_buffers(report, write, bytes_of(CANONICAL[i].model), &right);
    check_buffers(report, write, text, &right);
}

void check_known_canonical(write_canonical *write, struct report *report)
{
    for (size_t i = 0; i < LENGTH(CANONICAL); i++)
        check_text(write, report, i);
    for (size_t i = 0; i < KNOWN_TEXTS; i++) {
        struct known text = known_text(i);
        struct canonical right = {.answer = REFUSAL(text.answer)};
        if (text.answer != 0)
            check_buffers(report, write, text.call.model, &right);
    }
}

void try_known(try_call *f, struct report *to)
{
    for (size_t i = 0; i < LENGTH(ROWS); i++)
        f(to, call_of(ROWS[i].model, ROWS[i].children));
    for (size_t i = 0; i < KNOWN_TEXTS; i++)
        f(to, known_text(i).call);
    for (size_t i = 0; i < LENGTH(LISTS); i++)
        f(to, call_of(LISTS[i].model, LISTS[i].children));
    for (size_t i = 0; i < LENGTH(FAULTS); i++)
        f(to, call_of(FAULTS[i].model, FAULTS[i].children));
    for (size_t i = 0; i < LENGTH(LONG_FAULTS); i++)
        f(to, long_call(i));
    for (size_t i = 0; i < LENGTH(CANONICAL); i++)
        f(to, (struct call){bytes_of(CANONICAL[i].model), NO_BYTES});
}
