/* Texts at and past every limit of documents 01 and 02. */
#include "cases.h"
#include "chain.h"

#include <stdio.h>
#include <string.h>

/* The model alone, with one child, and with a bad child: a refusal of the model comes first. */
static void try_model(try_call *f, struct report *to, struct bytes model)
{
    f(to, (struct call){model, NO_BYTES});
    f(to, (struct call){model, bytes_of("a")});
    f(to, (struct call){model, bytes_of("%")});
}

/* ---- one limit each ---- */

static void try_sizes(try_call *f, struct report *to)
{
    static const struct {
        const char *front, *filling, *end;
    } FORMS[] = {
        {"", "a", ""},       {"", "%", ""},      {"a", "?", ""},       {"", "(", ""},
        {"a[1..", "1", "]"}, {"a[1..", "1", ""}, {"a[", "1", "..*]"},  {"a[", "9", "..2%"},
        {"(a", ",", ""},     {"(", "()", ""},    {"a", "!", ""},       {"(", "()!", ""},
    };
    static const size_t SIZES[] = {1, 2, 3, 7, 4094, 4095, 4096, 4097, 4098, 65536};
    f(to, (struct call){NO_BYTES, NO_BYTES});
    f(to, (struct call){NO_BYTES, bytes_of("%")});
    for (size_t i = 0; i < LENGTH(FORMS); i++)
        for (size_t k = 0; k < LENGTH(SIZES); k++) {
            static struct text model;
            begin(&model, FORMS[i].front);
            while (model.len + strlen(FORMS[i].end) < SIZES[k])
                put(&model, FORMS[i].filling);
            put(&model, FORMS[i].end);
            try_model(f, to, written(&model));
        }
}

static void try_names(try_call *f, struct report *to)
{
    static const char *const FRONTS[] = {"", "(", "(a,", "((b|c),"};
    static const char *const ENDS[] = {"", "%", ")", "?", "!", "[1..2])", "[2..1])", ",a)", "-"};
    for (size_t len = 31; len <= 34; len++)
        for (size_t i = 0; i < LENGTH(FRONTS); i++)
            for (size_t k = 0; k < LENGTH(ENDS); k++) {
                static struct text model;
                begin(&model, FRONTS[i]);
                put_times(&model, "x", len);
                put(&model, ENDS[k]);
                try_model(f, to, written(&model));
            }
}

/* Every byte, with these around it, as a model text and as a children text. */
static void try_bytes(try_call *f, struct report *to)
{
    static const struct {
        const char *front, *end;
    } AROUND[] = {
        {"", ""},    {"a", ""},      {"", "a"},    {"a", "a"},   {"(b,", ")"},    {"(b,a", "[1..2])"},
        {"a\t", ""}, {"a\t", "\tb"}, {"a", "\tb"}, {"b\ta", ""}, {"a[1..2", "]"}, {"_", ".:9-Z"},
    };
    for (size_t i = 0; i < LENGTH(AROUND); i++)
        for (unsigned byte = 0; byte < 256; byte++) {
            static struct text text;
            uint8_t tried = (uint8_t)byte;
            begin(&text, AROUND[i].front);
            put_bytes(&text, (struct bytes){&tried, 1});
            put(&text, AROUND[i].end);
            try_model(f, to, written(&text));
            f(to, (struct call){bytes_of("(b?,a[0..2])"), written(&text)});
        }
}

/* Brackets inside each other, and brackets that are closed again beside them. */
static void try_brackets(try_call *f, struct report *to)
{
    static const char *const BRACKETS[] = {"(", "(()&", "(b&(", "((),(())?,"};
    static const char *const MIDDLES[] = {"a", "", "a(", "%", "a,a", "(", "a[2..1]"};
    static const size_t TIMES[] = {4, 8, 15, 16, 17, 18, 31, 32, 33, 62, 63, 64, 65, 66};
    for (size_t t = 0; t < LENGTH(TIMES); t++)
        for (size_t i = 0; i < LENGTH(BRACKETS); i++)
            for (size_t k = 0; k < LENGTH(MIDDLES); k++) {
                static struct text model;
                begin(&model, "");
                put_times(&model, BRACKETS[i], TIMES[t]);
                put(&model, MIDDLES[k]);
                try_model(f, to, written(&model));
                put_times(&model, ")", TIMES[t]);
                try_model(f, to, written(&model));
            }
}

/* Groups inside each other with every innermost member, around the depth of 16. */
static void try_middles(try_call *f, struct report *to, struct chain c)
{
    static const char *const MIDDLES[] = {
        "a", "()", "()?", "(a,b)", "(a|b)", "(a&b)?", "((a|b|())|c)", "(()|(a,b))", "((),(a,b))",
        "n0", "(a", "a)", "a[2..1]", "(a&b)!", "((a|b|())!|c)", "(()|(a,b))!", "()!",
    };
    for (c.groups = 15; c.groups <= 18; c.groups++)
        for (size_t i = 0; i < LENGTH(MIDDLES); i++) {
            static struct text model;
            begin(&model, "");
            c.middle = MIDDLES[i];
            put_chain(&model, c);
            try_model(f, to, written(&model));
        }
}

static void try_depth(try_call *f, struct report *to)
{
    static const char *const SIGNS[] = {",", "|", ",|", "|&", ",,|"};
    static const char *const BESIDE[] = {"n", "ne", "en", "e"};
    static const size_t OUTER[] = {0, 47}; /* with 17 groups inside them 64 brackets are open */
    for (size_t i = 0; i < LENGTH(SIGNS); i++)
        for (size_t k = 0; k < LENGTH(BESIDE); k++)
            for (size_t j = 0; j < LENGTH(OUTER); j++) {
                struct chain c = {.outer = OUTER[j], .signs = SIGNS[i], .beside = BESIDE[k]};
                c.behind = "";
                try_middles(f, to, c);
                c.behind = "?";
                try_middles(f, to, c);
                c.behind = "!";
                try_middles(f, to, c);
            }
}

/* Some atoms and empty groups in one group, then one more member. */
static void put_wide(struct text *t, size_t atoms, size_t groups, const char *sign,
                     const char *last)
{
    begin(t, "(");
    for (size_t k = 0; k < groups; k++) {
        put(t, "()");
        put(t, sign);
    }
    for (size_t k = 0; k < atoms; k++) {
        put_name(t, k);
        put(t, sign);
    }
    put(t, last);
    put(t, ")");
}

/* A mark behind members with and without atoms, and what stands behind it. */
static void try_marks(try_call *f, struct report *to)
{
    static const char *const FRONTS[] = {"", "(", "(b|", "(()!,", "((),"};
    static const char *const MEMBERS[] = {
        "a", "a[0..2]", "()", "(a)", "(())", "((),())", "(()|())", "(()|a)", "(a,b)", "(a?,b?)",
        "((a?,b?)|c)", "((a?&b?)!|c?)", "((()&())|(a?))",
    };
    static const char *const MARKS[] = {"", "?", "!", "??", "?!", "!?", "!!"};
    static const char *const ENDS[] = {"", ")", ")!", "|b", ",d)", "|d)!", "&d)?", "%"};
    for (size_t i = 0; i < LENGTH(FRONTS); i++)
        for (size_t k = 0; k < LENGTH(MEMBERS); k++)
            for (size_t m = 0; m < LENGTH(MARKS); m++)
                for (size_t e = 0; e < LENGTH(ENDS); e++) {
                    static struct text model;
                    begin(&model, FRONTS[i]);
                    put(&model, MEMBERS[k]);
                    put(&model, MARKS[m]);
                    put(&model, ENDS[e]);
                    try_model(f, to, written(&model));
                }
}

/* Atoms around 64 and nodes around 128, the last one wrong in further ways or not. */
static void try_width(try_call *f, struct report *to)
{
    static const char *const LASTS[] = {
        "a", "()", "n0", "n0%", "a[2..1]", "(a)", "((b))", "xxxxxxxxxxxxxxxxxxxxxxxxxxxxxxxxx",
        "((((((((((((((((a))))))))))))))))", "", "%", "(b&c)?", "b?", "()!", "(b?,c?)!",
    };
    static const size_t NODES[] = {2, 64, 112, 113, 114, 126, 127, 128, 129};
    for (size_t atoms = 61; atoms <= 65; atoms++)
        for (size_t i = 0; i < LENGTH(NODES); i++)
            for (size_t k = 0; k < LENGTH(LASTS); k++) {
                static struct text model;
                size_t groups = NODES[i] > atoms + 1 ? NODES[i] - atoms - 1 : 0;
                put_wide(&model, atoms, groups, k % 3 == 0 ? "," : k % 3 == 1 ? "|" : "&",
                         LASTS[k]);
                try_model(f, to, written(&model));
            }
}

static void try_counts(try_call *f, struct report *to)
{
    static const char *const NUMBERS[] = {
        "0", "1", "2", "9", "10", "00", "01", "59999", "60000", "60001", "65535", "65536", "65537",
        "99999", "100000", "600000", "4294967295", "4294967296", "4294967297", "4295027296",
        "18446744073709551615", "18446744073709551616", "18446744073709551617", "*", "",
        "10000000000000000000000000000000000000000",
    };
    static const char *const ENDS[] = {"]", "", "%", "]?", "]]", "]?%", ".]", "]!", "]?!"};
    for (size_t m = 0; m < LENGTH(NUMBERS); m++)
        for (size_t n = 0; n < LENGTH(NUMBERS); n++)
            for (size_t k = 0; k < LENGTH(ENDS); k++) {
                static struct text model;
                begin(&model, "a[");
                put(&model, NUMBERS[m]);
                put(&model, "..");
                put(&model, NUMBERS[n]);
                put(&model, ENDS[k]);
                try_model(f, to, written(&model));
            }
}

static void put_long_name(struct text *t, size_t k)
{
    char name[40];
    snprintf(name, sizeof name, "the-name-with-the-number-%07zu", k);
    put(t, name);
}

/* The longest text that is accepted: 64 names of 32 with the longest counts, 64 marked groups. */
static void try_longest(try_call *f, struct report *to)
{
    static struct text model;
    begin(&model, "(");
    put_times(&model, "()?,", 63);
    for (size_t k = 0; k < 64; k++) {
        put(&model, k == 0 ? "" : ",");
        put_long_name(&model, k);
        put(&model, "[60000..60000]?");
    }
    put(&model, ")?");
    try_model(f, to, written(&model));
    put(&model, "?");
    try_model(f, to, written(&model));
}

/* A long canonical text that is longer than its model: every name gets a `?`, every pair a `!`, and
   the choice a `?`. */
static void try_longer(try_call *f, struct report *to)
{
    static struct text model;
    begin(&model, "(");
    for (size_t k = 0; k < 64; k += 2) {
        put(&model, k == 0 ? "(" : "|(");
        put_long_name(&model, k);
        put(&model, "[0..60000],");
        put_long_name(&model, k + 1);
        put(&model, "[0..60000])");
    }
    put(&model, ")");
    try_model(f, to, written(&model));
    put(&model, "!");
    try_model(f, to, written(&model));
}

/* ---- children ---- */

static const char *const MODELS[] = {
    "a[0..*]", "a[4096..4096]", "a[4097..*]", "a[60000..60000]", "a[0..4095]", "(a[1..4095],b)",
    "b", "a[2..1]", "()", "(a[0..*]&xxxxxxxxxxxxxxxxxxxxxxxxxxxxxxx[0..*])",
};

/* One children text with every model. */
static void try_children(try_call *f, struct report *to, struct bytes children)
{
    for (size_t i = 0; i < LENGTH(MODELS); i++)
        f(to, (struct call){bytes_of(MODELS[i]), children});
}

static void try_many_children(try_call *f, struct report *to)
{
    static const char *const LASTS[] = {"a", "b", "A", "", "9", "a%", "a\t", "\ta"};
    for (size_t many = 4094; many <= 4097; many++)
        for (size_t i = 0; i < LENGTH(LASTS); i++) {
            static struct text children;
            begin(&children, "");
            put_times(&children, "a\t", many - 1);
            put(&children, LASTS[i]);
            try_children(f, to, written(&children));
        }
}

static void try_long_children(try_call *f, struct report *to)
{
    static const char *const FILLINGS[] = {
        "a\t", "\t", "%", "a", "xxxxxxxxxxxxxxxxxxxxxxxxxxxxxxx\t", "xxxxxxxxxxxxxxx\t",
    };
    for (size_t size = 65533; size <= 65538; size++)
        for (size_t i = 0; i < LENGTH(FILLINGS); i++) {
            static struct text children;
            begin(&children, "");
            while (children.len < size)
                put(&children, FILLINGS[i]);
            children.len = size;
            try_children(f, to, written(&children));
            children.byte[size - 1] = 'x';
            try_children(f, to, written(&children));
        }
}

static void try_odd_children(try_call *f, struct report *to)
{
    static const char *const ODD[] = {
        "a", "\t", "a\t", "\ta", "a\t\ta", "a\ta", "a a", "a\r", "a\n", "A", "aA", "1", "-", "a1",
        "a-", "1a", "-a", "a\x80", "\xff", "\xe1", "a.", "a?", "(a)", "a[1..1]", "`", "{", "a/",
        "a:", "a\t%\tb", "q\tq", "a\tq", "aa", "_", ".", ":", "a_", "a\t_\tA", "a\t.", "@", "[",
    };
    static struct text children;
    for (size_t i = 0; i < LENGTH(ODD); i++) {
        begin(&children, ODD[i]);
        try_children(f, to, written(&children));
        children.byte[children.len - 1] = 0; /* a zero ends nothing */
        try_children(f, to, written(&children));
    }
    for (size_t len = 30; len <= 34; len++)
        for (size_t many = 1; many <= 3; many++) {
            begin(&children, "");
            put_times(&children, "x", len);
            put_times(&children, "\ta", many - 1);
            try_children(f, to, written(&children));
        }
}

/* A name of around 32 bytes behind a foreign child and among short ones, from each place of two
   blocks of 16 bytes on. */
static void try_long_among_short(try_call *f, struct report *to)
{
    for (size_t before = 0; before < 33; before++)
        for (size_t len = 30; len <= 34; len++) {
            static struct text children;
            begin(&children, "foreign");
            put(&children, before % 2 == 0 ? "" : "\tab");
            put_times(&children, "\ta", before / 2);
            put(&children, "\t");
            put_times(&children, "x", len);
            put_times(&children, "\ta", 20);
            try_children(f, to, written(&children));
        }
}

/* As many atoms and nodes as there may be; behind one child of each name, each once more, and a
   foreign one. */
static void try_repeats(try_call *f, struct report *to)
{
    static struct text model, children;
    put_wide(&model, 63, 63, ",", "n63");
    for (size_t repeated = 0; repeated <= 64; repeated++) {
        begin(&children, "");
        for (size_t k = 0; k < 64; k++) {
            put_name(&children, k);
            put(&children, "\t");
        }
        put_name(&children, repeated);
        f(to, (struct call){written(&model), written(&children)});
    }
}

void try_limits(try_call *f, struct report *to)
{
    try_sizes(f, to);
    try_names(f, to);
    try_bytes(f, to);
    try_brackets(f, to);
    try_depth(f, to);
    try_marks(f, to);
    try_width(f, to);
    try_counts(f, to);
    try_longest(f, to);
    try_longer(f, to);
    try_many_children(f, to);
    try_long_children(f, to);
    try_odd_children(f, to);
    try_long_among_short(f, to);
    try_repeats(f, to);
}
