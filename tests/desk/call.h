/* One call of a judge, of a lister of next names, of a finder of faults, or of a writer of
   canonical texts. */
#ifndef CALL_H
#define CALL_H

#include "text.h"

/* desk_judge, and whatever answers as it does */
typedef uint32_t judge_texts(const uint8_t *model, size_t model_len,
                             const uint8_t *children, size_t children_len);

/* desk_first_fault, and whatever answers as it does; it is asked as a judge is */
typedef judge_texts find_fault;

/* desk_next, and whatever answers as it does */
typedef uint32_t next_names(const uint8_t *model, size_t model_len, const uint8_t *children,
                            size_t children_len, uint16_t *row, size_t row_len);

/* desk_canonical, and whatever answers as it does */
typedef uint32_t write_canonical(const uint8_t *model, size_t model_len, uint8_t *buffer,
                                 size_t buffer_len);

struct call {
    struct bytes model, children;
};

/* A row to be lent; where it has no places, the pointer may be null. */
struct places {
    uint16_t *at;
    size_t len;
};

/* A buffer to be lent; where it has no bytes, the pointer may be null. */
struct buffer {
    uint8_t *at;
    size_t len;
};

static inline uint32_t ask(judge_texts *judge, struct call c)
{
    return judge(c.model.at, c.model.len, c.children.at, c.children.len);
}

static inline uint32_t ask_next(next_names *next, struct call c, struct places row)
{
    return next(c.model.at, c.model.len, c.children.at, c.children.len, row.at, row.len);
}

static inline uint32_t ask_canonical(write_canonical *write, struct bytes model, struct buffer to)
{
    return write(model.at, model.len, to.at, to.len);
}

#endif
