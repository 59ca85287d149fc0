/* The plain C twin of desk_judge, desk_next, desk_first_fault and desk_canonical: independent code
   for the same answers (include/desk.h). */
#ifndef TWIN_H
#define TWIN_H

#include <stddef.h>
#include <stdint.h>

/* The same arguments and answers as desk_judge. */
uint32_t twin_judge(const uint8_t *model, size_t model_len,
                    const uint8_t *children, size_t children_len);

/* The same arguments and answers as desk_next. */
uint32_t twin_next(const uint8_t *model, size_t model_len, const uint8_t *children,
                   size_t children_len, uint16_t *row, size_t row_len);

/* The same arguments and answers as desk_first_fault. */
uint32_t twin_first_fault(const uint8_t *model, size_t model_len,
                          const uint8_t *children, size_t children_len);

/* The same arguments and answers as desk_canonical. */
uint32_t twin_canonical(const uint8_t *model, size_t model_len, uint8_t *buffer,
                        size_t buffer_len);

/* 0 for a model text, or its refusal, 10 to 19, with its place (counted from 0) in *place. */
uint32_t twin_model(const uint8_t *text, size_t len, size_t *place);

#endif
