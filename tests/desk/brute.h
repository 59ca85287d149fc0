/* A slow oracle, written from the definitions; it shares no code with the twin. */
#ifndef BRUTE_H
#define BRUTE_H

#include <stddef.h>
#include <stdint.h>

/* The oracle's own ways to an answer disagree. */
enum { BRUTE_SPLIT = 99 };

/* No canonical text is longer. */
enum { BRUTE_ROOM = 4096 };

/* 0 for a model text, or its refusal, 10 to 19, with its place in *place. */
uint32_t brute_model(const uint8_t *text, size_t len, size_t *place);

/* The answer that desk_judge has to give, or BRUTE_SPLIT. */
uint32_t brute_judge(const uint8_t *model, size_t model_len,
                     const uint8_t *children, size_t children_len);

/* The answer that desk_next has to give, with its list, or BRUTE_SPLIT as a refusal. */
uint32_t brute_next(const uint8_t *model, size_t model_len, const uint8_t *children,
                    size_t children_len, uint16_t *row, size_t row_len);

/* The answer that desk_first_fault has to give. */
uint32_t brute_first_fault(const uint8_t *model, size_t model_len,
                           const uint8_t *children, size_t children_len);

/* The canonical text of a good model text, into BRUTE_ROOM bytes: its length, or BRUTE_SPLIT as a
   refusal. */
uint32_t brute_rewrite(const uint8_t *model, size_t model_len, uint8_t *to);

/* The answer that desk_canonical has to give, with its text, or BRUTE_SPLIT as a refusal. */
uint32_t brute_canonical(const uint8_t *model, size_t model_len, uint8_t *buffer,
                         size_t buffer_len);

#endif
