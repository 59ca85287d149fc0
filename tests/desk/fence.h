/* Memory that ends where nothing can be read or written. */
#ifndef FENCE_H
#define FENCE_H

#include "text.h"

enum { FENCED = 1 << 18 }; /* bytes before the end */

/* The end of a new piece; the program stops where there is no memory. */
uint8_t *new_fence(void);

/* The text moved up against this end; a null text stays one. */
struct bytes fenced(uint8_t *end, struct bytes text);

#endif
