/* The plain C twin of desk_judge. */
#include "twin.h"
#include "twin_parts.h"

uint32_t twin_model(const uint8_t *text, size_t len, size_t *place)
{
    struct rule rule;
    return read_model(text, len, &rule, place);
}

uint32_t twin_judge(const uint8_t *model, size_t model_len,
                    const uint8_t *children, size_t children_len)
{
    struct rule rule;
    struct tally tally[MAX_ATOMS + 1];
    uint32_t refusal = read_texts(model, model_len, children, children_len, &rule, tally);
    return refusal != 0 ? refusal : verdict(&rule, tally);
}
