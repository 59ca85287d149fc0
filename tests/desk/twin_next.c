/* The plain C twin of desk_next: the row is judged with each name of the model behind it. */
#include "twin.h"
#include "twin_parts.h"

/* The verdict with this name behind a row of so many children. */
static enum answer verdict_with(const struct rule *rule, struct tally *tally, uint32_t name,
                                uint32_t children)
{
    struct tally before = tally[name];
    if (tally[name].count++ == 0)
        tally[name].first = children;
    tally[name].behind = children + 1;
    enum answer answer = verdict(rule, tally);
    tally[name] = before;
    return answer;
}

/* Writes the names that leave the row alive, and gives how many they are. */
static uint32_t list_next(const struct rule *rule, struct tally *tally, uint16_t *list)
{
    uint32_t children = 0, listed = 0;
    for (uint32_t k = 0; k <= rule->names.count; k++)
        children += tally[k].count;
    for (uint32_t k = 1; k <= rule->names.count; k++)
        if (verdict_with(rule, tally, k, children) != DEAD)
            list[listed++] = (uint16_t)k;
    return listed;
}

uint32_t twin_next(const uint8_t *model, size_t model_len, const uint8_t *children,
                   size_t children_len, uint16_t *row, size_t row_len)
{
    struct rule rule;
    struct tally tally[MAX_ATOMS + 1];
    uint16_t list[MAX_ATOMS];
    uint32_t refusal = read_texts(model, model_len, children, children_len, &rule, tally);
    if (refusal != 0)
        return REFUSED + refusal;
    uint32_t listed = list_next(&rule, tally, list);
    if (listed > row_len)
        return REFUSED + SHORT_ROW;
    for (uint32_t i = 0; i < listed; i++)
        row[i] = list[i];
    return listed;
}
