/* The plain C twin of desk_first_fault: at each place the row up to there is counted anew. */
#include "twin.h"
#include "twin_parts.h"

static const uint32_t NO_FAULT = 65535;

/* The number of each child's name, 0 for a foreign one; gives how many children there are. */
static uint32_t number_children(const struct names *names, const uint8_t *text, size_t len,
                                uint8_t *row)
{
    uint32_t children = 0;
    for (size_t at = 0; at < len; at++) {
        struct name name = scan_name(text, len, at);
        row[children++] = names->slot[find_slot(names, &name)];
        at += name.len;
    }
    return children;
}

/* How often a name may stand: up to the upper count of its atom, a foreign one never. */
static uint32_t most_of(const struct rule *rule, uint32_t name)
{
    uint32_t atoms = 0;
    for (uint32_t i = 0; i < rule->node_count; i++)
        if (rule->node[i].kind == ATOM && ++atoms == name)
            return rule->node[i].max;
    return 0;
}

static bool is_fault(const struct rule *rule, const uint8_t *row, uint32_t place)
{
    uint32_t count = 0;
    for (uint32_t i = 0; i <= place; i++)
        count += row[i] == row[place];
    return count > most_of(rule, row[place]);
}

uint32_t twin_first_fault(const uint8_t *model, size_t model_len,
                          const uint8_t *children, size_t children_len)
{
    struct rule rule;
    struct tally tally[MAX_ATOMS + 1];
    uint8_t row[MAX_CHILDREN];
    uint32_t refusal = read_texts(model, model_len, children, children_len, &rule, tally);
    if (refusal != 0)
        return REFUSED + refusal;
    uint32_t len = number_children(&rule.names, children, children_len, row);
    for (uint32_t place = 0; place < len; place++)
        if (is_fault(&rule, row, place))
            return place;
    return NO_FAULT;
}
