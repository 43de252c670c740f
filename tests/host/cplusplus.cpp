/*
 * The header as C++ reads it, of 2011 and with every warning an error. Both functions are called as the header declares them, so linking shows that their names
 * are C's there too.
 */
#include <glowenzo.h>

static_assert(sizeof(glowenzo_verdict_t) == 48 && alignof(glowenzo_verdict_t) == 8, "glowenzo_verdict_t");
static_assert(sizeof(glowenzo_regroup_t) == 48 && alignof(glowenzo_regroup_t) == 8, "glowenzo_regroup_t");

static uint8_t table[GLOWENZO_TABLE_BYTES];

int main()
{
    const glowenzo_verdict_t none = glowenzo_verdict(GLOWENZO_FIRST_PROFILE, GLOWENZO_NEW, nullptr, 0, table, sizeof table);
    const glowenzo_regroup_t neither = glowenzo_regroup(GLOWENZO_INSTANT_PROFILE, GLOWENZO_ARCHIVED, nullptr, 0, nullptr, 0, nullptr, 0);
    const bool empty = none.number == GLOWENZO_FORM && none.offset == 0 && glowenzo_number(table, GLOWENZO_PAYMENT) == 0;
    return empty && neither.whose == 1 && neither.number == GLOWENZO_FORM ? 0 : 1;
}
