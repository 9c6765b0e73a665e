#include "sweep_numbers.h"

static const uint64_t two_to_31 = (uint64_t)1 << 31;

int draw(uint64_t *state)
{
    *state = (*state % two_to_31 * 1103515245 + 12345) % two_to_31;
    return (int)(*state / 65536 % 32768);
}

uint64_t mixed(uint64_t sum, uint64_t x)
{
    return (sum % 1000003 * 257 + x % 1000003 + 1) % 1000003;
}
