#include <stdio.h>

#include "slot_table.h"

int slot_works(unsigned char byte)
{
    return byte < BYTES_OF_JOBS;
}

struct figures figures_of(enum start start, int wake_cost, const unsigned char *table, int slots)
{
    struct figures figures = {0, 0, 0};
    for (int t = 0; t < slots; t++) {
        if (table[t] == ASLEEP)
            continue;
        figures.awake++;
        figures.energy++;
        if (t > 0 && table[t - 1] != ASLEEP)
            continue;
        figures.runs++;
        if (t > 0 || start == START_ASLEEP)
            figures.energy += wake_cost;
    }
    return figures;
}

void print_bytes(const unsigned char *table, int slots)
{
    for (int t = 0; t < slots; t++)
        printf(" %d", table[t]);
}
