#include "sleep_rule.h"
#include "slot_table.h"

void apply_sleep_rule(enum start start, int wake_cost, unsigned char *table, int slots)
{
    int first = 0;
    while (first < slots) {
        if (slot_works(table[first])) {
            first++;
            continue;
        }
        /* An idle stretch: slots first to end - 1. The slot before it, if any, works. */
        int end = first;
        while (end < slots && !slot_works(table[end]))
            end++;

        int work_follows = end < slots;
        int awake_before = first > 0 || start == START_AWAKE;
        int stays_awake = awake_before && work_follows && end - first < wake_cost;
        for (int t = first; t < end; t++)
            table[t] = stays_awake ? IDLE : ASLEEP;
        first = end;
    }
}
