/* Prints what card 5's sleep rule with card 10's start makes of tables of any bytes. */
#include <inttypes.h>
#include <stdio.h>
#include <string.h>

#include "sleep_rule.h"
#include "slot_table.h"
#include "sweep_numbers.h"

enum { MOST_WAKE_COST = 65535, LONGEST_STRETCH = 65536, LONGEST_DRAWN = 4096, DRAWN_TABLES = 300, LONGEST_WORKED = 12, LONGEST_SWEPT = 7 };

struct worked_case {
    int wake_cost;
    int slots;
    unsigned char table[LONGEST_WORKED];
};

static const struct worked_case worked_cases[] = {
    {3, 10, {0, 2, 2, 2, 2, 2, 255, 255, 1, 1}},
    {2, 10, {0, 2, 2, 2, 2, 2, 255, 255, 1, 1}},
    {1, 10, {0, 2, 2, 2, 2, 2, 255, 255, 1, 1}},
    {0, 10, {0, 2, 2, 2, 2, 2, 255, 255, 1, 1}},
    {2, 8, {255, 255, 0, 0, 0, 254, 255, 255}},
    {1, 12, {255, 255, 0, 0, 254, 254, 1, 1, 255, 255, 255, 255}},
    {3, 12, {255, 255, 0, 0, 254, 254, 1, 1, 255, 255, 255, 255}},
    {1, 5, {0, 254, 1, 254, 2}},
    {65535, 0, {0}},
    {9, 3, {254, 254, 254}},
    {6, 8, {63, 64, 128, 200, 253, 254, 255, 0}},
    {7, 8, {63, 64, 128, 200, 253, 254, 255, 0}},
    {2, 8, {254, 0, 254, 1, 254, 255, 2, 254}},
    {65535, 8, {254, 0, 254, 1, 254, 255, 2, 254}},
    {0, 7, {0, 1, 2, 254, 255, 64, 63}},
};

static int count_bytes(const unsigned char *table, int slots, unsigned char byte)
{
    int count = 0;
    for (int t = 0; t < slots; t++)
        count += table[t] == byte;
    return count;
}

struct sums {
    long long idle;
    long long asleep;
    long long energy;
    uint64_t digest;
};

/* Applies the rule and takes the table after it into the sums. */
static void rule_into_sums(struct sums *sums, enum start start, int wake_cost, unsigned char *table, int slots)
{
    apply_sleep_rule(start, wake_cost, table, slots);
    sums->idle += count_bytes(table, slots, IDLE);
    sums->asleep += count_bytes(table, slots, ASLEEP);
    sums->energy += figures_of(start, wake_cost, table, slots).energy;
    for (int t = 0; t < slots; t++)
        sums->digest = mixed(sums->digest, table[t]);
}

static void print_sums(const struct sums *sums)
{
    printf(" %lld %lld %lld %" PRIu64 "\n", sums->idle, sums->asleep, sums->energy, sums->digest);
}

static void print_worked(enum start start)
{
    for (size_t i = 0; i < sizeof worked_cases / sizeof worked_cases[0]; i++) {
        struct worked_case worked = worked_cases[i];
        apply_sleep_rule(start, worked.wake_cost, worked.table, worked.slots);
        printf("%sq %d", start_prefix(start), worked.wake_cost);
        print_bytes(worked.table, worked.slots);
        printf("\n");
    }
}

static void print_every_table(enum start start)
{
    static const unsigned char digits[] = {0, 63, 64, IDLE, ASLEEP};
    int tables = 1;
    for (int slots = 0; slots <= LONGEST_SWEPT; slots++, tables *= 5)
        for (int wake_cost = 0; wake_cost <= 8; wake_cost++) {
            struct sums sums = {0, 0, 0, 0};
            for (int number = 0; number < tables; number++) {
                unsigned char table[LONGEST_SWEPT];
                int rest = number;
                for (int t = slots - 1; t >= 0; t--, rest /= 5)
                    table[t] = digits[rest % 5];
                rule_into_sums(&sums, start, wake_cost, table, slots);
            }
            printf("%sslots %d %d %d", start_prefix(start), slots, wake_cost, tables);
            print_sums(&sums);
        }
}

/* Three stretches of one length: before the first working slot, between the two, and behind the last. */
static void print_stretch(enum start start, int length, int wake_cost)
{
    static unsigned char table[3 * LONGEST_STRETCH + 2];
    unsigned char *before = table;
    unsigned char *in = before + length + 1;
    unsigned char *behind = in + length + 1;

    memset(before, IDLE, (size_t)length);
    before[length] = 5;
    memset(in, ASLEEP, (size_t)length);
    in[length] = 63;
    memset(behind, IDLE, (size_t)length);
    apply_sleep_rule(start, wake_cost, table, 3 * length + 2);
    printf("%sstretch %d %d %d %d %d\n", start_prefix(start), length, wake_cost,
           count_bytes(before, length, IDLE), count_bytes(in, length, IDLE), count_bytes(behind, length, IDLE));
}

static void print_stretches(enum start start)
{
    static const int lengths[] = {0, 1, 2, 3, 254, 255, 256, 257, 4093, 4094, 65533, 65534, 65535, 65536};
    for (size_t i = 0; i < sizeof lengths / sizeof lengths[0]; i++)
        for (int wake_cost = lengths[i] - 1; wake_cost <= lengths[i] + 1; wake_cost++)
            if (0 <= wake_cost && wake_cost <= MOST_WAKE_COST)
                print_stretch(start, lengths[i], wake_cost);
}

static void print_drawn(enum start start)
{
    static const unsigned char resting[] = {IDLE, ASLEEP, 64, 200};
    static unsigned char table[LONGEST_DRAWN];
    struct sums sums = {0, 0, 0, 0};
    uint64_t state = 1;
    for (int i = 0; i < DRAWN_TABLES; i++) {
        int slots = draw(&state) % (LONGEST_DRAWN + 1);
        int wake_cost = draw(&state) % 40;
        int rarity = draw(&state) % 30 + 1;
        for (int t = 0; t < slots; t++) {
            int v = draw(&state);
            table[t] = v % rarity == 0 ? (unsigned char)(v / rarity % BYTES_OF_JOBS) : resting[v % 4];
        }
        sums.digest = mixed(mixed(sums.digest, (uint64_t)slots), (uint64_t)wake_cost);
        rule_into_sums(&sums, start, wake_cost, table, slots);
    }
    printf("%srandom %d", start_prefix(start), DRAWN_TABLES);
    print_sums(&sums);
}

int main(void)
{
    for (enum start start = START_ASLEEP; start <= START_AWAKE; start++) {
        print_worked(start);
        print_every_table(start);
        print_stretches(start);
        print_drawn(start);
    }
    return 0;
}
