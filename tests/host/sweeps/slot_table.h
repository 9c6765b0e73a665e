/*
 * A slot table has one byte a slot: 0 to 63 a job, 254 awake and idle, 255 asleep; 64 to 253 mean nothing.
 * A mere set of awake slots (a skeleton) is held as a table too, with 254 in its slots: so one count gives the energy of both.
 */
#ifndef SLOT_TABLE_H
#define SLOT_TABLE_H

#include "start.h"

enum { BYTES_OF_JOBS = 64, IDLE = 254, ASLEEP = 255 };

struct figures {
    long long energy;
    long long awake;
    long long runs;
};

int slot_works(unsigned char byte);

/* Energy, awake slots and runs. From a start awake a run at slot 0 costs no wake, but counts as a run (card 10). */
struct figures figures_of(enum start start, int wake_cost, const unsigned char *table, int slots);

/* Each byte in decimal with a space before it. */
void print_bytes(const unsigned char *table, int slots);

#endif
