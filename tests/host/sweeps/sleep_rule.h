/* Cards 5 and 10: the working slots decide where the processor sleeps. */
#ifndef SLEEP_RULE_H
#define SLEEP_RULE_H

#include "start.h"

/* Working slots keep their byte. Every other slot, whatever it held, becomes 254 or 255. */
void apply_sleep_rule(enum start start, int wake_cost, unsigned char *table, int slots);

#endif
