/* Card 10: the state of the processor before slot 0. It is a state and no slot, so nothing touches it. */
#ifndef START_H
#define START_H

enum start { START_ASLEEP = 0, START_AWAKE = 1 };

/* What each printed line begins with for this start: nothing, or "awake ". */
const char *start_prefix(enum start start);

#endif
