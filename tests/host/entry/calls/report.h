/* What is told of a call that goes wrong. */
#ifndef REPORT_H
#define REPORT_H
#include "call.h"

/* The case at hand, in words; the call under way, if there is one; differences so far, of which the first TOLD are reported. */
enum { TOLD = 5 };
extern char at_hand[256];
extern const struct call *under_way;
extern unsigned long differences;

/* If a signal ends the program, the case at hand is reported first. */
void report_signals(void);

/* Counts and reports a difference, in the words of printf. */
void differs(const struct call *c, const char *format, ...);

#endif
