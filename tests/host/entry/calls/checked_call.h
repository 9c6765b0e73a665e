/* A call held to the oracle, byte for byte, and to the definitions. */
#ifndef CHECKED_CALL_H
#define CHECKED_CALL_H
#include "call.h"
#include "oracle.h"

/* Returns the call's number; `notes` are the oracle's. */
uint32_t checked_call(const struct call *c, struct notes *notes);

#endif
