/* What goes to the driver on the target, and what comes back. Behind both follow the whole arenas from `first` to the one before `behind`. The
 * numbers have 32 bits each, low byte first, as on every machine that takes part. */
#ifndef MESSAGE_H
#define MESSAGE_H
#include "call.h"
#include "list.h"

/* Buffers that share bytes lie in one arena together. */
enum { LISTS, TABLES, BLOCKS, SHARED, ARENAS, NO_ARENA = ARENAS };
#ifdef BOARD
/* What 16 KiB of RAM hold beside the stack. */
static const uint32_t room[ARENAS] = { 512, 4160, 128, 4608 };
#else
static const uint32_t room[ARENAS] = { LIST_ROOM, TABLE_ROOM, BLOCK_ROOM, 8192 };
#endif

struct place { uint32_t arena, offset, length; };
struct message { struct place list, table, block; uint32_t first, behind; };
struct reply { uint32_t returned, stack; };

#endif
