/* sleep_plan.h - a sleep plan for one processor, from a list of jobs.
 *
 * Time is cut into H slots, numbered 0 to H-1. In each slot the processor is asleep, awake and idle, or runs one job. A job has a release
 * r, a deadline d and a volume p: it must run in exactly p of the slots r to d-1, in one piece or in several. Awake slots in a row, as many
 * as there are, make a run; the processor comes to slot 0 asleep. A plan costs 1 for each awake slot and the wake cost q for each run. The planner
 * gives a plan that serves every job, at a cost of at most the cheapest possible plan's plus the sum of all volumes, or says that no plan
 * exists.
 *
 * In slots without a job the processor sleeps, except between two slots with jobs that have fewer than q slots between them: there it stays
 * awake and idle. So no plan with jobs in the same slots costs less.
 *
 * Of the jobs that are released, unfinished and due first, a slot with a job runs the one that the nearest earlier slot with a job ran, even if
 * the processor idled or slept in between; if that is none of them, the lowest number.
 *
 * One call does it all. It uses the three buffers it is given and some stack: no heap, no file, no clock, no global variable. It may
 * be called from several threads at once, each with its own buffers. It always returns.
 *
 * There are archives for x86-64, Cortex-M0 and M0+ (thumbv6m), Cortex-M4 and M7 (thumbv7em), RISC-V (riscv32imac, ilp32) and AArch64
 * (aarch64), all little endian. This header is for all of them. An archive asks two things of the firmware. Stack: have SLEEP_PLAN_STACK
 * bytes free for the call, beside what interrupts take; this rests on measurement, not on proof. And functions for memory: memset and
 * memcpy, on 32-bit ARM their __aeabi_ forms, on Cortex-M0 and M0+ also two 64-bit shifts. The libraries of a C compiler have them;
 * lib/freestanding.c has them for firmware without such a library.
 *
 * sleep_plan_jobs.h has a function that writes a list from an array of jobs, and one that reads the numbers of the block.
 */
#ifndef SLEEP_PLAN_H
#define SLEEP_PLAN_H

#include <stddef.h>
#include <stdint.h>

#ifdef __cplusplus
extern "C" {
#endif

/* The version of this header and of the archives that come with it. */
#define SLEEP_PLAN_VERSION_MAJOR 0
#define SLEEP_PLAN_VERSION_MINOR 9
#define SLEEP_PLAN_VERSION_PATCH 4
#define SLEEP_PLAN_VERSION "0.9.4"

/* Sizes. A list has at most SLEEP_PLAN_LIST_MAX bytes, a plan at most SLEEP_PLAN_TABLE_MAX slots. */
#define SLEEP_PLAN_JOBS_MAX 64
#define SLEEP_PLAN_LIST_MAX 453
#define SLEEP_PLAN_TABLE_MAX 4096
#define SLEEP_PLAN_BLOCK_MIN 16

/* Bytes of stack to have free for a call, on each processor. The deepest call that was measured took 2,208, with the archive for Cortex-M0 and the
 * functions of lib/freestanding.c, compiled at -O2; other functions for memory can take some bytes more. */
#define SLEEP_PLAN_STACK 2304

/* Bytes of the table that are no job number. */
#define SLEEP_PLAN_IDLE 254
#define SLEEP_PLAN_ASLEEP 255

/* Returned numbers. "Place" is the first number of the block. */
#define SLEEP_PLAN_PLANNED 0       /* the table holds a plan; the block holds cost, awake slots, runs, added slots */
#define SLEEP_PLAN_TRUNCATED 11    /* the list ends too early; place: its length */
#define SLEEP_PLAN_OUT_OF_RANGE 12 /* place 0: H is not 1 to 4096; place 4: more than 64 jobs */
#define SLEEP_PLAN_UNKNOWN_BIT 13  /* a map byte has one of bits 3 to 7; place: its offset in the list */
#define SLEEP_PLAN_REDUNDANT 14    /* a field is spelled out although it has its absent value; place: the field's offset */
#define SLEEP_PLAN_EMPTY_SPAN 15   /* r of a job is not below its d; place: the job's number */
#define SLEEP_PLAN_LEFT_OVER 16    /* bytes follow the last job; place: the offset of the first of them */
#define SLEEP_PLAN_TOO_SHORT 17    /* the table has fewer than H bytes; place: H. Or the block has fewer than 16 bytes: then nothing
                                      is written, and there is no place */
#define SLEEP_PLAN_OVERLOADED 18   /* no plan exists; the block's first two numbers are a and b: the jobs with a <= r and d <= b have
                                      more volume together than the b - a slots between a and b */
#define SLEEP_PLAN_PAST_HORIZON 25 /* d of a job is above H; place: the job's number */
#define SLEEP_PLAN_NO_VOLUME 26    /* p of a job is 0; place: the job's number */

/* Plans the jobs of a list.
 *
 * list, list_len    The job list, in the bytes described below. It is only read. Any bytes may be given: what is no list is refused.
 * table, table_len  The plan goes to its first H bytes, one byte a slot: a job's number (0 to 63, in the order of the list),
 *                   SLEEP_PLAN_IDLE or SLEEP_PLAN_ASLEEP. It needs H bytes; SLEEP_PLAN_TABLE_MAX are always enough.
 * block, block_len  The answer block. It needs SLEEP_PLAN_BLOCK_MIN bytes: four numbers of four bytes each, low byte first.
 *
 * All three belong to the caller, before, during and after the call; no pointer is kept. A pointer may be NULL where its length is 0.
 * No alignment is needed.
 *
 * Returns SLEEP_PLAN_PLANNED, SLEEP_PLAN_OVERLOADED, or the number of a refusal. What is written:
 *
 *   returned                  first H bytes of table    first 16 bytes of block
 *   0                         the plan                  cost, awake slots, runs, added
 *   18                        unchanged                 a, b, 0, 0
 *   11 to 16, 25, 26,         unchanged                 place, 0, 0, 0
 *   17 for table
 *   17, block_len below 16    unchanged                 unchanged
 *
 * Bytes of the table behind the first H, and bytes of the block behind the first 16, are never changed; the list never is.
 * The cost is the number of awake slots plus q times the number of runs, both as the table has them. "Added" counts the slots that the planner
 * woke for volume after it had chosen where to be awake at all, and before it settled which slots without a job sleep; it is of interest for
 * comparing plans only.
 *
 * Checks are made in this order, and the first that fails is told: the block's length (17); the list's header (11, then 12 at 0, then 12
 * at 4); for each job in turn its map byte (11, 13), its fields (11, 14 in the order release, deadline, volume) and their values (25, 15,
 * 26); bytes behind the last job (16); the table's length (17); overload (18).
 *
 * The caller's duty: each buffer is valid for its length (list for reading, table and block for writing) until the call returns, nobody
 * else writes to them meanwhile, and no two of them share a byte. If buffers do share bytes, nothing is promised of what comes back; as
 * built and tested, such a call touches nothing outside the three buffers and returns.
 *
 * The bytes of a list:
 *
 *   offset  bytes
 *   0       2      H, the number of slots, 1 to 4096, low byte first
 *   2       2      q, the cost of a wake, 0 to 65535, low byte first
 *   4       1      the number of jobs, 0 to 64
 *   5              the jobs, one behind the other:
 *                    1 byte   map: bit 0 set if a release follows, bit 1 if a deadline, bit 2 if a volume
 *                    2 bytes  release, low byte first; not there if it is 0
 *                    2 bytes  deadline, low byte first; not there if it is H
 *                    2 bytes  volume, low byte first; not there if it is 1
 *
 * A field that has its absent value must not be there, so each list has just one spelling.
 *
 * A complete example, which prints "cost 13, awake 10, runs 1" and "0 2 2 2 2 2 254 254 1 1":
 *
 *   #include <stdio.h>
 *   #include "sleep_plan_jobs.h"
 *
 *   int main(void) {
 *     // 10 slots, a wake costs 3
 *     const struct sleep_plan_job jobs[] = { { 0, 3, 1 }, { 8, 10, 2 }, { 0, 10, 5 } };
 *     uint8_t list[SLEEP_PLAN_LIST_MAX], table[10], block[SLEEP_PLAN_BLOCK_MIN];
 *     size_t length = sleep_plan_write_list(list, sizeof list, 10, 3, jobs, 3);
 *     uint32_t r = sleep_plan(list, length, table, sizeof table, block, sizeof block);
 *     unsigned long a = sleep_plan_number(block, 0), b = sleep_plan_number(block, 1), c = sleep_plan_number(block, 2);
 *     if (r == SLEEP_PLAN_OVERLOADED) {
 *       printf("too much to do from slot %lu up to slot %lu\n", a, b);
 *       return 1;
 *     }
 *     if (r != SLEEP_PLAN_PLANNED) {
 *       printf("refused: %lu at %lu\n", (unsigned long)r, a);
 *       return 1;
 *     }
 *     printf("cost %lu, awake %lu, runs %lu\n", a, b, c);
 *     for (int t = 0; t < 10; t++) printf("%d%c", table[t], t < 9 ? ' ' : '\n');
 *     return 0;
 *   }
 */
uint32_t sleep_plan(const uint8_t *list, size_t list_len, uint8_t *table, size_t table_len, uint8_t *block, size_t block_len);

#ifdef __cplusplus
}
#endif

#endif
