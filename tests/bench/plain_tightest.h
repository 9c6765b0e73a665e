#include <stddef.h>
#include <stdint.h>

/* From H, the releases, deadlines and volumes, each with its length, and room for two ends: the slack, with the ends of its interval; 65,536 and no ends
 * for a refusal. */
typedef int32_t find(uint16_t, const uint16_t *, size_t, const uint16_t *, size_t, const uint16_t *, size_t, uint64_t *, size_t);

/* By the numbers of the jobs in order, by copies of the jobs in order, and the way that ours goes. */
find plain_tightest, copied_tightest, walk_tightest;
