/* A record reader in plain C: what one writes without thinking of proofs. It tests what card 2 asks for, in its order. */
#include "plain_read.h"

uint32_t plain_read(const uint8_t *record, size_t n, uint8_t *table, size_t room) {
  if (n < 2) return 11;
  size_t h = record[0] + 256u * record[1];
  if (h < 1 || h > 4096) return 12;
  const uint8_t *map = record + 2;
  size_t behind = 2 + (h + 7) / 8, end = behind;
  if (n < behind) return 11;
  for (size_t t = h; t < 8 * (behind - 2); t++) if (map[t / 8] >> t % 8 & 1) return 31;
  for (size_t i = 2; i < behind; i++) end += (size_t)__builtin_popcount(record[i]);
  if (n < end) return 11;
  for (size_t i = behind; i < end; i++) if (record[i] > 63 && record[i] != 254) return 32;
  if (n > end) return 16;
  if (room < h) return 17;
  const uint8_t *next = record + behind;
  for (size_t t = 0; t < h; t++) table[t] = map[t / 8] >> t % 8 & 1 ? *next++ : 255;
  return 0;
}
