#include <stddef.h>
#include <stdint.h>

/* 0 and the first H bytes of the table, or the number of the refusal. */
uint32_t plain_read(const uint8_t *record, size_t n, uint8_t *table, size_t room);
