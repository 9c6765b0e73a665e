/* The lists that are measured, by families. */
#ifndef FAMILIES_H
#define FAMILIES_H
#include <stddef.h>
#include <stdint.h>

enum { FAMILIES = 12 };
extern const char *const family_name[FAMILIES];

/* The bytes of a family's list with h slots, at most 512; returns how many. */
size_t family_list(int family, int h, uint8_t *bytes);

#endif
