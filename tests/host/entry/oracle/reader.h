/* The tests' one reader of list bytes. It follows document 01 and the cards of 02 word by word. */
#ifndef READER_H
#define READER_H
#include "list.h"
#include "places.h"

/* Number 0 and the list, or a refusal. */
struct reading { uint32_t number, place; struct spot spot; };
struct reading read_list(const uint8_t *bytes, size_t len, struct list *l);

#endif
