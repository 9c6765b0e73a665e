/* A list from a file, with its bytes and the planner's answer. */
#ifndef JOBS_SOURCE_H
#define JOBS_SOURCE_H

#include "list.h"
#include "plan.h"

enum form { TEXT, BYTES };

struct source {
  const char *file; /* as it is called in messages */
  enum form form;
  struct list list;
  uint8_t bytes[BYTES_ROOM];
  size_t length;
  struct plan plan;
};

/* Reads path, standard input if it is NULL or "-". Gives 1 for a list that is planned or overloaded; otherwise 0, after it has told why. */
int load(const char *path, enum form form, struct source *source);

#endif
