#include "text.h"

void write_text(FILE *out, const struct list *list) {
  char span[24];
  int widest = 0;
  fprintf(out, "slots %u\nwake %u\n", list->slots, list->wake);
  for (unsigned j = 0; j < list->count; j++) {
    int width = snprintf(span, sizeof span, "%u..%u", list->jobs[j].release, list->jobs[j].deadline);
    if (width > widest) widest = width;
  }
  for (unsigned j = 0; j < list->count; j++) {
    const struct job *job = &list->jobs[j];
    snprintf(span, sizeof span, "%u..%u", job->release, job->deadline);
    fprintf(out, "job %-*s volume %u\n", widest, span, job->volume);
  }
}
