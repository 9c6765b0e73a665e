#include "source.h"
#include "reader.h"
#include "refusal.h"
#include <errno.h>
#include <stdio.h>
#include <string.h>

static int cannot_read(const char *file) {
  fprintf(stderr, "%s: cannot be read: %s\n", file, strerror(errno));
  return 0;
}

/* Bytes are read beyond the end of the longest list; what follows cannot change the answer. */
static int read_source(FILE *in, struct source *s) {
  if (s->form == TEXT) {
    if (!read_text(in, s->file, &s->list)) return 0;
    s->length = list_to_bytes(&s->list, s->bytes);
  } else {
    s->length = fread(s->bytes, 1, sizeof s->bytes, in);
    list_from_bytes(s->bytes, s->length, &s->list);
  }
  return 1;
}

int load(const char *path, enum form form, struct source *s) {
  int standard = !path || !strcmp(path, "-");
  s->file = standard ? "<stdin>" : path;
  s->form = form;
  FILE *in = standard ? stdin : fopen(path, "rb");
  if (!in) return cannot_read(s->file);
  int whole = read_source(in, s);
  if (ferror(in)) whole = cannot_read(s->file);
  if (!standard) fclose(in);
  if (!whole) return 0;
  make_plan(s->bytes, s->length, &s->plan);
  if (refused(&s->plan)) tell_refusal(s);
  return !refused(&s->plan);
}
