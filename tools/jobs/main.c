/* Job lists as text, as bytes, and their plans as pictures; docs/TOOL.md tells how to use it. */
#include "source.h"
#include "svg.h"
#include "text.h"
#include "timeline.h"
#include <stdio.h>
#include <stdlib.h>
#include <string.h>

enum { FINE = 0, OVERLOAD = 1, TROUBLE = 2 };

static const char HELP[] =
  "jobs bytes [FILE]                         list text in, list bytes out\n"
  "jobs text [FILE]                          list bytes in, list text out\n"
  "jobs show [--bytes] [--width N] [FILE]    the plan as a timeline of N columns, 40 to 5000, usually 80\n"
  "jobs svg [--bytes] [FILE]                 the plan as a picture\n"
  "\n"
  "FILE holds list text, with --bytes list bytes. Without FILE, or if it is -, standard input is read.\n"
  "Exit: 0 if all is well, 1 if show or svg drew an overload, 2 if something is wrong, which is told on standard error.\n"
  "\n"
  "List text, a line each, in any order; # begins a comment:\n"
  "  slots N                                          how many slots, 1 to 4096\n"
  "  wake N                                           what a wake costs, 0 to 65535\n"
  "  job [NAME] [RELEASE..DEADLINE] [volume N]        up to 64 of these, numbered from 0\n"
  "A job runs in N of the slots from RELEASE up to, but without, DEADLINE. RELEASE is 0, DEADLINE the end, N 1 if left out.\n"
  "A name starts with a letter, has up to 16 printable characters, and is shown only: it is not in the bytes.\n";

struct request { const char *command, *path; enum form form; unsigned width; };

static int usage(const char *what, const char *word) {
  fprintf(stderr, "jobs: %s%s; see jobs --help\n", what, word);
  return 0;
}

static int is(const char *a, const char *b) { return !strcmp(a, b); }

static int take_width(const char *word, unsigned *width) {
  char *end;
  unsigned long value = word ? strtoul(word, &end, 10) : 0;
  if (!word || *word < '0' || *word > '9' || *end || value < WIDTH_MIN || value > WIDTH_MAX)
    return usage("--width needs a number from 40 to 5000", "");
  *width = (unsigned)value;
  return 1;
}

static int take_request(int argc, char **argv, struct request *request) {
  *request = (struct request){ .command = argc > 1 ? argv[1] : "", .form = TEXT, .width = WIDTH_USUAL };
  int show = is(request->command, "show"), svg = is(request->command, "svg");
  if (!show && !svg && !is(request->command, "bytes") && !is(request->command, "text")) return usage("the command is bytes, text, show or svg", "");
  if (is(request->command, "text")) request->form = BYTES;
  for (int i = 2; i < argc; i++) {
    if ((show || svg) && is(argv[i], "--bytes")) request->form = BYTES;
    else if (show && is(argv[i], "--width")) { if (!take_width(argv[++i], &request->width)) return 0; }
    else if (argv[i][0] == '-' && argv[i][1]) return usage("unknown option ", argv[i]);
    else if (request->path) return usage("one file at a time: ", argv[i]);
    else request->path = argv[i];
  }
  return 1;
}

static int answer(const struct request *request, const struct source *source) {
  if (is(request->command, "bytes")) fwrite(source->bytes, 1, source->length, stdout);
  else if (is(request->command, "text")) write_text(stdout, &source->list);
  else if (is(request->command, "show")) draw_timeline(stdout, source, request->width);
  else draw_svg(stdout, source);
  int drawn = is(request->command, "show") || is(request->command, "svg");
  return drawn && source->plan.returned == SLEEP_PLAN_OVERLOADED ? OVERLOAD : FINE;
}

int main(int argc, char **argv) {
  static struct source source;
  struct request request;
  int code = FINE;
  if (argc == 2 && (is(argv[1], "--help") || is(argv[1], "-h"))) {
    fputs(HELP, stdout);
  } else {
    if (!take_request(argc, argv, &request) || !load(request.path, request.form, &source)) return TROUBLE;
    code = answer(&request, &source);
  }
  if (fclose(stdout)) {
    fputs("jobs: the output cannot be written\n", stderr);
    return TROUBLE;
  }
  return code;
}
