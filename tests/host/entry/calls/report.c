#define _GNU_SOURCE
#include "report.h"
#include "list.h"
#include <signal.h>
#include <stdarg.h>
#include <stdio.h>
#include <stdlib.h>
#include <unistd.h>

char at_hand[256];
const struct call *under_way;
unsigned long differences;

/* The case, the sizes and the list in hex to standard error, in one piece. */
static void tell(const struct call *c, const char *what) {
  static char text[2 * LIST_ROOM + 1024];
  static const char digits[] = "0123456789abcdef";
  static const char *const lies[] = { "front", "back", "between", "NULL" };
  int n = snprintf(text, 1024, "%s\n  %s\n  table of %zu (%s), block of %zu (%s), list of %zu bytes (%s): ", what, at_hand, c->table_len,
                   lies[c->table_lie], c->block_len, lies[c->block_lie], c->list_len, lies[c->list_lie]);
  char *at = text + n;
  for (size_t i = 0; i < c->list_len; i++) { *at++ = digits[c->list[i] >> 4]; *at++ = digits[c->list[i] & 15]; }
  *at++ = '\n';
  if (write(2, text, (size_t)(at - text)) < 0) _exit(2);
}

static void on_signal(int number) {
  static const struct call none;
  char what[64];
  snprintf(what, sizeof what, "signal %d%s", number, under_way ? "" : ", not within a call");
  tell(under_way ? under_way : &none, what);
  _exit(3);
}

/* On a stack of their own, in case the call has used up its own. */
void report_signals(void) {
  static char room[1 << 16];
  const stack_t stack = { .ss_sp = room, .ss_size = sizeof room };
  const struct sigaction action = { .sa_handler = on_signal, .sa_flags = SA_ONSTACK };
  const int signals[] = { SIGSEGV, SIGBUS, SIGILL, SIGFPE, SIGABRT, SIGINT, SIGTERM };
  if (sigaltstack(&stack, NULL)) { perror("signals"); exit(2); }
  for (size_t i = 0; i < sizeof signals / sizeof *signals; i++) sigaction(signals[i], &action, NULL);
}

void differs(const struct call *c, const char *format, ...) {
  char line[160] = "differs: ";
  va_list rest;
  if (differences++ >= TOLD) return;
  va_start(rest, format);
  vsnprintf(line + 9, sizeof line - 9, format, rest);
  va_end(rest);
  tell(c, line);
}
