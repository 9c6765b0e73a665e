/* sleep_plan on this machine, answered by the driver on the target (driver.c): START names the program that starts it. The buffers lie in the
 * driver's arenas by turns in front, behind and between; only bytes of the table and the block may come back changed. If TALLY names a file, it is
 * given a line at the end: calls, deepest stack, and each number returned with how often it was. */
#define _GNU_SOURCE
#include "draw.h"
#include "lent_memory.h"
#include "message.h"
#include "report.h"
#include "sleep_plan.h"
#include <poll.h>
#include <signal.h>
#include <stdio.h>
#include <stdlib.h>
#include <string.h>
#include <sys/wait.h>
#include <unistd.h>

enum { NUMBERS = 64, PATIENCE = 120000 /* milliseconds that a call may take */ };
static int to_driver, from_driver;
static pid_t process;
static unsigned long calls, numbers[NUMBERS];
static uint32_t deepest;

static void write_tally(void) {
  const char *name = getenv("TALLY");
  FILE *file = name ? fopen(name, "w") : NULL;
  if (!file) return;
  fprintf(file, "%lu %u", calls, deepest);
  for (int i = 0; i < NUMBERS; i++) if (numbers[i]) fprintf(file, " %d:%lu", i, numbers[i]);
  fprintf(file, "\n");
  fclose(file);
}

static void start_driver(void) {
  int there[2], back[2];
  const char *start = getenv("START");
  if (!start || pipe(there) || pipe(back) || (process = fork()) < 0) { perror("START"); exit(2); }
  if (process == 0) {
    dup2(there[0], 0); dup2(back[1], 1);
    close(there[0]); close(there[1]); close(back[0]); close(back[1]);
    execl(start, start, (char *)NULL);
    _exit(127);
  }
  close(there[0]); close(back[1]);
  to_driver = there[1]; from_driver = back[0];
  signal(SIGPIPE, SIG_IGN);
  atexit(write_tally);
}

/* The driver has ended, or has been ended. */
static void no_answer(const char *why) {
  int status = 0;
  waitpid(process, &status, 0);
  differs(under_way, "no answer from the target, %s: %s %d", why, WIFSIGNALED(status) ? "signal" : "status",
          WIFSIGNALED(status) ? WTERMSIG(status) : WEXITSTATUS(status));
  exit(3);
}

static void send(const void *from, size_t size) {
  for (size_t sent = 0; sent < size;) {
    ssize_t n = write(to_driver, (const uint8_t *)from + sent, size - sent);
    if (n <= 0) no_answer("it had ended before the call");
    sent += (size_t)n;
  }
}

static void receive(void *to, size_t size) {
  for (size_t got = 0; got < size;) {
    struct pollfd ready = { from_driver, POLLIN, 0 };
    if (poll(&ready, 1, PATIENCE) == 0) { kill(process, SIGKILL); no_answer("it took too long"); }
    ssize_t n = read(from_driver, (uint8_t *)to + got, size - got);
    if (n <= 0) no_answer("it has ended");
    got += (size_t)n;
  }
}

static enum lie lie_of(const uint8_t *at, unsigned long turn) { return at ? (enum lie)(turn % NOWHERE) : NOWHERE; }

/* Where `size` bytes begin that lie so in an arena. */
static uint32_t begin(uint32_t arena, size_t size, enum lie lie) {
  if (size > room[arena]) { fprintf(stderr, "buffers of %zu bytes have no room on the target\n", size); exit(2); }
  uint32_t spare = room[arena] - (uint32_t)size;
  return lie == FRONT ? 0 : lie == BACK ? spare : draw(spare + 1);
}

static struct place alone(uint32_t arena, size_t len, enum lie lie) {
  if (lie == NOWHERE) return (struct place){ NO_ARENA, 0, (uint32_t)len };
  return (struct place){ arena, begin(arena, len, lie), (uint32_t)len };
}

static int share(const uint8_t *a, size_t a_len, const uint8_t *b, size_t b_len) {
  return a_len && b_len && (uintptr_t)a < (uintptr_t)b + b_len && (uintptr_t)b < (uintptr_t)a + a_len;
}

/* Buffers of which some share bytes keep their distances. */
static struct message together(const uint8_t *const at[3], const size_t len[3], enum lie lie) {
  struct place places[3];
  uintptr_t least = UINTPTR_MAX, most = 0;
  for (int i = 0; i < 3; i++) {
    uintptr_t a = (uintptr_t)at[i];
    if (a && a < least) least = a;
    if (a && a + len[i] > most) most = a + len[i];
  }
  uint32_t from = begin(SHARED, most - least, lie);
  for (int i = 0; i < 3; i++)
    places[i] = at[i] ? (struct place){ SHARED, from + (uint32_t)((uintptr_t)at[i] - least), (uint32_t)len[i] } : alone(SHARED, len[i], NOWHERE);
  return (struct message){ places[0], places[1], places[2], SHARED, ARENAS };
}

static uint8_t sent[ARENAS][TABLE_ROOM], back[ARENAS][TABLE_ROOM];

static void put(uint8_t arenas[][TABLE_ROOM], struct place at, const uint8_t *from) {
  if (at.arena != NO_ARENA) memcpy(arenas[at.arena] + at.offset, from, at.length);
}

/* What may have changed is taken over, to the caller and into the image; the rest must be as it was sent. */
static void take(struct place at, uint8_t *to) {
  if (at.arena == NO_ARENA) return;
  memcpy(to, back[at.arena] + at.offset, at.length);
  put(sent, at, to);
}

static void compare(const struct call *c, uint32_t arena, struct place at) {
  static const char *const names[ARENAS] = { "list", "table", "block", "shared buffers" };
  uint32_t i = 0;
  while (i < room[arena] && sent[arena][i] == back[arena][i]) i++;
  if (i < room[arena])
    differs(c, "byte %ld of the %s on the target, which may not change, is %d, was %d", (long)i - (long)at.offset, names[arena], back[arena][i],
            sent[arena][i]);
}

/* On a board less is lent of long lists and tables; no list has so many bytes, and no plan so many slots, so that the answer is the same. */
static size_t lent(size_t len, uint32_t arena) { return len < room[arena] ? len : room[arena]; }

uint32_t sleep_plan(const uint8_t *list, size_t list_len, uint8_t *table, size_t table_len, uint8_t *block, size_t block_len) {
  list_len = lent(list_len, LISTS);
  table_len = lent(table_len, TABLES);
  const struct call c = { list, list_len, table_len, block_len, lie_of(list, calls), lie_of(table, calls / 3), lie_of(block, calls / 9) };
  const struct call *outer = under_way;
  struct message m = { alone(LISTS, list_len, c.list_lie), alone(TABLES, table_len, c.table_lie), alone(BLOCKS, block_len, c.block_lie),
                       LISTS, SHARED };
  struct reply reply;
  if (share(list, list_len, table, table_len) || share(table, table_len, block, block_len) || share(block, block_len, list, list_len))
    m = together((const uint8_t *const[]){ list, table, block }, (const size_t[]){ list_len, table_len, block_len }, c.list_lie);
  under_way = &c;
  if (!process) start_driver();
  for (uint32_t i = m.first; i < m.behind; i++) paint(sent[i], room[i]);
  put(sent, m.list, list); put(sent, m.table, table); put(sent, m.block, block);
  send(&m, sizeof m);
  for (uint32_t i = m.first; i < m.behind; i++) send(sent[i], room[i]);
  receive(&reply, sizeof reply);
  for (uint32_t i = m.first; i < m.behind; i++) receive(back[i], room[i]);
  take(m.table, table); take(m.block, block);
  for (uint32_t i = m.first; i < m.behind; i++) compare(&c, i, i == TABLES ? m.table : i == BLOCKS ? m.block : m.list);
  calls++;
  if (reply.returned < NUMBERS) numbers[reply.returned]++;
  if (reply.stack > deepest) deepest = reply.stack;
  under_way = outer;
  return reply.returned;
}
