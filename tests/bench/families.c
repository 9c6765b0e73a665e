#include "families.h"
#include "list.h"
#include <string.h>

const char *const family_name[FAMILIES] = {"one", "nested", "tiled", "loose", "random", "no job", "volume 1", "overload", "q 0", "q 65535", "tied", "equal"};

static uint32_t seed;
static int below(int n) { seed = seed * 1664525u + 1013904223u; return (int)((seed >> 8) % (uint32_t)n); }

size_t family_list(int f, int h, uint8_t *bytes) {
  struct list l;
  memset(&l, 0, sizeof l); /* so memset is bound before a call is counted */
  seed = 7;
  l.h = (unsigned)h;
  l.q = f == 8 ? 0 : f == 9 ? 65535 : 3;
  l.n = f == 0 ? 1 : f == 5 ? 0 : JOBS;
  for (int i = 0; i < (int)l.n; i++) {
    int r, d, p;
    if (f == 0) { r = 0; d = h; p = h; }
    else if (f == 1) { r = i * h / 160; d = h - i * h / 160; p = h / 80; }
    else if (f == 2) { r = i * (h / 64); d = r + h / 64; p = h / 128; }
    else if (f == 11) { r = 0; d = h; p = h / 64; }
    else if (f == 10) { r = (63 - i) * h / 80; d = h; p = h / 90; }
    else if (f == 3) { r = below(h / 4); d = h - below(h / 4); p = h / 70; }
    else { r = below(h); d = r + 1 + below(h - r); p = f == 6 ? 1 : 1 + below((d - r + 39) / 40); }
    l.job[i] = (struct job){ (unsigned)r, (unsigned)d, (unsigned)p, 0 };
  }
  if (f == 7) l.job[63] = (struct job){ 0, l.h, l.h, 0 };
  settle(&l);
  return spell(&l, bytes);
}
