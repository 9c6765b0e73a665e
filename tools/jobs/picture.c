#include "picture.h"

static void put_escaped(FILE *out, const char *text) {
  for (; *text; text++) {
    switch (*text) {
    case '&': fputs("&amp;", out); break;
    case '<': fputs("&lt;", out); break;
    case '>': fputs("&gt;", out); break;
    default: fputc(*text, out);
    }
  }
}

/* Thousandths as a decimal number. */
static void put_decimal(FILE *out, long thousandths) {
  unsigned long size = (unsigned long)(thousandths < 0 ? -thousandths : thousandths);
  fprintf(out, "%s%lu", thousandths < 0 ? "-" : "", size / 1000);
  if (size % 1000) fprintf(out, ".%03lu", size % 1000);
}

/* The left edge of a slot. */
static void put_edge(const struct picture *p, const struct band *band, unsigned slot) {
  put_decimal(p->out, 1000L * (long)p->left + ((long)slot - (long)band->from) * (long)p->slot_width);
}

void put_text(const struct picture *p, unsigned x, unsigned y, const char *more, const char *text) {
  fprintf(p->out, "<text x=\"%u\" y=\"%u\"%s>", x, y, more);
  put_escaped(p->out, text);
  fputs("</text>\n", p->out);
}

void put_box(const struct picture *p, const char *paint, unsigned x, unsigned y, unsigned width, unsigned height) {
  fprintf(p->out, "<rect %s x=\"%u\" y=\"%u\" width=\"%u\" height=\"%u\"/>\n", paint, x, y, width, height);
}

void put_bar(const struct picture *p, const struct band *band, const struct bar *bar, const char *label, unsigned a, unsigned b, unsigned y) {
  unsigned from = a > band->from ? a : band->from, upto = b < band->upto ? b : band->upto;
  fprintf(p->out, "<rect class=\"%s\" %s x=\"%u\" y=\"%u\" width=\"%u\" height=\"%u\"><title>", bar->kind, bar->paint, from, y + bar->rise,
          upto - from, bar->height);
  put_escaped(p->out, label);
  fprintf(p->out, " %s %u..%u</title></rect>\n", bar->word, a, b);
}

void put_wake(const struct picture *p, const struct band *band, unsigned slot, unsigned y) {
  fprintf(p->out, "<path class=\"wake\" " RED " d=\"M");
  put_edge(p, band, slot);
  fprintf(p->out, " %ul-4 -8h8z\"><title>wakes at %u</title></path>\n", y, slot);
}

void put_line(const struct picture *p, const struct band *band, unsigned slot, unsigned y, unsigned bottom) {
  fprintf(p->out, "<path stroke=\"#DDDDDD\" d=\"M");
  put_edge(p, band, slot);
  fprintf(p->out, " %uV%u\"/>\n", y, bottom);
}

void put_number(const struct picture *p, const struct band *band, unsigned slot, unsigned y) {
  fprintf(p->out, "<text class=\"slot\" text-anchor=\"middle\" x=\"");
  put_edge(p, band, slot);
  fprintf(p->out, "\" y=\"%u\">%u</text>\n", y, slot);
}

void begin_bars(const struct picture *p, const struct band *band) {
  fprintf(p->out, "<g class=\"band\" transform=\"translate(");
  put_edge(p, band, 0);
  fprintf(p->out, " 0) scale(");
  put_decimal(p->out, (long)p->slot_width);
  fprintf(p->out, " 1)\">\n");
}

void end_bars(const struct picture *p) { fputs("</g>\n", p->out); }
