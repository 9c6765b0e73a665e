/* From reset to main, on a Cortex-M without a C library. */
#include "semihosting.h"

extern uint32_t data_load[], data_start[], data_end[], bss_start[], bss_end[], stack_end[];
int main(void);
void reset(void);

static void fault(void) {
  say("fault\n");
  end(2);
}

/* The stack pointer, then the handlers of the core's fifteen exceptions, of which reset is the first. */
static const struct { uint32_t *stack; void (*handlers[15])(void); } vectors __attribute__((section(".vectors"), used)) = {
  stack_end, { reset, fault, fault, fault, fault, fault, fault, fault, fault, fault, fault, fault, fault, fault, fault }
};

void reset(void) {
  for (uint32_t *to = data_start, *from = data_load; to < data_end;) *to++ = *from++;
  for (uint32_t *to = bss_start; to < bss_end;) *to++ = 0;
  end((uint32_t)main());
}
