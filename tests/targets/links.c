/* Firmware as a linker sees it: it calls the planner, and passes floating point arguments, so that its object is marked with the way they go. It
 * does not calculate with them, since that would ask for functions of the compiler's own library. */
#include "sleep_plan.h"

volatile float volts;
volatile double seconds;
double kept(float a, double b);
double kept(float a, double b) { volts = a; return b; }

static uint8_t list[SLEEP_PLAN_LIST_MAX], table[SLEEP_PLAN_TABLE_MAX], block[SLEEP_PLAN_BLOCK_MIN];

int main(void) {
  const uint32_t number = sleep_plan(list, sizeof list, table, sizeof table, block, sizeof block);
  seconds = kept(volts, seconds);
  return (int)number;
}
