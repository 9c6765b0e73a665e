/* nRF51822 of the micro:bit, a Cortex-M0 with 16 KiB of RAM. */
MEMORY {
  flash (rx) : ORIGIN = 0, LENGTH = 256K
  ram (rw) : ORIGIN = 0x20000000, LENGTH = 16K
}
INCLUDE sections.ld
