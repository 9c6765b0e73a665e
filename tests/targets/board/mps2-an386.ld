/* MPS2 with image AN386, a Cortex-M4. It starts from the RAM at 0, which is flash here; of the other RAM, as much as the micro:bit has. */
MEMORY {
  flash (rx) : ORIGIN = 0, LENGTH = 4M
  ram (rw) : ORIGIN = 0x20000000, LENGTH = 16K
}
INCLUDE sections.ld
