/* Where things go on either board: what is constant to the flash, what is not to the RAM, and the stack downwards from its end. */
SECTIONS {
  .text : { KEEP(*(.vectors)) *(.text .text.* .rodata .rodata.*) } > flash
  .ARM.exidx : { *(.ARM.exidx .ARM.exidx.*) } > flash
  .data : ALIGN(4) { data_start = .; *(.data .data.* .got .got.*) . = ALIGN(4); data_end = .; } > ram AT > flash
  .bss (NOLOAD) : ALIGN(4) { bss_start = .; *(.bss .bss.* COMMON) . = ALIGN(4); bss_end = .; } > ram
  data_load = LOADADDR(.data);
  stack_end = ORIGIN(ram) + LENGTH(ram);
}
ENTRY(reset)
