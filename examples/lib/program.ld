/* A space of 1 MiB as tools/listing-of makes it: 64 KiB of code and constants from 00000000, 64 KiB of data from
   00010000. Both begin at a page of their own. */
ENTRY(_start)
SECTIONS {
    . = 0;
    .text : { KEEP(*(.start)) *(.text*) *(.rodata*) *(.srodata*) }
    . = 0x10000;
    .data : { *(.data*) *(.sdata*) }
    .bss : { *(.sbss*) *(.bss*) *(COMMON) }
    /DISCARD/ : { *(.comment) *(.note*) *(.eh_frame*) *(.riscv.attributes) }
}
