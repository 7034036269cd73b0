/* The 64 KiB of a space whose GPT has sixteen slots of one page: code from 00000000, data from 00008000. */
ENTRY(_start)
SECTIONS {
    . = 0;
    .text : { *(.start) *(.text*) *(.rodata*) }
    . = 0x8000;
    .data : { *(.data*) *(.sdata*) *(.sbss*) *(.bss*) *(COMMON) }
}
