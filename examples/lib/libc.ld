/* A program with a C library: code and constants from 00000000, data from the next multiple of 64 KiB. The start values
   of data stand twice, where they are changed and behind the constants (tools/listing-of puts them at both places): the
   program copies them when it begins, so it begins anew wherever it is started again. */
ENTRY(_start)
PHDRS {
    code PT_LOAD FLAGS(5);
    constants PT_LOAD FLAGS(4);
    data PT_LOAD FLAGS(6);
    zeros PT_LOAD FLAGS(6);
    attributes 0x70000003;
}
SECTIONS {
    . = 0;
    .text : { KEEP(*(.start)) *(.text .text.*) } :code
    . = ALIGN(0x1000);
    .rodata : {
        *(.rodata .rodata.* .srodata .srodata.*)
        . = ALIGN(8);
        PROVIDE_HIDDEN(__preinit_array_start = .);
        KEEP(*(.preinit_array))
        PROVIDE_HIDDEN(__preinit_array_end = .);
        PROVIDE_HIDDEN(__init_array_start = .);
        KEEP(*(SORT_BY_INIT_PRIORITY(.init_array.*)))
        KEEP(*(.init_array))
        PROVIDE_HIDDEN(__init_array_end = .);
        PROVIDE_HIDDEN(__fini_array_start = .);
        KEEP(*(SORT_BY_INIT_PRIORITY(.fini_array.*)))
        KEEP(*(.fini_array))
        PROVIDE_HIDDEN(__fini_array_end = .);
        . = ALIGN(16);
        __data_source = .;
    } :constants
    . = ALIGN(0x10000);
    /* what each thread has of its own, as errno: there is one thread, and register x4 points to it; the word at the
       beginning lets the linker give it room */
    .tdata : AT(__data_source) {
        __data_start = .;
        LONG(0)
        *(.tdata .tdata.* .tbss .tbss.* .tcommon)
        . = ALIGN(16);
    } :data
    .data : AT(__data_source + SIZEOF(.tdata)) {
        *(.data .data.* .sdata .sdata.*)
        . = ALIGN(16);
        __data_end = .;
    } :data
    .bss : AT(ADDR(.bss)) {
        __bss_start = .;
        *(.sbss .sbss.* .bss .bss.* COMMON)
        . = ALIGN(16);
        __bss_end = .;
    } :zeros
    .riscv.attributes 0 : { *(.riscv.attributes) } :attributes
    /DISCARD/ : { *(.comment) *(.note*) *(.eh_frame*) }
}
