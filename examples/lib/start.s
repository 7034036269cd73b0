# The first instructions: `main` is called, and a breakpoint ends the process with what it returned in register x10. The
# stack pointer was set by the listing.
    .section .start
    .globl _start
_start:
    call main
    ebreak
