# The first instructions: a stack at the top of the address space, the program, and a breakpoint that ends the process.
    .section .start
    .globl _start
_start:
    lui sp, 0x10
    call primes
    ebreak
