# The first instructions of a program with a C library. The listing has set the stack pointer, and registers x10 to x13
# to the number of words for `main`, where they are, and where the heap begins and ends.
    .section .start
    .globl _start
_start:
    la tp, __data_start
    call coy_begin
    ebreak
