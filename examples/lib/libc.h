/* For programs that are linked with picolibc (`program NAME FILE libc` in a plan). */
#ifndef COYOTOS_LIBC_H
#define COYOTOS_LIBC_H

#include "coyotos.h"

/* The capability register of the kernel's log, where all goes that is printed. It is 1, unless the program defines it:
   `coy_cap coy_output = 5;`. A program that holds no log there prints nothing, and its `printf` fails. */
extern coy_cap coy_output;

#endif
