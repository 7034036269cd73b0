/* Stands for the interpreter where only its keeper is asked about: it faults as soon as it is started. */
#include "coyotos.h"

coy_word main(void) {
    coy_fail();
    return 0;
}
