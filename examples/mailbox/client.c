/* Asks for some squares, one after the other, and adds up what it is told. */
#include "mailbox.h"

enum { TIMES = 4 };

coy_word main(void) {
    coy_word sum = 0;
    for (coy_word number = 1; number <= TIMES; number++) {
        box_put(REQUESTS, number);
        sum += box_take(REPLIES);
    }
    return sum;
}
