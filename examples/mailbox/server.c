/* Answers each request with its square. Of a number that is too high it tells 0, so that nobody keeps it busy. */
#include "mailbox.h"

enum { LIMIT = 100 };

/* The sum of the first odd numbers: there is no instruction that multiplies. */
static coy_word square(coy_word number) {
    coy_word sum = 0;
    for (coy_word i = 0; i < number; i++) {
        sum += 2 * i + 1;
    }
    return sum;
}

coy_word main(void) {
    for (;;) {
        coy_word number = box_take(REQUESTS);
        box_put(REPLIES, number > LIMIT ? 0 : square(number));
    }
}
