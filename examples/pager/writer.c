/* Writes to three pages that it doesn't have yet, reads them back, and then does what it may not do. */
#include "coyotos.h"
#include "plan.h"
#define AREA ((volatile coy_word *)AT_AREA)
enum { PAGES = 3, WORDS = 1024 };

coy_word main(void) {
    coy_word sum = 0;
    for (coy_word page = 0; page < PAGES; page++) {
        AREA[page * WORDS + page] = 0x100 + page; /* the first access to a page: a fault, then a page is there */
    }
    for (coy_word page = 0; page < PAGES; page++) {
        sum += AREA[page * WORDS + page];
    }
    AREA[1] = sum;
    /* its own code may not be written */
    *(volatile coy_word *)(coy_word)main = 0;
    return sum;
}
