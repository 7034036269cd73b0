/* Reads what red wrote, and tries to write. Its capability to the shared page is the one of its space, and that has RO;
   the logger is all else that it can reach. */
#include "coyotos.h"
#include "plan.h"

#define SHARED ((volatile coy_word *)AT_SHARED)

coy_word main(void) {
    while (SHARED[0] == 0) {
        coy_yield();
    }
    /* the kernel takes the string right from the shared page */
    coy_send(ENTRY_MESSAGES, 0, (const void *)(SHARED + 1), 8);
    SHARED[0] = 2;
    return 0;
}
