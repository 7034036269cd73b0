/* Writes to the page that it shares with blue. */
#include "coyotos.h"
#include "plan.h"

#define SHARED ((volatile coy_word *)AT_SHARED)

coy_word main(void) {
    static const char text[] __attribute__((aligned(4))) = "from red";
    const coy_word *words = (const coy_word *)(const void *)text;
    SHARED[1] = words[0];
    SHARED[2] = words[1];
    SHARED[0] = 1; /* blue waits for this */
    coy_send(ENTRY_MESSAGES, 0, "wrote", 5);
    return 0;
}
