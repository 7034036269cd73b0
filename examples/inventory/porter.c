/* Without a C library: waits for an order, writes into its area, which has no page yet, and tells the board. At its end
   it names a capability register that there isn't, which the kernel refuses. */
#include "coyotos.h"
#include "plan.h"
#include "string.h"

enum { ROOM = 32 };
#define AREA ((volatile coy_word *)AT_AREA)
#define BOARD ((volatile coy_word *)AT_BOARD)

struct order {
    coy_word number;
    char text[ROOM];
};

static volatile coy_cap no_register = 32;

coy_word main(void) {
    struct order order = {0};
    order.number = coy_receive(order.text, ROOM, 0).words[0];
    memmove(order.text + 7, order.text, strlen(order.text) + 1);
    memcpy(order.text, "order: ", 7);
    coy_kernlog_log(KERNLOG, order.text, strlen(order.text));
    AREA[0x3000 / 4] = 6;
    AREA[0x3004 / 4] = 7;
    BOARD[0] = AREA[0x3000 / 4] * AREA[0x3004 / 4];
    return coy_ask(no_register, COY_ASK_KIND, 0, 0, 0).words[0];
}
