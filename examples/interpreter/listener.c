/* Stands for the client: it only listens to what the keeper tells it. */
#include "coyotos.h"

coy_word main(void) {
    for (;;) {
        coy_receive(0, 0, 0);
    }
}
