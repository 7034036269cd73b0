/* Keeps a secret, and has nothing to do with the others. It tells the log whether the secret is still there. */
#include "coyotos.h"
#include "plan.h"

enum { SECRET = 0x5ec2e7, ROUNDS = 3, PATIENCE = 100000 };
#define PAGE ((volatile coy_word *)AT_SECRET)

coy_word main(void) {
    *PAGE = SECRET;
    for (int round = 0; round < ROUNDS; round++) {
        for (volatile int wait = 0; wait < PATIENCE; wait++) {
        }
        if (*PAGE == SECRET) {
            coy_kernlog_log(KERNLOG, "vault: untouched", 16);
        } else {
            coy_kernlog_log(KERNLOG, "vault: broken", 13);
        }
    }
    return 0;
}
