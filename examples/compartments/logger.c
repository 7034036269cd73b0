/* Logs for both. Who sent is told by the payload of the entry, which a sender holds and can't change. */
#include "coyotos.h"
#include "plan.h"

enum { NAME = 6, TEXT = 32 };

static char line[NAME + TEXT];

static void put_name(const char *name) {
    for (int i = 0; i < NAME; i++) {
        line[i] = name[i];
    }
}

coy_word main(void) {
    for (;;) {
        struct coy_answer came = coy_receive(line + NAME, TEXT, 0);
        if (came.payload == PAYLOAD_MESSAGES_HANDLER_BLUE) {
            coy_kernlog_log(KERNLOG, "blue: fault", 11);
            coy_sysctl_halt(SYSCTL);
        }
        put_name(came.payload == PAYLOAD_MESSAGES_RED ? "red:  " : "blue: ");
        coy_kernlog_log(KERNLOG, line, NAME + came.length);
    }
}
