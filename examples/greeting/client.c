/* Asks the server three times, each time with a name, and logs what it answers. */
#include "coyotos.h"
#include "plan.h"

enum { ANSWER_ENTRY = 8, ANSWER_PAYLOAD = 0x77 };

static char answer[64];

/* Sends the name with the entry for the answer, and waits at the endpoint of answers alone: one invocation. */
static struct coy_answer ask(const char *name, coy_word length) {
    return coy_invoke((struct coy_call){.target = ENTRY_REQUESTS,
                                        .phases = COY_SEND | COY_RECEIVE | COY_CLOSED,
                                        .words = {length},
                                        .string = name,
                                        .length = length,
                                        .sent = 1,
                                        .sent_caps = ANSWER_ENTRY,
                                        .buffer = answer,
                                        .bound = sizeof answer,
                                        .from = ID_ANSWERS});
}

/* Returns how many times the server was asked, as the server counts. */
coy_word main(void) {
    static const char names[3][8] = {"Ada", "Grace", "Barbara"};
    static const coy_word lengths[3] = {3, 5, 7};
    coy_word count = 0;
    coy_endpoint_makeentry(ENDPOINT_ANSWERS, ANSWER_PAYLOAD, ANSWER_ENTRY);
    for (coy_word i = 0; i < 3; i++) {
        struct coy_answer came = ask(names[i], lengths[i]);
        coy_kernlog_log(KERNLOG, answer, came.length);
        count = came.words[0];
    }
    return count;
}
