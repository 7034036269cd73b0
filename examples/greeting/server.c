/* Waits for a name, and answers with a greeting by the entry that came with it. It never sees who asks, and can answer
   nobody who didn't send such an entry. */
#include "coyotos.h"

enum { ANSWER = 8, GREETING = 7, NAME = 32 };

/* "Hello, " and the name behind it: a name is accepted right where the answer needs it. */
static char text[GREETING + NAME] = "Hello, ";

coy_word main(void) {
    coy_word count = 0;
    struct coy_answer came = coy_receive(text + GREETING, NAME, ANSWER);
    for (;;) {
        count++;
        /* the answer and the next wait in one invocation: nobody finds the server busy in between */
        came = coy_reply_and_wait(came, (struct coy_call){.target = ANSWER,
                                                          .words = {count},
                                                          .string = text,
                                                          .length = GREETING + came.length,
                                                          .accepted = 1,
                                                          .accepted_caps = ANSWER,
                                                          .buffer = text + GREETING,
                                                          .bound = NAME});
    }
}
