/* An interpreter as a server: a message is a script and a number of steps, and is answered with the value of the
   script's last expression, by the entry that came with it. The interpreter holds nothing else. */
#include "lisp.h"

#include <stdio.h>
#include <string.h>

#include "coyotos.h"

enum { ANSWER = 8, SCRIPT = 4000, TEXT = 2000 };

static char script[SCRIPT + 1], text[TEXT];

/* What a script comes to, as a text; its length. */
static size_t run(unsigned long steps) {
    jmp_buf here;
    const char *at = script;
    lisp volatile value = NIL_LISP;
    steps_left = steps_given = steps;
    handler = &here;
    if (setjmp(here) != 0) {
        return (size_t)snprintf(text, sizeof text, "error: %s", message);
    }
    for (lisp next = read_next(&at); next != NULL; next = read_next(&at)) {
        value = evaluate(next, NIL_LISP);
    }
    return write_value(value, text, sizeof text, true);
}

int main(void) {
    jmp_buf here;
    handler = &here;
    if (setjmp(here) != 0) {
        return 1;
    }
    define_forms();
    define_numbers();
    define_lists();
    define_strings();
    define_machine();
    struct coy_answer came = coy_receive(script, SCRIPT, ANSWER);
    for (;;) {
        script[came.length] = 0;
        size_t length = run(came.words[1]);
        collect();
        came = coy_reply_and_wait(came, (struct coy_call){.target = ANSWER,
                                                          .words = {came.words[0]},
                                                          .string = text,
                                                          .length = length,
                                                          .accepted = 1,
                                                          .accepted_caps = ANSWER,
                                                          .buffer = script,
                                                          .bound = SCRIPT});
    }
}
