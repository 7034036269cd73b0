/* What no interpreter should give to a script: its memory, and the capability registers of its process. Whoever finds a
   way to run code of his own in the interpreter has this and no more. */
#include "lisp.h"

#include "coyotos.h"

static coy_word word_in(lisp value) {
    double is = number_in(value);
    if (!(0 <= is && is < 4294967296.0)) {
        fail("no word");
    }
    return (coy_word)is;
}

static lisp peek(lisp arguments) {
    return number((double)*(volatile coy_word *)word_in(arguments->first));
}

static lisp poke(lisp arguments) {
    *(volatile coy_word *)word_in(arguments->first) = word_in(arguments->rest->first);
    return arguments->rest->first;
}

/* Calls the instructions at an address. */
static lisp jump(lisp arguments) {
    ((void (*)(void))word_in(arguments->first))();
    return NIL_LISP;
}

/* Invokes a capability register with one word; the code of the kernel's reply, or () where a message was sent. */
static lisp invoke(lisp arguments) {
    struct coy_answer answer = coy_invoke((struct coy_call){.target = word_in(arguments->first),
                                                            .phases = COY_SEND | COY_NO_WAIT,
                                                            .words = {word_in(arguments->rest->first)}});
    return (answer.status & 0xff) == COY_REPLIED ? number((double)answer.words[0]) : NIL_LISP;
}

void define_machine(void) {
    define("peek", peek, 1, 1);
    define("poke", poke, 2, 2);
    define("jump", jump, 1, 1);
    define("invoke", invoke, 2, 2);
}
