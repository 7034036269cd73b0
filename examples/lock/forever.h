/* Two programs that go inside and come out again forever, one at a time. A source defines ME, 0 or 1, and includes this file.
   The lock is Peterson's, as in lock.h; with ONE_BIT it is one that has no turns (Burns and Lynch): a word for each program
   says whether it wants to be inside, and the first program goes first. */
#ifndef FOREVER_H
#define FOREVER_H
#include "coyotos.h"
#include "plan.h"

enum { OTHER = 1 - ME };

/* Each access is one instruction, and they are performed in the order in which they are written. */
struct shared {
    volatile coy_word wants[2];  /* whether program 0, and program 1, wants to be inside or is */
    volatile coy_word waits;     /* of Peterson's lock: who of the two lets the other go first */
    volatile coy_word inside[2]; /* whether program 0, and program 1, is inside */
};

#define SHARED ((struct shared *)AT_SHARED)

/* A function of its own, so that a question can ask who is in it. */
__attribute__((noinline)) static void enter(void) {
#if !defined ONE_BIT
    SHARED->wants[ME] = 1;
    SHARED->waits = ME;
    while (SHARED->wants[OTHER] && SHARED->waits == ME) {
    }
#elif ME == 0
    SHARED->wants[ME] = 1;
    while (SHARED->wants[OTHER]) {
    }
#else
    for (;;) {
        while (SHARED->wants[OTHER]) {
        }
        SHARED->wants[ME] = 1;
        if (!SHARED->wants[OTHER]) {
            return;
        }
        SHARED->wants[ME] = 0; /* the first one goes first */
    }
#endif
}

coy_word main(void) {
    for (;;) {
        enter();
        SHARED->inside[ME] = 1;
        SHARED->inside[ME] = 0;
        SHARED->wants[ME] = 0;
    }
}

#endif
