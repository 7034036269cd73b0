/* Peterson's lock for two programs that share a page, and what each of them does with it. A source defines ME, 0 or 1,
   and includes this file. With MISTAKEN the two stores of the entry are made in the other order. */
#ifndef LOCK_H
#define LOCK_H
#include "coyotos.h"
#include "plan.h"

enum { OTHER = 1 - ME, TIMES = 3 };

/* Each access is one instruction, and they are performed in the order in which they are written. */
struct shared {
    volatile coy_word wants[2]; /* whether program 0, and program 1, wants to be inside or is */
    volatile coy_word waits;    /* who of the two lets the other go first */
    volatile coy_word count;    /* what the lock guards */
};

#define SHARED ((struct shared *)AT_SHARED)

static inline void enter(void) {
#ifdef MISTAKEN
    SHARED->waits = ME;
    SHARED->wants[ME] = 1;
#else
    SHARED->wants[ME] = 1;
    SHARED->waits = ME;
#endif
    while (SHARED->wants[OTHER] && SHARED->waits == ME) {
    }
}

static inline void leave(void) { SHARED->wants[ME] = 0; }

coy_word main(void) {
    for (int i = 0; i < TIMES; i++) {
        enter();
        coy_word seen = SHARED->count;
        SHARED->count = seen + 1; /* what another wrote since is lost */
        leave();
    }
    return TIMES;
}

#endif
