/* A box of one word that two programs share. Who puts something in waits until it is empty, and who takes it out waits
   until it is full. Both write to it, so neither can rely on the other to do so only when it is its turn. */
#ifndef MAILBOX_H
#define MAILBOX_H

#include "coyotos.h"
#include "plan.h"

struct box {
    volatile coy_word full, word;
};

#define REQUESTS ((struct box *)AT_REQUESTS)
#define REPLIES ((struct box *)AT_REPLIES)

static inline void box_put(struct box *box, coy_word word) {
    while (box->full) {
        coy_yield();
    }
    box->word = word;
    box->full = 1;
}

static inline coy_word box_take(struct box *box) {
    while (!box->full) {
        coy_yield();
    }
    coy_word word = box->word;
    box->full = 0;
    return word;
}

#endif
