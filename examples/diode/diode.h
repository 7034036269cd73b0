/* A page through which things go one way. One program writes: first the thing, and then how many there are, so who
   reads finds what the number says. Who reads has to keep up, since the writer never hears of it: there is room for the
   last ROOM things alone. */
#ifndef DIODE_H
#define DIODE_H

#include "coyotos.h"
#include "plan.h"

/* how many readings there are */
#ifndef READING_COUNT
#define READING_COUNT 20
#endif

enum { ROOM = 64 };

struct reading {
    coy_word number, value;
};

struct diode {
    volatile coy_word count;
    volatile struct reading readings[ROOM];
};

#define READINGS ((struct diode *)AT_READINGS)
#define ALARMS ((struct diode *)AT_ALARMS)

static inline void diode_put(struct diode *to, struct reading reading) {
    volatile struct reading *at = &to->readings[to->count % ROOM];
    at->number = reading.number;
    at->value = reading.value;
    to->count = to->count + 1;
}

static inline struct reading diode_get(const struct diode *from, coy_word index) {
    const volatile struct reading *at = &from->readings[index % ROOM];
    return (struct reading){at->number, at->value};
}

#endif
