/* A source defines MOST, the highest speed that it sets, and includes this file. */
#ifndef CONTROLLER_H
#define CONTROLLER_H

#include "coyotos.h"
#include "plan.h"

/* the page of the plant: two sensors, and the speed of its motor */
struct plant {
    volatile coy_word level, flow, speed;
};

#define PLANT ((struct plant *)AT_PLANT)

coy_word main(void) {
    for (;;) {
        PLANT->speed = 0; /* the motor stands while the sensors are read */
        coy_word speed = PLANT->level, flow = PLANT->flow;
        speed += flow;
        coy_forget(flow);
        if (speed > MOST) {
            speed = MOST;
        }
        PLANT->speed = speed;
        coy_forget(speed);
    }
}

#endif
