/* Reads what the sensor measured, and passes on what is too high. At its end it tries to write to the sensor's page. */
#include "diode.h"

enum { LIMIT = 80 };

coy_word main(void) {
    for (coy_word seen = 0; seen < READING_COUNT; seen++) {
        while (READINGS->count == seen) {
            coy_yield();
        }
        struct reading reading = diode_get(READINGS, seen);
        if (reading.value > LIMIT) {
            diode_put(ALARMS, reading);
        }
    }
    READINGS->count = 0; /* a fault: its slot of that page is read-only */
    return 0;
}
