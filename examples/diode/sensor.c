/* Measures, and writes what it measured. It holds its page and nothing else, and reads nothing that another writes. */
#include "diode.h"

/* In the place of a device: values that go up and down between 0 and 99. */
static coy_word measure(coy_word number) { return (number * 37 + 11) % 100; }

coy_word main(void) {
    for (coy_word number = 1; number <= READING_COUNT; number++) {
        diode_put(READINGS, (struct reading){number, measure(number)});
        coy_yield();
    }
    return READING_COUNT;
}
