/* Tells the log of each alarm. It alone holds the log. */
#include "diode.h"

static char line[] = "reading 00: 00";

static void put_number(char *at, coy_word value) {
    at[0] = '0' + value / 10 % 10;
    at[1] = '0' + value % 10;
}

coy_word main(void) {
    for (coy_word seen = 0;; seen++) {
        while (ALARMS->count == seen) {
            coy_yield();
        }
        struct reading alarm = diode_get(ALARMS, seen);
        put_number(line + 8, alarm.number);
        put_number(line + 12, alarm.value);
        coy_kernlog_log(KERNLOG, line, sizeof line - 1);
    }
}
