/* Hears the faults of another process, puts a page of its own where one is missing, and lets the process go on. */
#include "coyotos.h"
#include "plan.h"

enum { PAGES = PAGE_THIRD - PAGE_FIRST + 1, FAULTED = 8 }; /* the pages are in registers one after the other */

static char mapped[] = "mapped 00000000";
static char refused[] = "refused 00000000";

/* The eight digits of a number, behind a word. */
static void put_digits(char *at, coy_word value) {
    for (int i = 7; i >= 0; i--) {
        at[i] = "0123456789abcdef"[value % 16];
        value /= 16;
    }
}

coy_word main(void) {
    coy_word used = 0;
    for (;;) {
        struct coy_answer fault = coy_receive(0, 0, FAULTED);
        coy_word code = fault.words[0], address = fault.words[1];
        if (fault.payload == PAYLOAD_FAULTS_AREA_WRITER && code == COY_INVALID_DATA_REFERENCE && used < PAGES) {
            coy_gpt_setslot(AREA_WRITER, address / 4096 % 16, PAGE_FIRST + used);
            used++;
            put_digits(mapped + 7, address);
            coy_kernlog_log(KERNLOG, mapped, 15);
            coy_process_resume(FAULTED);
        } else {
            /* anything else isn't this pager's business: the process stays as it is */
            put_digits(refused + 8, address);
            coy_kernlog_log(KERNLOG, refused, 16);
        }
    }
}
