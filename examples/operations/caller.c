/* Calls each function of coyotos.h on things of its own, and compares what is replied with what docs/machine.md says.
   It halts the machine where all comparisons held. The number of one that didn't is logged, and the program fails. */
#include "coyotos.h"
#include "plan.h"

enum {
    PAGE = PAGE_ONE, OTHER_PAGE = PAGE_TWO, CAPPAGE = CAPPAGE_CAPABILITIES, GPT = AREA_CALLER, OPAQUE = AREA_CALLER_2,
    ENDPOINT = ENDPOINT_TRIED, PROCESS = PROCESS_OTHER, SELF = PROCESS_CALLER, RESULT = 20, SECOND = 21
};
#define PAGE_WORDS ((volatile coy_word *)AT_ONE)
#define OTHER_WORDS ((volatile coy_word *)AT_TWO)
#define SLOTS ((char *)AT_CAPABILITIES)
#define AREA_WORDS ((volatile coy_word *)AT_AREA)

static coy_word held, tried;

static void expect(int truth) {
    tried++;
    if (truth) {
        held++;
    } else {
        char text[2] = {(char)('0' + tried / 10 % 10), (char)('0' + tried % 10)};
        coy_kernlog_log(KERNLOG, text, 2);
    }
}

/* The kind of what a register holds, as discrim tells it. */
static coy_word kind_of(coy_cap c) {
    coy_word kind = 99, harmless;
    coy_discrim_classify(DISCRIM, c, &kind, &harmless);
    return kind;
}

static void memory(void) {
    coy_word a = 99, b = 99;
    expect(coy_kind(PAGE, &a) == COY_OK && a == COY_PAGE);                                                 /* 1 */
    expect(coy_reduce(PAGE, COY_RO | COY_NC, RESULT) == COY_OK);
    expect(coy_getrestr(RESULT, &a) == COY_OK && a == (COY_RO | COY_NC));
    expect(coy_reduce(PAGE, 32, RESULT) == COY_REQUEST_ERROR);
    expect(coy_setguard(PAGE, 13, 5, RESULT) == COY_OK);                                                   /* 5 */
    expect(coy_getguard(RESULT, &a, &b) == COY_OK && a == 13 && b == 5);
    expect(coy_setguard(OPAQUE, 16, 0, RESULT) == COY_NO_ACCESS);
    expect(coy_setguard(PAGE, 11, 0, RESULT) == COY_REQUEST_ERROR);
}

static void pages(void) {
    PAGE_WORDS[3] = 7;
    expect(coy_page_copy(OTHER_PAGE, PAGE) == COY_OK && OTHER_WORDS[3] == 7);                              /* 9 */
    expect(coy_page_clear(PAGE) == COY_OK && PAGE_WORDS[3] == 0);
    coy_reduce(PAGE, COY_RO, RESULT);
    expect(coy_page_clear(RESULT) == COY_NO_ACCESS);
    expect(coy_page_copy(PAGE, CAPPAGE) == COY_REQUEST_ERROR);
    expect(coy_cappage_set(CAPPAGE, 3, SCHEDULE) == COY_OK);
    expect(coy_cappage_get(CAPPAGE, 3, RESULT) == COY_OK && kind_of(RESULT) == COY_SCHEDULE);
    expect(coy_cappage_get(CAPPAGE, 256, RESULT) == COY_REQUEST_ERROR);                                    /* 15 */
    coy_loadcap(SLOTS + 3 * 16, SECOND);
    expect(kind_of(SECOND) == COY_SCHEDULE);
    coy_storecap(SLOTS + 4 * 16, ENDPOINT);
    expect(coy_cappage_get(CAPPAGE, 4, RESULT) == COY_OK && kind_of(RESULT) == COY_ENDPOINT);
    expect(coy_cappage_clear(CAPPAGE) == COY_OK);
    coy_loadcap(SLOTS + 3 * 16, SECOND);
    expect(kind_of(SECOND) == COY_NULL);
    coy_copycap(KERNLOG, SECOND);
    expect(kind_of(SECOND) == COY_KERNLOG);                                                                /* 20 */
}

static void gpts(void) {
    coy_word a = 99, b = 99;
    expect(coy_gpt_setslot(GPT, 0, OTHER_PAGE) == COY_OK && AREA_WORDS[3] == 7);
    expect(coy_gpt_getslot(GPT, 0, RESULT) == COY_OK && kind_of(RESULT) == COY_PAGE);
    expect(coy_gpt_getslot(OPAQUE, 0, RESULT) == COY_NO_ACCESS);
    expect(coy_gpt_setslot(GPT, 16, PAGE) == COY_REQUEST_ERROR);
    expect(coy_gpt_getheader(GPT, &a, &b) == COY_OK && a == 12 && b == 0);                                 /* 25 */
    expect(coy_gpt_setheader(GPT, 12, COY_BACKGROUND) == COY_OK);
    expect(coy_gpt_getheader(GPT, &a, &b) == COY_OK && a == 12 && b == COY_BACKGROUND);
    coy_gpt_setslot(GPT, COY_BACKGROUND_SLOT, OTHER_PAGE);
    expect(coy_gpt_setwindow(GPT, 1, 12, 0, COY_RO, 0) == COY_OK && AREA_WORDS[1024 + 3] == 7);
    expect(coy_gpt_setlocalwindow(GPT, 2, 0, 12, 0, COY_NX, 0) == COY_OK && AREA_WORDS[2048 + 3] == 7);
    expect(coy_gpt_setwindow(GPT, 1, 12, 0, 0, 5) == COY_REQUEST_ERROR);                                   /* 30 */
    expect(coy_gpt_getslot(GPT, 2, RESULT) == COY_OK && kind_of(RESULT) == COY_LOCAL_WINDOW);
}

static void endpoints(void) {
    coy_word id = 99, matches = 99, payload = 99;
    expect(coy_endpoint_getid(ENDPOINT, &id, &matches, &payload) == COY_OK && id == ID_TRIED && matches == 0 && payload == 0);
    expect(coy_endpoint_setid(ENDPOINT, 0xee) == COY_OK && coy_endpoint_setmatch(ENDPOINT, 1) == COY_OK);
    expect(coy_endpoint_setpayload(ENDPOINT, 5) == COY_OK);
    expect(coy_endpoint_getid(ENDPOINT, &id, &matches, &payload) == COY_OK && id == 0xee && matches == 1 && payload == 5);
    expect(coy_endpoint_setmatch(ENDPOINT, 2) == COY_REQUEST_ERROR);                                       /* 36 */
    expect(coy_endpoint_setrecipient(ENDPOINT, PAGE) == COY_REQUEST_ERROR);
    expect(coy_endpoint_setrecipient(ENDPOINT, PROCESS) == COY_OK);
    expect(coy_endpoint_makeentry(ENDPOINT, 4, RESULT) == COY_OK && kind_of(RESULT) == COY_ENTRY);
    /* the endpoint wants payload 5: nobody is there */
    expect(coy_send(RESULT, 0, 0, 0).words[0] == COY_INVALID_CAP);                                         /* 40 */
}

static void processes(void) {
    coy_word a = 99, b = 99, c = 99;
    expect(coy_process_setreg(PROCESS, 7, 70) == COY_OK);
    expect(coy_process_getreg(PROCESS, 7, &a) == COY_OK && a == 70);
    expect(coy_process_setreg(PROCESS, 0, 2) == COY_REQUEST_ERROR);
    expect(coy_process_setcapreg(PROCESS, 5, DISCRIM) == COY_OK);
    expect(coy_process_getcapreg(PROCESS, 5, RESULT) == COY_OK && kind_of(RESULT) == COY_DISCRIM);         /* 45 */
    expect(coy_process_setcapreg(PROCESS, 0, DISCRIM) == COY_REQUEST_ERROR);
    expect(coy_process_getslot(PROCESS, COY_SPACE_SLOT, RESULT) == COY_OK && kind_of(RESULT) == COY_GPT);
    expect(coy_process_setslot(PROCESS, COY_SCHEDULE_SLOT, SCHEDULE) == COY_OK);
    expect(coy_process_getstate(PROCESS, &a, &b, &c) == COY_OK && a == COY_FAULTED && b == COY_STOPPED && c == 0);
    expect(coy_process_stop(PROCESS) == COY_REQUEST_ERROR);                                                /* 50 */
    expect(coy_process_resume(PROCESS) == COY_OK);
    expect(coy_process_getstate(PROCESS, &a, &b, &c) == COY_OK && a == COY_RUNNING);
    coy_yield(); /* the other process runs until its breakpoint */
    expect(coy_process_getstate(PROCESS, &a, &b, &c) == COY_OK && a == COY_FAULTED && b == COY_BREAKPOINT && c == 4);
    expect(coy_process_getstate(SELF, &a, &b, &c) == COY_OK && a == COY_RUNNING);
}

static void others(void) {
    coy_word a = 99, b = 99;
    expect(coy_schedule_priority(SCHEDULE, &a) == COY_OK && a == 3);                                       /* 55 */
    expect(coy_schedule_lower(SCHEDULE, 4, RESULT) == COY_REQUEST_ERROR);
    expect(coy_schedule_lower(SCHEDULE, 2, RESULT) == COY_OK && coy_schedule_priority(RESULT, &a) == COY_OK && a == 2);
    expect(coy_discrim_classify(DISCRIM, DISCRIM, &a, &b) == COY_OK && a == COY_DISCRIM && b == 1);
    expect(coy_range_getcap(RANGE, COY_ENDPOINT, 0, RESULT) == COY_OK && kind_of(RESULT) == COY_ENDPOINT);
    expect(coy_range_getcap(RANGE, COY_ENDPOINT, 1, RESULT) == COY_REQUEST_ERROR);                         /* 60 */
    expect(coy_range_destroy(RANGE, KERNLOG) == COY_REQUEST_ERROR);
    expect(coy_range_destroy(RANGE, ENDPOINT) == COY_OK && kind_of(ENDPOINT) == COY_NULL);
    expect(coy_kind(ENDPOINT, &a) == COY_INVALID_CAP);
    expect(coy_ask(DISCRIM, 9, 0, 0, 0).words[0] == COY_UNKNOWN_REQUEST);
    expect(coy_kernlog_log(KERNLOG, "", 0) == COY_REQUEST_ERROR);                                              /* 65 */
    expect(coy_kernlog_log(KERNLOG, "done", 4) == COY_OK);
}

coy_word main(void) {
    memory();
    pages();
    gpts();
    endpoints();
    processes();
    others();
    if (held != tried) {
        coy_fail();
    }
    coy_sysctl_halt(SYSCTL);
    return held;
}
