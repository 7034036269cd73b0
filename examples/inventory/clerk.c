/* Looks at all that the plan gives it: words, pages with contents, a heap. Then it lets the porter work, sends it an
   order, and puts a page where the porter faults. */
#include <stdio.h>
#include <stdlib.h>
#include <string.h>

#include "libc.h"
#include "plan.h"

enum { FAULTED = 20 };
#define TABLE ((const char *)AT_TABLE)
#define START ((const char *)AT_START)
#define BOARD ((volatile coy_word *)AT_BOARD)
#define SLOTS ((char *)AT_POCKET)

static void show_memory(int count, char **words) {
    for (int i = 0; i < count; i++) {
        printf("word %d: %s\n", i, words[i]);
    }
    printf("%.25s\n", START);
    int wanted = atoi(words[2]);
    const char *line = TABLE;
    for (int i = 0; i < wanted; i++) {
        printf("%.*s\n", (int)strcspn(line, "\n"), line);
        line += strcspn(line, "\n") + 1;
    }
    char *copy = malloc(12000), *more = malloc(12000);
    strcpy(copy, "in the heap");
    printf("%s: %p, and then %p\n", copy, (void *)copy, (void *)more);
}

static const char *kind_of(coy_cap c) {
    static const char *const names[] = {"null", "page", "cappage", "gpt", "window", "local", "endpoint", "entry",
                                        "process", "schedule", "range", "discrim", "kernlog", "sysctl"};
    coy_word kind = 0;
    return coy_kind(c, &kind) == COY_OK ? names[kind] : "nothing that the kernel answers for";
}

static void show_registers(void) {
    for (coy_cap c = 1; c <= SYSCTL; c++) {
        if (c != ENTRY_ORDERS) { /* whatever is asked of an entry is a message */
            printf("register %u: %s\n", c, kind_of(c));
        }
    }
    coy_storecap(SLOTS + 16, SCHEDULE);
    coy_loadcap(SLOTS + 16, FAULTED);
    printf("out of the pocket: %s\n", kind_of(FAULTED));
}

/* Sends an order, and tells whether somebody got it. */
static void order(coy_word number, const char *text) {
    struct coy_answer answer = coy_send(ENTRY_ORDERS, number, text, strlen(text));
    if ((answer.status & 0xff) == COY_WAS_SENT) {
        printf("order %u: sent\n", number);
    } else {
        printf("order %u: code %u\n", number, answer.words[0]);
    }
}

int main(int count, char **words) {
    show_memory(count, words);
    show_registers();
    coy_process_resume(PROCESS_PORTER);
    order(1, "write");
    order(2, "again"); /* nobody gets it: the endpoint's number went up with the first */
    struct coy_answer fault = coy_receive(0, 0, FAULTED);
    printf("fault %u at %08x, payload %u\n", fault.words[0], fault.words[1], fault.payload);
    coy_gpt_setslot(AREA_PORTER, fault.words[1] / 4096 % 16, PAGE_SPARE);
    coy_process_resume(FAULTED);
    while (BOARD[0] == 0) {
        coy_yield();
    }
    printf("on the board: %u\n", BOARD[0]);
    fault = coy_receive(0, 0, FAULTED);
    printf("fault %u at %08x, payload %u\n", fault.words[0], fault.words[1], fault.payload);
    coy_sysctl_halt(SYSCTL);
    return 0;
}
