/* Starts the interpreter, and starts it anew where it faults: with the registers that it had at the beginning and with
   no capability in a register, so nothing of the script that ran wild is left but memory, which the program itself sets
   up again. It tells the log, and the client that waits for an answer. */
#include "coyotos.h"
#include "plan.h"

enum { FAULTED = 8 };
enum { REGISTERS = 32, FELL = 0x66656c6c };

static coy_word first[REGISTERS]; /* register 0 is the pc */
static char line[] = "interpreter: fault 00 at 00000000, started anew";

static void put_digits(char *at, int count, coy_word value) {
    for (int i = count - 1; i >= 0; i--) {
        at[i] = "0123456789abcdef"[value % 16];
        value /= 16;
    }
}

static void remember(void) {
    for (coy_word i = 0; i < REGISTERS; i++) {
        coy_process_getreg(PROCESS_INTERPRETER, i, &first[i]);
    }
}

static void start(void) {
    for (coy_word i = 0; i < REGISTERS; i++) {
        coy_process_setreg(PROCESS_INTERPRETER, i, first[i]);
        coy_process_setcapreg(PROCESS_INTERPRETER, i, 0);
    }
    coy_process_resume(PROCESS_INTERPRETER);
}

coy_word main(void) {
    remember();
    start();
    for (;;) {
        struct coy_answer fault = coy_receive(0, 0, FAULTED);
        put_digits(line + 19, 2, fault.words[0]);
        put_digits(line + 25, 8, fault.words[1]);
        coy_kernlog_log(KERNLOG, line, sizeof line - 1);
        start();
        coy_invoke((struct coy_call){.target = ENTRY_ANSWERS, .phases = COY_SEND | COY_NO_WAIT,
                                     .words = {FELL, fault.words[0], fault.words[1]}});
    }
}
