/* The kernel's system calls and operations for C programs on RV32I, as docs/machine.md tells them: one inline
   function for each system call and for each row of the kernel's operations. The numbers stand here once; those of
   the operations are the rows of `operations/specs/Memory` and `Control`. Nothing of this file is proved.

   A capability is named by the number of the register that holds it, 0 to 31; register 0 is always null. A function
   that replies a capability puts it into the register named last. A number over 31 is refused: by the compiler where it
   sees the number, else by the kernel, as the fault MalformedSyscall. */
#ifndef COYOTOS_H
#define COYOTOS_H

typedef unsigned int coy_word;
typedef coy_word coy_cap;

/* ---- numbers */

/* system calls, in x17 */
enum { COY_INVOKE = 0, COY_LOADCAP = 1, COY_STORECAP = 2, COY_COPYCAP = 3, COY_YIELD = 4 };

/* bits of x10 of an invocation, next to the capability register in bits 0 to 4 */
enum {
    COY_SEND = 1 << 5,    /* there is a send phase */
    COY_RECEIVE = 1 << 6, /* there is a receive phase */
    COY_NO_WAIT = 1 << 7, /* answer 6 instead of waiting for a busy receiver */
    COY_CLOSED = 1 << 8,  /* accept from one endpoint alone */
    COY_SENT_SHIFT = 16,  /* how many capabilities are sent, 0 to 4 */
    COY_ACCEPTED_SHIFT = 19
};

/* what x10 is afterwards: 0 sent, 1 a message came, 2 the kernel replied; with these parts above */
enum { COY_WAS_SENT = 0, COY_CAME = 1, COY_REPLIED = 2, COY_CUT = 1 << 8, COY_CAME_SHIFT = 16 };

/* reply codes */
enum {
    COY_OK = 0, COY_INVALID_CAP = 1, COY_UNKNOWN_REQUEST = 2, COY_NO_ACCESS = 3, COY_REQUEST_ERROR = 4,
    COY_COUNT_SPENT = 5, COY_WOULD_BLOCK = 6
};

/* kinds of capabilities */
enum {
    COY_NULL = 0, COY_PAGE = 1, COY_CAPPAGE = 2, COY_GPT = 3, COY_WINDOW = 4, COY_LOCAL_WINDOW = 5, COY_ENDPOINT = 6,
    COY_ENTRY = 7, COY_PROCESS = 8, COY_SCHEDULE = 9, COY_RANGE = 10, COY_DISCRIM = 11, COY_KERNLOG = 12,
    COY_SYSCTL = 13
};

/* restrictions of memory capabilities */
enum { COY_RO = 1, COY_NX = 2, COY_WK = 4, COY_OP = 8, COY_NC = 16 };

/* flags of a GPT's header */
enum { COY_HANDLER = 1, COY_BACKGROUND = 2, COY_HANDLER_SLOT = 15, COY_BACKGROUND_SLOT = 14 };

/* slots and states of a process */
enum { COY_SPACE_SLOT = 0, COY_SCHEDULE_SLOT = 1, COY_FAULT_HANDLER_SLOT = 2 };
enum { COY_RUNNING = 0, COY_RECEIVING = 1, COY_FAULTED = 2 };

/* fault codes */
enum {
    COY_STOPPED = 0, COY_INVALID_DATA_REFERENCE = 1, COY_INVALID_CAP_REFERENCE = 2, COY_DATA_ACCESS_TYPE_ERROR = 3,
    COY_CAP_ACCESS_TYPE_ERROR = 4, COY_ACCESS_VIOLATION = 5, COY_MALFORMED_SPACE = 6, COY_NO_SCHEDULE = 7,
    COY_MALFORMED_SYSCALL = 8, COY_BAD_ALIGN = 9, COY_BAD_OPCODE = 10, COY_BREAKPOINT = 11
};

/* requests, the first word of an operation */
enum { COY_ASK_KIND = 0, COY_REDUCE = 1, COY_GETGUARD = 2, COY_SETGUARD = 3, COY_GETRESTR = 4 };
enum { COY_PAGE_CLEAR = 8, COY_PAGE_COPY = 9 };
enum { COY_CAPPAGE_CLEAR = 8, COY_CAPPAGE_GET = 9, COY_CAPPAGE_SET = 10 };
enum {
    COY_GPT_GETSLOT = 8, COY_GPT_SETSLOT = 9, COY_GPT_GETHEADER = 10, COY_GPT_SETHEADER = 11, COY_GPT_SETWINDOW = 12
};
enum {
    COY_ENDPOINT_SETRECIPIENT = 8, COY_ENDPOINT_GETID = 9, COY_ENDPOINT_SETID = 10, COY_ENDPOINT_SETMATCH = 11,
    COY_ENDPOINT_MAKEENTRY = 12, COY_ENDPOINT_SETPAYLOAD = 13
};
enum {
    COY_PROCESS_GETREG = 8, COY_PROCESS_SETREG = 9, COY_PROCESS_GETCAPREG = 10, COY_PROCESS_SETCAPREG = 11,
    COY_PROCESS_GETSLOT = 12, COY_PROCESS_SETSLOT = 13, COY_PROCESS_GETSTATE = 14, COY_PROCESS_RESUME = 15,
    COY_PROCESS_STOP = 16
};
enum { COY_SCHEDULE_PRIORITY = 8, COY_SCHEDULE_LOWER = 9 };
enum { COY_RANGE_GETCAP = 8, COY_RANGE_DESTROY = 9 };
enum { COY_DISCRIM_CLASSIFY = 8 };
enum { COY_KERNLOG_LOG = 8 };
enum { COY_SYSCTL_HALT = 8 };

/* ---- the invocation */

/* What is asked; what isn't named is zero. */
struct coy_call {
    coy_cap target;             /* the capability invoked by the send phase */
    coy_word phases;            /* COY_SEND, COY_RECEIVE, COY_NO_WAIT, COY_CLOSED */
    coy_word words[4];          /* w1 to w4 */
    const void *string;         /* the string sent, */
    coy_word length;            /* and its length, at most 65,536 */
    coy_word sent;              /* how many capabilities are sent, 0 to 4, */
    coy_word sent_caps;         /* and their registers, one a byte from the lowest on */
    coy_word accepted;          /* how many are accepted, 0 to 4, */
    coy_word accepted_caps;     /* and into which registers */
    void *buffer;               /* where a string is accepted, */
    coy_word bound;             /* and how many bytes at most, up to 65,536 */
    coy_word from;              /* the id of the one endpoint to accept from, with COY_CLOSED */
};

/* What the registers are afterwards. */
struct coy_answer {
    coy_word status;   /* COY_WAS_SENT, COY_CAME or COY_REPLIED in the low byte; COY_CUT; capabilities that came */
    coy_word words[4]; /* a message's words; of a kernel's reply the code, then the result */
    coy_word payload;  /* of the entry by which a message came */
    coy_word length;   /* how many bytes of a string came */
    coy_word endpoint; /* the id of the endpoint at which a message came */
};

enum { COY_LAST_REGISTER = 31, COY_MOST_CAPS = 4 };
#define COY_MALFORMED 0xffffffffu /* no x10 of an invocation: the kernel refuses it */

/* The registers of capabilities, one a byte. One over 31 makes the invocation malformed that names them. */
static inline coy_word coy_caps(coy_cap first, coy_cap second, coy_cap third, coy_cap fourth) {
    return (first | second | third | fourth) > COY_LAST_REGISTER ? COY_MALFORMED
                                                                 : first | second << 8 | third << 16 | fourth << 24;
}

/* Where the compiler sees that a call can't be right, it says so. */
void coy_malformed(void)
    __attribute__((error("a capability register is 0 to 31, phases are COY_SEND, COY_RECEIVE, COY_NO_WAIT and "
                         "COY_CLOSED, and at most 4 capabilities are sent or accepted")));

/* Register x10 of an invocation. What doesn't fit its place there would change another part, so it is refused: the
   program faults with MalformedSyscall at this call. */
static inline __attribute__((always_inline)) coy_word coy_head(struct coy_call call) {
    int wrong = call.target > COY_LAST_REGISTER || call.sent > COY_MOST_CAPS || call.accepted > COY_MOST_CAPS
                || (call.phases & ~(coy_word)(COY_SEND | COY_RECEIVE | COY_NO_WAIT | COY_CLOSED)) != 0;
    if (__builtin_constant_p(wrong) && wrong) {
        coy_malformed();
    }
    return wrong ? COY_MALFORMED
                 : call.target | call.phases | call.sent << COY_SENT_SHIFT | call.accepted << COY_ACCEPTED_SHIFT;
}

static inline __attribute__((always_inline)) struct coy_answer coy_invoke(struct coy_call call) {
    register coy_word x10 __asm__("a0") = coy_head(call);
    register coy_word x11 __asm__("a1") = call.words[0];
    register coy_word x12 __asm__("a2") = call.words[1];
    register coy_word x13 __asm__("a3") = call.words[2];
    register coy_word x14 __asm__("a4") = call.words[3];
    register coy_word x15 __asm__("a5") = (coy_word)call.string;
    register coy_word x16 __asm__("a6") = call.length;
    register coy_word x17 __asm__("a7") = COY_INVOKE;
    register coy_word x18 __asm__("s2") = call.sent_caps;
    register coy_word x19 __asm__("s3") = call.accepted_caps;
    register coy_word x20 __asm__("s4") = (coy_word)call.buffer;
    register coy_word x21 __asm__("s5") = call.bound;
    register coy_word x22 __asm__("s6") = call.from;
    __asm__ volatile("ecall"
                     : "+r"(x10), "+r"(x11), "+r"(x12), "+r"(x13), "+r"(x14), "+r"(x15), "+r"(x16), "+r"(x22)
                     : "r"(x17), "r"(x18), "r"(x19), "r"(x20), "r"(x21)
                     : "memory");
    return (struct coy_answer){x10, {x11, x12, x13, x14}, x15, x16, x22};
}

/* How many capabilities came. */
static inline coy_word coy_came(struct coy_answer answer) { return answer.status >> COY_CAME_SHIFT; }

/* Sends words and a string, and goes on. */
static inline struct coy_answer coy_send(coy_cap entry, coy_word w1, const void *string, coy_word length) {
    return coy_invoke((struct coy_call){
        .target = entry, .phases = COY_SEND, .words = {w1}, .string = string, .length = length});
}

/* Waits for a message at any endpoint, with a string into the buffer and up to one capability into a register. */
static inline struct coy_answer coy_receive(void *buffer, coy_word bound, coy_cap into) {
    return coy_invoke((struct coy_call){
        .phases = COY_RECEIVE, .accepted = into != 0, .accepted_caps = coy_caps(into, 0, 0, 0), .buffer = buffer,
        .bound = bound});
}

/* The loop of a server: answers the message that came last, and waits for the next one, in one invocation where that can
   be. The call says what goes to whom and what is accepted; its phases are said here.

   No client can hold the server up. It waits for nobody: an answer to who isn't listening is dropped, as one to who isn't
   there. Where no capability came with the message, nobody is answered: what the register still holds came with another
   one. And where the kernel replied in place of a message, as it does of whatever is no entry, the server waits in an
   invocation of its own: after the reply of a kernel there is no receive phase. */
static inline __attribute__((always_inline)) struct coy_answer coy_reply_and_wait(struct coy_answer last,
                                                                                  struct coy_call call) {
    coy_word closed = call.phases & COY_CLOSED;
    if (coy_came(last) != 0) {
        call.phases = COY_SEND | COY_RECEIVE | COY_NO_WAIT | closed;
        struct coy_answer came = coy_invoke(call);
        if ((came.status & 0xff) == COY_CAME) {
            return came;
        }
    }
    call.phases = COY_RECEIVE | closed;
    return coy_invoke(call);
}

/* ---- what must not be */

/* Ends the program with the fault BadOpcode, at a word that is no instruction: `never faulted P BadOpcode` in a plan asks
   whether P can come to that. No compiler leaves it out or makes another fault of it, as it may of a store to address 0. */
static inline __attribute__((noreturn, always_inline)) void coy_fail(void) {
    for (;;) {
        __asm__ volatile(".word 0" : : : "memory");
    }
}

/* Makes a variable 0 that isn't needed any more, in the register in which it is. Where all states are gone through, each
   value of a register makes states of its own, so a program that forgets what it is done with has fewer. */
#define coy_forget(variable) __asm__ volatile("li %0, 0" : "+r"(variable))

/* ---- the other system calls */

static inline void coy_loadcap(const void *address, coy_cap into) {
    register coy_word x10 __asm__("a0") = (coy_word)address;
    register coy_word x11 __asm__("a1") = into;
    register coy_word x17 __asm__("a7") = COY_LOADCAP;
    __asm__ volatile("ecall" : : "r"(x10), "r"(x11), "r"(x17) : "memory");
}

static inline void coy_storecap(void *address, coy_cap from) {
    register coy_word x10 __asm__("a0") = (coy_word)address;
    register coy_word x11 __asm__("a1") = from;
    register coy_word x17 __asm__("a7") = COY_STORECAP;
    __asm__ volatile("ecall" : : "r"(x10), "r"(x11), "r"(x17) : "memory");
}

static inline void coy_copycap(coy_cap from, coy_cap to) {
    register coy_word x10 __asm__("a0") = from;
    register coy_word x11 __asm__("a1") = to;
    register coy_word x17 __asm__("a7") = COY_COPYCAP;
    __asm__ volatile("ecall" : : "r"(x10), "r"(x11), "r"(x17) : "memory");
}

static inline void coy_yield(void) {
    register coy_word x17 __asm__("a7") = COY_YIELD;
    __asm__ volatile("ecall" : : "r"(x17) : "memory");
}

/* ---- the forms of an operation */

/* Words alone. */
static inline struct coy_answer coy_ask(coy_cap c, coy_word request, coy_word w2, coy_word w3, coy_word w4) {
    return coy_invoke((struct coy_call){.target = c, .phases = COY_SEND, .words = {request, w2, w3, w4}});
}

/* One that replies a capability. */
static inline coy_word coy_get(coy_cap c, coy_word request, coy_word w2, coy_word w3, coy_cap into) {
    return coy_invoke((struct coy_call){.target = c, .phases = COY_SEND, .words = {request, w2, w3},
                                        .accepted = 1, .accepted_caps = coy_caps(into, 0, 0, 0)}).words[0];
}

/* One to which a capability is sent. */
static inline struct coy_answer coy_give(coy_cap c, coy_word request, coy_word w2, coy_cap sent) {
    return coy_invoke((struct coy_call){.target = c, .phases = COY_SEND, .words = {request, w2},
                                        .sent = 1, .sent_caps = coy_caps(sent, 0, 0, 0)});
}

/* Puts the first result where it is wanted; the code. */
static inline coy_word coy_first(struct coy_answer answer, coy_word *result) {
    *result = answer.words[1];
    return answer.words[0];
}

/* ---- operations: each returns the code of the reply */

/* all kinds but null and entry */
static inline coy_word coy_kind(coy_cap c, coy_word *kind) {
    return coy_first(coy_ask(c, COY_ASK_KIND, 0, 0, 0), kind);
}

/* memory kinds */
static inline coy_word coy_reduce(coy_cap c, coy_word restrictions, coy_cap into) {
    return coy_get(c, COY_REDUCE, restrictions, 0, into);
}
static inline coy_word coy_getguard(coy_cap c, coy_word *l2g, coy_word *match) {
    struct coy_answer answer = coy_ask(c, COY_GETGUARD, 0, 0, 0);
    *match = answer.words[2];
    return coy_first(answer, l2g);
}
static inline coy_word coy_setguard(coy_cap c, coy_word l2g, coy_word match, coy_cap into) {
    return coy_get(c, COY_SETGUARD, l2g, match, into);
}
static inline coy_word coy_getrestr(coy_cap c, coy_word *restrictions) {
    return coy_first(coy_ask(c, COY_GETRESTR, 0, 0, 0), restrictions);
}

/* pages */
static inline coy_word coy_page_clear(coy_cap page) { return coy_ask(page, COY_PAGE_CLEAR, 0, 0, 0).words[0]; }
static inline coy_word coy_page_copy(coy_cap to, coy_cap from) { return coy_give(to, COY_PAGE_COPY, 0, from).words[0]; }

/* capability pages */
static inline coy_word coy_cappage_clear(coy_cap page) { return coy_ask(page, COY_CAPPAGE_CLEAR, 0, 0, 0).words[0]; }
static inline coy_word coy_cappage_get(coy_cap page, coy_word slot, coy_cap into) {
    return coy_get(page, COY_CAPPAGE_GET, slot, 0, into);
}
static inline coy_word coy_cappage_set(coy_cap page, coy_word slot, coy_cap sent) {
    return coy_give(page, COY_CAPPAGE_SET, slot, sent).words[0];
}

/* GPTs */
static inline coy_word coy_gpt_getslot(coy_cap gpt, coy_word slot, coy_cap into) {
    return coy_get(gpt, COY_GPT_GETSLOT, slot, 0, into);
}
static inline coy_word coy_gpt_setslot(coy_cap gpt, coy_word slot, coy_cap sent) {
    return coy_give(gpt, COY_GPT_SETSLOT, slot, sent).words[0];
}
static inline coy_word coy_gpt_getheader(coy_cap gpt, coy_word *l2v, coy_word *flags) {
    struct coy_answer answer = coy_ask(gpt, COY_GPT_GETHEADER, 0, 0, 0);
    *flags = answer.words[2];
    return coy_first(answer, l2v);
}
static inline coy_word coy_gpt_setheader(coy_cap gpt, coy_word l2v, coy_word flags) {
    return coy_ask(gpt, COY_GPT_SETHEADER, l2v, flags, 0).words[0];
}
/* The slot becomes a window to the background. */
static inline coy_word coy_gpt_setwindow(coy_cap gpt, coy_word slot, coy_word l2g, coy_word match, coy_word restrictions,
                                         coy_word offset) {
    return coy_ask(gpt, COY_GPT_SETWINDOW, slot | l2g << 9 | restrictions << 15, match, offset).words[0];
}
/* The slot becomes a window through another slot of the same GPT. */
static inline coy_word coy_gpt_setlocalwindow(coy_cap gpt, coy_word slot, coy_word through, coy_word l2g, coy_word match,
                                              coy_word restrictions, coy_word offset) {
    return coy_ask(gpt, COY_GPT_SETWINDOW, slot | 1 << 4 | through << 5 | l2g << 9 | restrictions << 15, match,
                   offset).words[0];
}

/* endpoints */
static inline coy_word coy_endpoint_setrecipient(coy_cap endpoint, coy_cap process) {
    return coy_give(endpoint, COY_ENDPOINT_SETRECIPIENT, 0, process).words[0];
}
static inline coy_word coy_endpoint_getid(coy_cap endpoint, coy_word *id, coy_word *matches, coy_word *payload) {
    struct coy_answer answer = coy_ask(endpoint, COY_ENDPOINT_GETID, 0, 0, 0);
    *matches = answer.words[2];
    *payload = answer.words[3];
    return coy_first(answer, id);
}
static inline coy_word coy_endpoint_setid(coy_cap endpoint, coy_word id) {
    return coy_ask(endpoint, COY_ENDPOINT_SETID, id, 0, 0).words[0];
}
static inline coy_word coy_endpoint_setmatch(coy_cap endpoint, coy_word matches) {
    return coy_ask(endpoint, COY_ENDPOINT_SETMATCH, matches, 0, 0).words[0];
}
static inline coy_word coy_endpoint_makeentry(coy_cap endpoint, coy_word payload, coy_cap into) {
    return coy_get(endpoint, COY_ENDPOINT_MAKEENTRY, payload, 0, into);
}
static inline coy_word coy_endpoint_setpayload(coy_cap endpoint, coy_word payload) {
    return coy_ask(endpoint, COY_ENDPOINT_SETPAYLOAD, payload, 0, 0).words[0];
}

/* processes; register 0 is the pc */
static inline coy_word coy_process_getreg(coy_cap process, coy_word number, coy_word *value) {
    return coy_first(coy_ask(process, COY_PROCESS_GETREG, number, 0, 0), value);
}
static inline coy_word coy_process_setreg(coy_cap process, coy_word number, coy_word value) {
    return coy_ask(process, COY_PROCESS_SETREG, number, value, 0).words[0];
}
static inline coy_word coy_process_getcapreg(coy_cap process, coy_word number, coy_cap into) {
    return coy_get(process, COY_PROCESS_GETCAPREG, number, 0, into);
}
static inline coy_word coy_process_setcapreg(coy_cap process, coy_word number, coy_cap sent) {
    return coy_give(process, COY_PROCESS_SETCAPREG, number, sent).words[0];
}
static inline coy_word coy_process_getslot(coy_cap process, coy_word slot, coy_cap into) {
    return coy_get(process, COY_PROCESS_GETSLOT, slot, 0, into);
}
static inline coy_word coy_process_setslot(coy_cap process, coy_word slot, coy_cap sent) {
    return coy_give(process, COY_PROCESS_SETSLOT, slot, sent).words[0];
}
static inline coy_word coy_process_getstate(coy_cap process, coy_word *state, coy_word *code, coy_word *address) {
    struct coy_answer answer = coy_ask(process, COY_PROCESS_GETSTATE, 0, 0, 0);
    *code = answer.words[2];
    *address = answer.words[3];
    return coy_first(answer, state);
}
static inline coy_word coy_process_resume(coy_cap process) {
    return coy_ask(process, COY_PROCESS_RESUME, 0, 0, 0).words[0];
}
static inline coy_word coy_process_stop(coy_cap process) {
    return coy_ask(process, COY_PROCESS_STOP, 0, 0, 0).words[0];
}

/* schedules */
static inline coy_word coy_schedule_priority(coy_cap schedule, coy_word *priority) {
    return coy_first(coy_ask(schedule, COY_SCHEDULE_PRIORITY, 0, 0, 0), priority);
}
static inline coy_word coy_schedule_lower(coy_cap schedule, coy_word priority, coy_cap into) {
    return coy_get(schedule, COY_SCHEDULE_LOWER, priority, 0, into);
}

/* range, discrim, kernel log, system control */
static inline coy_word coy_range_getcap(coy_cap range, coy_word kind, coy_word number, coy_cap into) {
    return coy_get(range, COY_RANGE_GETCAP, kind, number, into);
}
static inline coy_word coy_range_destroy(coy_cap range, coy_cap sent) {
    return coy_give(range, COY_RANGE_DESTROY, 0, sent).words[0];
}
static inline coy_word coy_discrim_classify(coy_cap discrim, coy_cap sent, coy_word *kind, coy_word *harmless) {
    struct coy_answer answer = coy_give(discrim, COY_DISCRIM_CLASSIFY, 0, sent);
    *harmless = answer.words[2];
    return coy_first(answer, kind);
}
/* 1 to 256 bytes */
static inline coy_word coy_kernlog_log(coy_cap log, const void *string, coy_word length) {
    return coy_invoke((struct coy_call){.target = log, .phases = COY_SEND, .words = {COY_KERNLOG_LOG}, .string = string,
                                        .length = length}).words[0];
}
static inline coy_word coy_sysctl_halt(coy_cap control) { return coy_ask(control, COY_SYSCTL_HALT, 0, 0, 0).words[0]; }

#endif
