/* What picolibc needs beneath it. What is printed goes to the kernel's log in pieces of at most 256 bytes: at the end of
   a line, where a piece is full, at `fflush`, and at the end of the program. Memory comes from the heap of the plan
   (`heap PAGES`), and a program that ends stops at a breakpoint with its status in register x10. There is no input. */
#include <errno.h>
#include <stdint.h>
#include <stdio.h>
#include <stdlib.h>
#include <string.h>
#include <unistd.h>

#include "coyotos.h"
#include "libc.h"

extern char __data_start[], __data_end[], __bss_start[], __bss_end[];
extern const char __data_source[];
void __libc_init_array(void);

/* ---- what is printed */

enum { PIECE = 256 };

static char piece[PIECE];
static coy_word held;

static int write_out(FILE *stream) {
    (void)stream;
    coy_word code = held == 0 ? COY_OK : coy_kernlog_log(coy_output, piece, held);
    held = 0;
    return code == COY_OK ? 0 : EOF;
}

static int put(char letter, FILE *stream) {
    piece[held++] = letter;
    if (letter != '\n' && held < PIECE) {
        return (unsigned char)letter;
    }
    return write_out(stream) == 0 ? (unsigned char)letter : EOF;
}

static int get(FILE *stream) {
    (void)stream;
    return _FDEV_EOF;
}

__attribute__((weak)) coy_cap coy_output = 1;

static FILE console = FDEV_SETUP_STREAM(put, get, write_out, _FDEV_SETUP_RW);
FILE *const stdin = &console;
FILE *const stdout = &console;
FILE *const stderr = &console;

/* ---- memory */

static char *heap_at, *heap_end;

void *sbrk(ptrdiff_t size) {
    if (size > heap_end - heap_at || size < 0) {
        errno = ENOMEM;
        return (void *)-1;
    }
    char *taken = heap_at;
    heap_at += size;
    return taken;
}

/* ---- the beginning and the end */

_Noreturn void _exit(int status) {
    write_out(stdout);
    register int x10 __asm__("a0") = status;
    for (;;) {
        __asm__ volatile("ebreak" : : "r"(x10) : "memory");
    }
}

/* `abort` and a failed `assert` send the program a signal, and it ends with the status of a shell. */
int getpid(void) { return 1; }

int kill(int process, int signal) {
    (void)process;
    _exit(128 + signal);
}

int main(int count, char **words);

/* Called first: data get their start values, and `main` the words of the plan. */
_Noreturn void coy_begin(int count, char **words, char *heap, char *end) {
    memcpy(__data_start, __data_source, (size_t)(__data_end - __data_start));
    memset(__bss_start, 0, (size_t)(__bss_end - __bss_start));
    heap_at = heap;
    heap_end = end;
    __libc_init_array();
    exit(main(count, words));
}
