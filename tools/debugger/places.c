/* Feeds `coyotos trace`, or `coyotos run`, its input piece by piece, and copies the running process wherever it waits
   for more.

   The program reads its input when it has performed all lines that it has, so a process that waits for input stands at
   a place of the run, and a copy of it (fork) stands at the same place. tools/debugger/places.py makes a library of this
   file, which is loaded before the C library (LD_PRELOAD), and speaks to each process over a socket; the program's
   output goes there too. Nothing of the program is changed but where its bytes come from and go to.

   A command is a letter, and behind F four bytes with a length and as many bytes:
       F  the next bytes of the input
       C  copy: the new process connects to the same path, and says how many bytes of output were written until then,
          and how many lines they end
       L  loud: output is sent from here on (at first it is counted alone)
       E  the end of the input
   A process ends when its socket is closed. */
#define _GNU_SOURCE
#include <signal.h>
#include <stdint.h>
#include <stdlib.h>
#include <string.h>
#include <sys/socket.h>
#include <sys/syscall.h>
#include <sys/un.h>
#include <unistd.h>

enum { INPUT = 0, OUTPUT = 1 };

static int line = -1; /* the socket, if this is the program that is meant */
static uint64_t written[2]; /* bytes of output, and line feeds among them */
static int loud, ended;
static char *fed;
static size_t length, used;

/* Takes exactly so many bytes from the socket; a socket that was closed ends the process. */
static void take(void *to, size_t count) {
    for (char *at = to; count > 0;) {
        ssize_t came = recv(line, at, count, 0);
        if (came <= 0) {
            _exit(0);
        }
        at += came;
        count -= (size_t)came;
    }
}

static void give(const void *from, size_t count) {
    for (const char *at = from; count > 0;) {
        ssize_t went = send(line, at, count, MSG_NOSIGNAL);
        if (went <= 0) {
            _exit(0);
        }
        at += went;
        count -= (size_t)went;
    }
}

/* Connects, and says how much was written. */
static void meet(void) {
    struct sockaddr_un place = {.sun_family = AF_UNIX};
    strncpy(place.sun_path, getenv("COYOTOS_PLACES"), sizeof place.sun_path - 1);
    line = socket(AF_UNIX, SOCK_STREAM, 0);
    if (line < 0 || connect(line, (struct sockaddr *)&place, sizeof place) != 0) {
        _exit(100);
    }
    give(written, sizeof written);
}

static void copy(void) {
    int old = line;
    pid_t made = fork();
    if (made < 0) {
        _exit(100);
    }
    if (made == 0) {
        close(old);
        meet();
    }
}

static void feed(void) {
    uint32_t count;
    take(&count, sizeof count);
    free(fed);
    fed = malloc(count ? count : 1);
    if (!fed) {
        _exit(100);
    }
    take(fed, count);
    length = count;
    used = 0;
}

/* Does what is asked for until there is input, or its end. */
static void obey(void) {
    while (used == length && !ended) {
        char command;
        take(&command, 1);
        switch (command) {
        case 'F': feed(); break;
        case 'C': copy(); break;
        case 'L': loud = 1; break;
        case 'E': ended = 1; break;
        default: _exit(100);
        }
    }
}

__attribute__((constructor)) static void begin(int count, char **words) {
    if (getenv("COYOTOS_PLACES") && count == 2 && (strcmp(words[1], "trace") == 0 || strcmp(words[1], "run") == 0)) {
        signal(SIGCHLD, SIG_IGN);
        meet();
    }
}

ssize_t read(int file, void *to, size_t count) {
    if (line < 0 || file != INPUT) {
        return syscall(SYS_read, file, to, count);
    }
    obey();
    size_t given = length - used < count ? length - used : count;
    memcpy(to, fed + used, given);
    used += given;
    return (ssize_t)given;
}

ssize_t write(int file, const void *from, size_t count) {
    if (line < 0 || file != OUTPUT) {
        return syscall(SYS_write, file, from, count);
    }
    const char *at = from, *behind = at + count;
    written[0] += count;
    while ((at = memchr(at, '\n', (size_t)(behind - at)))) {
        written[1]++;
        at++;
    }
    if (loud) {
        give(from, count);
    }
    return (ssize_t)count;
}
