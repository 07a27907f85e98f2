/* Gives a pseudo-terminal RTS, DTR and break, to a program that is started with this in LD_PRELOAD, and notes each move of them in
   the file that SIGNALS names: when, in milliseconds, and what, in stm32flash's notation. Both are up once a port was opened, as
   Linux has it. */
#define _GNU_SOURCE
#include <dlfcn.h>
#include <fcntl.h>
#include <stdarg.h>
#include <stdio.h>
#include <stdlib.h>
#include <sys/ioctl.h>
#include <termios.h>
#include <time.h>
#include <unistd.h>

static int raised = TIOCM_RTS | TIOCM_DTR;

static void note(const char *move) {
    const char *name = getenv("SIGNALS");
    int file = name ? open(name, O_WRONLY | O_APPEND | O_CREAT, 0644) : -1;
    struct timespec now;
    clock_gettime(CLOCK_MONOTONIC, &now);
    if (file >= 0) {
        dprintf(file, "%lld %s\n", now.tv_sec * 1000LL + now.tv_nsec / 1000000, move);
        close(file);
    }
}

static void move_to(int wanted) {
    int changed = raised ^ wanted;
    raised = wanted;
    if (changed & TIOCM_RTS)
        note(wanted & TIOCM_RTS ? "rts" : "-rts");
    if (changed & TIOCM_DTR)
        note(wanted & TIOCM_DTR ? "dtr" : "-dtr");
}

int ioctl(int port, unsigned long request, ...) {
    static int (*next)(int, unsigned long, void *);
    va_list arguments;
    va_start(arguments, request);
    void *argument = va_arg(arguments, void *);
    va_end(arguments);
    switch ((unsigned) request) {
    case TIOCMGET: *(int *) argument = raised; return 0;
    case TIOCMSET: move_to(*(int *) argument); return 0;
    case TIOCMBIS: move_to(raised | *(int *) argument); return 0;
    case TIOCMBIC: move_to(raised & ~*(int *) argument); return 0;
    }
    if (!next)
        next = (int (*)(int, unsigned long, void *)) dlsym(RTLD_NEXT, "ioctl");
    return next(port, request, argument);
}

int tcsendbreak(int port, int duration) {
    (void) port, (void) duration;
    note("brk");
    return 0;
}
