/* Signals that end a run: all that would end a process, but for those that tell of a fault in it. */
#define _GNU_SOURCE
#include "signals.h"
#include <stddef.h>

static const int named[] = {SIGINT,  SIGTERM, SIGHUP,  SIGQUIT,   SIGXCPU, SIGUSR1,   SIGUSR2,
                            SIGALRM, SIGPROF, SIGPOLL, SIGVTALRM, SIGPWR,  SIGSTKFLT, SIGTRAP};
enum { NAMED = sizeof named / sizeof *named };

static void (*cleaning)(void);

/* The real-time signals follow those with a name. Gives 0 behind the last one. */
static int ending(int k) {
    if (k < NAMED) return named[k];
    int number = SIGRTMIN + k - NAMED;
    return number <= SIGRTMAX ? number : 0;
}

static sigset_t all(void) {
    sigset_t set;
    sigemptyset(&set);
    for (int k = 0; ending(k); k++) sigaddset(&set, ending(k));
    return set;
}

static void interrupted(int number) {
    sigset_t this;
    cleaning();
    signal(number, SIG_DFL);
    raise(number);
    sigemptyset(&this);
    sigaddset(&this, number);
    sigprocmask(SIG_UNBLOCK, &this, NULL);
}

void set_signals(void) {
    signal(SIGPIPE, SIG_IGN);
    signal(SIGXFSZ, SIG_IGN);
    signal(SIGCHLD, SIG_DFL);
}

/* A signal that is ignored, as under nohup, stays so. While one signal is handled the others wait: files are
 * removed to the end. */
void catch_signals(void (*clean)(void)) {
    struct sigaction caught = {.sa_handler = interrupted, .sa_mask = all()}, was;
    cleaning = clean;
    for (int k = 0; ending(k); k++)
        if (!sigaction(ending(k), NULL, &was) && was.sa_handler != SIG_IGN) sigaction(ending(k), &caught, NULL);
}

void release_signals(void) {
    struct sigaction was;
    for (int k = 0; ending(k); k++)
        if (!sigaction(ending(k), NULL, &was) && was.sa_handler != SIG_IGN) signal(ending(k), SIG_DFL);
}

sigset_t hold_signals(void) {
    sigset_t held = all(), before;
    sigprocmask(SIG_BLOCK, &held, &before);
    return before;
}
