/* Each of many files by itself: a process for each, one after the other, so that what one leaves behind or dies of is
 * nothing to the next. */
#define _GNU_SOURCE
#include <errno.h>
#include <signal.h>
#include <stdio.h>
#include <stdlib.h>
#include <string.h>
#include <sys/prctl.h>
#include <sys/wait.h>
#include <unistd.h>
#include "bytes.h"
#include "convert.h"
#include "ends.h"
#include "input.h"
#include "names.h"
#include "places.h"
#include "signals.h"
#include "terminal.h"

static volatile sig_atomic_t child;

/* The child takes back what it has made. */
static void clean(void) {
    int status;
    if (child <= 0) return;
    kill(child, SIGTERM);
    while (waitpid(child, &status, 0) < 0 && errno == EINTR);
}

static _Noreturn void clean_and_exit(int status) {
    hold_signals();
    clean();
    exit(status);
}

/* With its parent gone it ends, as if it were interrupted. */
static _Noreturn void be_child(const struct asked *a, char **track, pid_t parent, const sigset_t *mask) {
    struct asked one = *a;
    child = 0;
    leave = NULL;
    release_signals();
    signal(SIGTERM, SIG_DFL); /* by which its parent ends it */
    sigprocmask(SIG_SETMASK, mask, NULL);
    if (prctl(PR_SET_PDEATHSIG, SIGTERM)) failed("end with", "the process that started this one");
    if (getppid() != parent) exit(SYSTEM);
    one.each = false;
    one.all = wav_of(a->folder, *track);
    one.folder = NULL;
    one.tracks = track;
    one.count = 1;
    exit(convert_album(&one));
}

/* Its end is waited for first, while signals may come: it keeps its number until it is seen off, and is the child until
 * then. */
static int status_of(pid_t process, const char *track) {
    int status = 0;
    siginfo_t ended;
    while (waitid(P_PID, (id_t)process, &ended, WEXITED | WNOWAIT))
        if (errno != EINTR) failed("wait for", "a process");
    sigset_t before = hold_signals();
    while (waitpid(process, &status, 0) < 0)
        if (errno != EINTR) failed("wait for", "a process");
    child = 0;
    sigprocmask(SIG_SETMASK, &before, NULL);
    if (!WIFSIGNALED(status)) return WEXITSTATUS(status);
    warn("the process of %s was ended by signal %d", track, WTERMSIG(status));
    return SYSTEM;
}

static int run(const struct asked *a, char **track) {
    pid_t parent = getpid();
    sigset_t before = hold_signals();
    pid_t process = fork();
    if (process == 0) be_child(a, track, parent, &before);
    int error = errno;
    child = process;
    sigprocmask(SIG_SETMASK, &before, NULL);
    errno = error;
    if (process < 0) failed("start", "a process");
    return status_of(process, *track);
}

static void tell(int status, const char *track) {
    size_t room = strlen(track) + 16;
    char *line = malloc(room);
    if (!line) failed("get memory for", track);
    snprintf(line, room, "%d %s", status, track);
    make_plain(line);
    strcat(line, "\n");
    print(line);
    free(line);
}

/* The system's failure is the worst, then a refusal, then what is there already. */
static int worse(int one, int other) {
    static const int order[] = {DONE, THERE, REFUSED, SYSTEM};
    int worst = SYSTEM;
    for (size_t k = 0; k < sizeof order / sizeof *order; k++)
        if (one == order[k] || other == order[k]) worst = order[k];
    return worst;
}

int convert_each(const struct asked *a) {
    int worst = DONE;
    check_folder(a->folder);
    check_alike(a->tracks, a->count);
    check_standard_output();
    for (int k = 0; k < a->count; k++) spare_named(a->tracks[k]);
    if (a->taps) spare_named(a->taps);
    catch_signals(clean);
    leave = clean_and_exit;
    for (int k = 0; k < a->count; k++) {
        int status = run(a, &a->tracks[k]);
        tell(status, a->tracks[k]);
        worst = worse(worst, status);
    }
    return worst;
}
