/* One file that is made where nothing is yet. */
#define _POSIX_C_SOURCE 200809L
#include "single.h"
#include <errno.h>
#include <stdlib.h>
#include "ends.h"
#include "made.h"
#include "signals.h"

static struct made made;

/* Also called where a signal is handled. */
static void clean(void) {
    unmake(&made);
}

static _Noreturn void clean_and_exit(int status) {
    hold_signals();
    clean();
    exit(status);
}

static _Noreturn void is_there(const char *path) {
    stop(THERE, "%s is there already, and stays as it is", path);
}

int begin_single(const char *path) {
    struct stat is;
    if (!lstat(path, &is)) is_there(path);
    if (errno != ENOENT) failed("look at", path);
    catch_signals(clean);
    leave = clean_and_exit;
    make(&made, path);
    return made.file;
}

void end_single(void) {
    settle(&made);
    hold_signals(); /* from the name on */
    if (!name_new(&made)) is_there(made.path);
    settle_folder(&made);
    keep(&made);
}
