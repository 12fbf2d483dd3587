/* How a run ends. */
#define _POSIX_C_SOURCE 200809L
#include "ends.h"
#include <errno.h>
#include <limits.h>
#include <stdarg.h>
#include <stdio.h>
#include <stdlib.h>
#include <string.h>
#include "terminal.h"

void (*leave)(int status);
bool quiet;

static void say(const char *format, va_list arguments, const char *more) {
    char text[2 * PATH_MAX + 512];
    vsnprintf(text, sizeof text, format, arguments);
    make_plain(text);
    clear_progress();
    fprintf(stderr, "puigneht: %s\n%s", text, more);
}

_Noreturn void stop(int status, const char *format, ...) {
    va_list arguments;
    va_start(arguments, format);
    say(format, arguments, status == USAGE ? "usage: puigneht [OPTIONS] IN.dsf OUT.wav    (puigneht --help has all)\n" : "");
    va_end(arguments);
    if (leave) leave(status);
    exit(status);
}

_Noreturn void finish(const char *format, ...) {
    va_list arguments;
    va_start(arguments, format);
    if (!quiet) say(format, arguments, "");
    va_end(arguments);
    if (leave) leave(DONE);
    exit(DONE);
}

_Noreturn void failed(const char *what, const char *path) {
    stop(SYSTEM, "cannot %s %s: %s", what, path, strerror(errno));
}

_Noreturn void refuse(const puigneht_refusal *refusal, const char *path) {
    char text[PUIGNEHT_DESCRIPTION_ROOM];
    stop(REFUSED, "%s (%s)", puigneht_describe(refusal, text, sizeof text), path);
}

void warn(const char *format, ...) {
    va_list arguments;
    va_start(arguments, format);
    say(format, arguments, "");
    va_end(arguments);
}

void note(const char *format, ...) {
    va_list arguments;
    va_start(arguments, format);
    if (!quiet) say(format, arguments, "");
    va_end(arguments);
}
