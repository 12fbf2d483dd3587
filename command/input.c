/* The files that are read. */
#define _POSIX_C_SOURCE 200809L
#define _FILE_OFFSET_BITS 64
#include "input.h"
#include <errno.h>
#include <fcntl.h>
#include <stdio.h>
#include <unistd.h>
#include "ends.h"

void open_input(struct input *in, const char *path) {
    in->path = path;
    in->file = open(path, O_RDONLY | O_NONBLOCK | O_CLOEXEC);
    if (in->file < 0 || fstat(in->file, &in->is)) failed("open", path);
    off_t length = lseek(in->file, 0, SEEK_END);
    if (length < 0 && errno == ESPIPE) stop(REFUSED, "%s is a pipe, which has no length", path);
    if (length < 0) failed("tell the length of", path);
    in->length = (uint64_t)length;
}

void open_inputs(struct inputs *in, const struct asked *a) {
    in->count = a->count;
    in->taps.path = NULL;
    for (int k = 0; k < a->count; k++) open_input(&in->of[k], a->tracks[k]);
    if (a->taps) open_input(&in->taps, a->taps);
}

static bool same_time(struct timespec one, struct timespec other) {
    return one.tv_sec == other.tv_sec && one.tv_nsec == other.tv_nsec;
}

static void check_one(const struct input *in) {
    struct stat is;
    if (fstat(in->file, &is)) failed("look at", in->path);
    if (is.st_size != in->is.st_size || !same_time(is.st_mtim, in->is.st_mtim) || !same_time(is.st_ctim, in->is.st_ctim))
        stop(SYSTEM, "%s was changed while it was converted: an upload that goes on?", in->path);
}

void check_unchanged(const struct inputs *in) {
    for (int k = 0; k < in->count; k++) check_one(&in->of[k]);
}

static bool is_file(const struct input *in, const struct stat *is) {
    return in->path && is->st_dev == in->is.st_dev && is->st_ino == in->is.st_ino;
}

/* A terminal or a socket may well be read and written. */
void spare(const char *path, const struct stat *is) {
    struct stat out;
    if (fstat(STDOUT_FILENO, &out) || (!S_ISREG(out.st_mode) && !S_ISBLK(out.st_mode))) return;
    if (is->st_dev == out.st_dev && is->st_ino == out.st_ino)
        stop(REFUSED, "standard output is the input, %s: it must be another file", path);
}

void spare_inputs(const struct inputs *in) {
    for (int k = 0; k < in->count; k++) spare(in->of[k].path, &in->of[k].is);
    if (in->taps.path) spare(in->taps.path, &in->taps.is);
}

void spare_named(const char *path) {
    struct stat is;
    if (!stat(path, &is)) spare(path, &is);
}

const struct input *input_of(const struct inputs *in, const struct stat *is) {
    for (int k = 0; k < in->count; k++)
        if (is_file(&in->of[k], is)) return &in->of[k];
    return is_file(&in->taps, is) ? &in->taps : NULL;
}
