/* Files that are made. */
#define _GNU_SOURCE
#define _FILE_OFFSET_BITS 64
#include "made.h"
#include <errno.h>
#include <fcntl.h>
#include <stdio.h>
#include <string.h>
#include <sys/stat.h>
#include <time.h>
#include <unistd.h>
#include "ends.h"
#include "signals.h"

enum { MOST_NAME = 200, MOST_TRIES = 100 };

static size_t folder_length(const char *path) {
    const char *slash = strrchr(path, '/');
    return slash ? (size_t)(slash - path) + 1 : 0;
}

/* The folder of a path: its name is written to `folder` (PATH_MAX bytes). */
static void folder_of(const char *path, char *folder) {
    size_t length = folder_length(path);
    errno = ENAMETOOLONG;
    if (length + 2 > PATH_MAX) failed("name a file beside", path);
    memcpy(folder, path, length);
    strcpy(folder + length, ".");
}

bool same_place(const char *one, const char *other) {
    char folder[PATH_MAX];
    struct stat first, second;
    folder_of(one, folder);
    if (stat(folder, &first)) return false;
    folder_of(other, folder);
    if (stat(folder, &second) || first.st_dev != second.st_dev || first.st_ino != second.st_ino) return false;
    return strcmp(one + folder_length(one), other + folder_length(other)) == 0;
}

/* ---- the first name */

/* Six letters and digits that another process or moment hardly has. */
static void choose_name(struct made *m, unsigned try) {
    static const char signs[] = "abcdefghijklmnopqrstuvwxyz0123456789";
    size_t folder = folder_length(m->path);
    struct timespec now = {0, 0};
    char six[7] = "";
    clock_gettime(CLOCK_REALTIME, &now);
    unsigned long long chosen = (unsigned long long)now.tv_nsec * 7919 + (unsigned long long)getpid() * 104729 + try;
    for (int k = 0; k < 6; k++, chosen /= sizeof signs - 1) six[k] = signs[chosen % (sizeof signs - 1)];
    int n = snprintf(m->name, sizeof m->name, "%.*s.%.*s.%s", (int)folder, m->path, MOST_NAME, m->path + folder, six);
    errno = ENAMETOOLONG;
    if (n < 0 || (size_t)n >= sizeof m->name) failed("make a file beside", m->path);
}

/* No signal comes between the file and `there`. Gives the error, or 0. */
static int create(struct made *m) {
    sigset_t before = hold_signals();
    m->file = open(m->name, O_RDWR | O_CREAT | O_EXCL | O_CLOEXEC, 0666);
    int error = m->file < 0 ? errno : 0;
    m->there = m->file >= 0;
    sigprocmask(SIG_SETMASK, &before, NULL);
    return error;
}

void make(struct made *m, const char *path) {
    int error = EEXIST;
    m->path = path;
    for (unsigned try = 0; error == EEXIST && try < MOST_TRIES; try++) {
        choose_name(m, try);
        error = create(m);
    }
    errno = error;
    if (error) failed("make a file beside", path);
}

void settle(struct made *m) {
    if (fsync(m->file)) failed("write", m->path);
    if (close(m->file)) failed("write", m->path);
}

/* ---- the name that it is for */

/* The system, or the file system, has no such call. */
static bool is_unknown(void) {
    return errno == EINVAL || errno == ENOSYS || errno == EPERM || errno == EOPNOTSUPP;
}

/* A second name, and the first one taken away. The file is there then, whether or not that can be done. */
static int link_alone(const char *name, const char *path) {
    if (link(name, path)) return -1;
    if (unlink(name)) warn("cannot remove %s: %s", name, strerror(errno));
    return 0;
}

/* Not every file system has the calls that replace nothing: then one more look has to do. */
static int rename_alone(const char *name, const char *path) {
    struct stat is;
    if (!renameat2(AT_FDCWD, name, AT_FDCWD, path, RENAME_NOREPLACE)) return 0;
    if (!is_unknown()) return -1;
    if (!link_alone(name, path)) return 0;
    if (!is_unknown()) return -1;
    if (!lstat(path, &is)) return errno = EEXIST, -1;
    return errno == ENOENT ? rename(name, path) : -1;
}

void name_failed(const struct made *m) {
    failed("name the output", m->path);
}

bool name_new(struct made *m) {
    bool named = !rename_alone(m->name, m->path);
    if (!named && errno != EEXIST) name_failed(m);
    if (!named) return false;
    m->taken = ALONE;
    m->there = 0;
    return true;
}

bool name_over(struct made *m) {
    bool exchanged = !renameat2(AT_FDCWD, m->name, AT_FDCWD, m->path, RENAME_EXCHANGE);
    if (!exchanged && errno == ENOENT) return false;
    if (!exchanged && !is_unknown()) name_failed(m);
    if (!exchanged && rename(m->name, m->path)) name_failed(m);
    m->taken = exchanged ? EXCHANGED : REPLACED;
    m->there = 0;
    return true;
}

void settle_folder(const struct made *m) {
    char folder[PATH_MAX];
    folder_of(m->path, folder);
    int file = open(folder, O_RDONLY | O_CLOEXEC);
    if (file < 0 && errno == EACCES) return;
    if (file < 0 || (fsync(file) && errno != EINVAL)) failed("write the folder of", m->path);
    close(file);
}

/* ---- the end */

void keep(struct made *m) {
    if (m->taken == EXCHANGED && unlink(m->name))
        warn("cannot remove %s, which was %s: %s", m->name, m->path, strerror(errno));
    m->taken = NOT_YET;
}

static bool exchanged_back(const struct made *m) {
    return !renameat2(AT_FDCWD, m->name, AT_FDCWD, m->path, RENAME_EXCHANGE);
}

void unmake(struct made *m) {
    enum taken taken = m->taken;
    m->taken = NOT_YET;
    if (taken == REPLACED) warn("%s is new by now", m->path);
    if (taken == ALONE && unlink(m->path))
        warn("%s is made by now, and cannot be removed: %s", m->path, strerror(errno));
    if (taken == EXCHANGED && !exchanged_back(m))
        warn("%s is new by now, and what it was is %s", m->path, m->name);
    else if (taken == EXCHANGED || m->there)
        unlink(m->name);
    m->there = 0;
}
