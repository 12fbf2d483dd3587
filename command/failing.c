/* System calls that fail, come short or wait, put before the system's own ones by the command's tests (LD_PRELOAD).
 *
 *     FAILING=short            reads, and writes at a place, give a part of what is asked; every third is interrupted
 *     FAILING=WHAT:NAME:N,..   something happens at the N-th call of NAME in a process, forked ones counting on:
 *       fail, once               that call and all after it, or that one alone, fail with FAILING_ERROR (an errno)
 *       zero                     that call and all after it do nothing and give 0
 *       ends, torn               at a write the process ends with status 0, after no or 10 bytes of it
 *       wrong                    a write gives another first byte
 *       came                     at an open that may make a file, another one has made it just before
 *       hold                     a word is written to the pipe FAILING_HOLD.at, and one is read from FAILING_HOLD.go
 *     FAILING_MARK             a file that is made where something happened at one call alone
 *     FAILING_LATER=N          the steady clock goes N milliseconds on at each reading, beside its own going */
#define _GNU_SOURCE
#include <dlfcn.h>
#include <errno.h>
#include <fcntl.h>
#include <poll.h>
#include <sched.h>
#include <signal.h>
#include <stdarg.h>
#include <stdbool.h>
#include <stdio.h>
#include <stdlib.h>
#include <string.h>
#include <sys/stat.h>
#include <sys/syscall.h>
#include <sys/types.h>
#include <sys/wait.h>
#include <time.h>
#include <unistd.h>

static int raw_open(const char *path, int flags) {
    long file;
    do file = syscall(SYS_openat, AT_FDCWD, path, flags, 0666);
    while (file < 0 && errno == EINTR);
    return (int)file;
}

static void mark(void) {
    const char *path = getenv("FAILING_MARK");
    int file = path ? raw_open(path, O_WRONLY | O_CREAT) : -1;
    if (file >= 0) syscall(SYS_close, file);
}

/* Whether `what` happens at this call of `name`. Each item of FAILING has a count of its own. */
static bool now(const char *what, const char *name, bool once) {
    static int calls[8];
    char begins[64];
    const char *item = getenv("FAILING");
    int k = 0, length = snprintf(begins, sizeof begins, "%s:%s:", what, name);
    while (item && strncmp(item, begins, (size_t)length)) {
        item = strchr(item, ',');
        item += item != NULL;
        k++;
    }
    if (!item) return false;
    int n = atoi(item + length);
    calls[k]++;
    if (calls[k] < n || (once && calls[k] > n)) return false;
    if (once) mark();
    return true;
}

static void hold(const char *name) {
    char path[4096], sign = '\n';
    const char *pipe = getenv("FAILING_HOLD");
    if (!now("hold", name, true)) return;
    snprintf(path, sizeof path, "%s.at", pipe);
    int at = raw_open(path, O_WRONLY);
    syscall(SYS_write, at, &sign, 1);
    syscall(SYS_close, at);
    snprintf(path, sizeof path, "%s.go", pipe);
    int go = raw_open(path, O_RDONLY);
    syscall(SYS_read, go, &sign, 1);
    syscall(SYS_close, go);
}

/* Whether this call of `name` is to fail; errno is then set. */
static bool fails(const char *name) {
    int error = errno;
    hold(name);
    errno = error;
    if (!now("fail", name, false) && !now("once", name, true)) return false;
    errno = atoi(getenv("FAILING_ERROR"));
    return true;
}

static bool zero(const char *name) {
    return now("zero", name, false);
}

/* How much of `count` bytes a call gives: -1 where it is interrupted. */
static ssize_t part(size_t count) {
    const char *asked = getenv("FAILING");
    static unsigned parts;
    if (!asked || strcmp(asked, "short")) return (ssize_t)count;
    parts++;
    errno = EINTR;
    if (parts % 3 == 0) return -1;
    return count > 1 ? (ssize_t)(count * (parts % 7 + 1) / 9 + 1) : (ssize_t)count;
}

#define NEXT(name) ((__typeof__(&name))dlsym(RTLD_NEXT, #name))

ssize_t pread64(int file, void *bytes, size_t count, off64_t place) {
    ssize_t n = part(count);
    if (zero("pread")) return 0;
    return fails("pread") || n < 0 ? -1 : NEXT(pread64)(file, bytes, (size_t)n, place);
}

ssize_t pwrite64(int file, const void *bytes, size_t count, off64_t place) {
    ssize_t n = part(count);
    if (zero("pwrite")) return 0;
    return fails("pwrite") || n < 0 ? -1 : NEXT(pwrite64)(file, bytes, (size_t)n, place);
}

ssize_t read(int file, void *bytes, size_t count) {
    ssize_t n = part(count);
    return fails("read") || n < 0 ? -1 : NEXT(read)(file, bytes, (size_t)n);
}

/* A short message in a pipe is written whole or not at all. */
ssize_t write(int file, const void *bytes, size_t count) {
    if (zero("write")) return 0;
    if (now("ends", "write", true)) _exit(0);
    if (now("torn", "write", true)) _exit(NEXT(write)(file, bytes, 10) != 10);
    if (now("wrong", "write", true)) {
        unsigned char *other = memcpy(malloc(count), bytes, count);
        other[0] ^= 64;
        return NEXT(write)(file, other, count);
    }
    return fails("write") ? -1 : NEXT(write)(file, bytes, count);
}

int open64(const char *path, int flags, ...) {
    va_list more;
    va_start(more, flags);
    mode_t mode = flags & O_CREAT ? va_arg(more, mode_t) : 0;
    va_end(more);
    if (flags & O_CREAT && now("came", "open", true)) syscall(SYS_close, raw_open(path, O_WRONLY | O_CREAT));
    return fails("open") ? -1 : NEXT(open64)(path, flags, mode);
}

int fcntl64(int file, int what, ...) {
    return fails("fcntl") ? -1 : NEXT(fcntl64)(file, what);
}

int close(int file) {
    int answer = NEXT(close)(file);
    return fails("close") ? -1 : answer;
}

#define FAILS(type, name, called, declared, given) \
    type called declared { return fails(name) ? -1 : NEXT(called) given; }

FAILS(int, "fstat", fstat64, (int file, struct stat64 *is), (file, is))
FAILS(int, "stat", stat64, (const char *path, struct stat64 *is), (path, is))
FAILS(int, "lstat", lstat64, (const char *path, struct stat64 *is), (path, is))
FAILS(off64_t, "lseek", lseek64, (int file, off64_t place, int from), (file, place, from))
FAILS(int, "fsync", fsync, (int file), (file))
FAILS(int, "rename", rename, (const char *from, const char *to), (from, to))
FAILS(int, "renameat2", renameat2, (int in, const char *from, int into, const char *to, unsigned how), (in, from, into, to, how))
FAILS(int, "link", link, (const char *from, const char *to), (from, to))
FAILS(int, "unlink", unlink, (const char *path), (path))
FAILS(pid_t, "fork", fork, (void), ())
FAILS(int, "pipe", pipe, (int ends[2]), (ends))
FAILS(int, "poll", poll, (struct pollfd *files, nfds_t count, int wait), (files, count, wait))
FAILS(pid_t, "waitpid", waitpid, (pid_t process, int *status, int how), (process, status, how))
FAILS(int, "sched_getaffinity", sched_getaffinity, (pid_t process, size_t size, cpu_set_t *set), (process, size, set))
FAILS(int, "kill", kill, (pid_t process, int signal), (process, signal))
FAILS(int, "prctl", prctl, (int what, unsigned long with), (what, with))
FAILS(int, "sigaction", sigaction, (int n, const struct sigaction *to, struct sigaction *was), (n, to, was))
FAILS(int, "sigprocmask", sigprocmask, (int how, const sigset_t *to, sigset_t *was), (how, to, was))

int clock_gettime(clockid_t clock, struct timespec *at) {
    static long readings;
    const char *later = getenv("FAILING_LATER");
    int status = (int)syscall(SYS_clock_gettime, clock, at);
    if (status || !later || clock != CLOCK_MONOTONIC) return status;
    long long ns = at->tv_nsec + ++readings * atoll(later) * 1000000;
    at->tv_sec += ns / 1000000000;
    at->tv_nsec = ns % 1000000000;
    return 0;
}
