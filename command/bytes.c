/* Reads and writes that go on until all is done. */
#define _POSIX_C_SOURCE 200809L
#define _FILE_OFFSET_BITS 64
#include "bytes.h"
#include <errno.h>
#include <fcntl.h>
#include <string.h>
#include <unistd.h>
#include "ends.h"

_Static_assert(sizeof(off_t) == 8, "files past 4 GB");

void read_at(int file, const char *path, uint8_t *bytes, size_t count, uint64_t place) {
    size_t done = 0;
    while (done < count) {
        ssize_t n = pread(file, bytes + done, count - done, (off_t)(place + done));
        if (n < 0 && errno == EINTR) continue;
        if (n < 0) failed("read", path);
        if (n == 0) stop(SYSTEM, "cannot read %s: it ends before the length that it had", path);
        done += (size_t)n;
    }
}

size_t read_some(int file, const char *path, uint8_t *bytes, size_t room) {
    ssize_t n;
    do n = read(file, bytes, room);
    while (n < 0 && errno == EINTR);
    if (n < 0) failed("read", path);
    return (size_t)n;
}

/* Nothing written without an error counts as a full disk. */
void write_at(int file, const char *path, const uint8_t *bytes, size_t count, uint64_t place) {
    size_t done = 0;
    while (done < count) {
        ssize_t n = pwrite(file, bytes + done, count - done, (off_t)(place + done));
        if (n < 0 && errno == EINTR) continue;
        if (n == 0) errno = ENOSPC;
        if (n <= 0) failed("write", path);
        done += (size_t)n;
    }
}

void write_on(int file, const char *path, const void *bytes, size_t count) {
    size_t done = 0;
    while (done < count) {
        ssize_t n = write(file, (const char *)bytes + done, count - done);
        if (n < 0 && errno == EINTR) continue;
        if (n == 0) errno = ENOSPC;
        if (n <= 0) failed("write", path);
        done += (size_t)n;
    }
}

void fill_standard_files(void) {
    for (int file = STDIN_FILENO; file <= STDERR_FILENO; file++)
        if (fcntl(file, F_GETFD) < 0 && open("/dev/null", file == STDIN_FILENO ? O_WRONLY : O_RDONLY) != file)
            failed("open", "/dev/null");
}

void check_standard_output(void) {
    int flags = fcntl(STDOUT_FILENO, F_GETFL);
    errno = EBADF;
    if (flags < 0 || (flags & O_ACCMODE) == O_RDONLY) failed("write", "standard output");
}

void print(const char *text) {
    write_on(STDOUT_FILENO, "standard output", text, strlen(text));
}
