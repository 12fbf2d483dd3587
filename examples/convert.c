/* Converts a file of raw frames into packed 24-bit samples, some frames at a time. Each piece is given the frames next
 * to it, so the pieces joined are what one call for the whole file would write.
 *
 *     tools/staticlib puigneht
 *     cc -O2 -Iinclude examples/convert.c target/staticlib/libpuigneht.a -o target/convert
 *     target/convert RATE CUTOFF CHANNELS DB IN OUT         (target/convert 88200 standard 2 0 album.dsd album.s24)
 *
 * RATE is 88200, 176400 or 352800, CUTOFF standard, low or wide, CHANNELS 1 to 6, DB -120 to 24. IN is checked before
 * OUT is touched. The samples go to a new file beside OUT that takes its name at the end, so OUT is never half written.
 */
#define _POSIX_C_SOURCE 200809L
#include <errno.h>
#include <fcntl.h>
#include <signal.h>
#include <stdarg.h>
#include <stdio.h>
#include <stdlib.h>
#include <string.h>
#include <sys/stat.h>
#include <unistd.h>
#include "puigneht.h"

enum { FRAMES = 16 };

static const char *const cutoffs[] = {"standard", "low", "wide"};

/* The file beside OUT while it is written, else empty. */
static char temporary[4096];

/* Says what is wrong, removes the unfinished file and ends. */
static _Noreturn void stop(const char *format, ...) {
    va_list arguments;
    va_start(arguments, format);
    fprintf(stderr, "convert: ");
    vfprintf(stderr, format, arguments);
    fprintf(stderr, "\n");
    va_end(arguments);
    if (*temporary) unlink(temporary);
    exit(1);
}

static void interrupted(int number) {
    if (*temporary) unlink(temporary);
    signal(number, SIG_DFL);
    raise(number);
}

/* Nothing if the call was accepted, else its refusal as a sentence. */
static void expect(uint8_t answer, const puigneht_refusal *refusal) {
    char text[PUIGNEHT_DESCRIPTION_ROOM];
    if (answer != PUIGNEHT_ACCEPTED) stop("%s", puigneht_describe(refusal, text, sizeof text));
}

/* A whole number of decimal digits, or -1. */
static long whole(const char *text) {
    if (!*text || strlen(text) > 9 || text[strspn(text, "0123456789")]) return -1;
    return strtol(text, NULL, 10);
}

static puigneht_converter understood(char **argv) {
    puigneht_settings s = puigneht_default_settings();
    puigneht_converter c;
    puigneht_refusal refusal;
    long rate = whole(argv[1]), channels = whole(argv[3]);
    if (rate != 88200 && rate != 176400 && rate != 352800)
        stop("RATE is 88200, 176400 or 352800, and not '%s'", argv[1]);
    while (s.cutoff < 3 && strcmp(argv[2], cutoffs[s.cutoff])) s.cutoff++;
    if (s.cutoff == 3) stop("CUTOFF is standard, low or wide, and not '%s'", argv[2]);
    if (channels < 0) stop("CHANNELS is a whole number from 1 to 6, and not '%s'", argv[3]);
    char *end;
    s.decibels = strtod(argv[4], &end);
    if (end == argv[4] || *end) stop("DB is a number from -120 to 24, and not '%s'", argv[4]);
    s.rate = (uint32_t)rate;
    s.channels = (uint32_t)channels;
    expect(puigneht_open(&c, &s, &refusal), &refusal);
    return c;
}

/* Opens IN and gives its number of frames; a file that is not whole frames is refused. */
static FILE *open_input(const char *path, const puigneht_converter *c, struct stat *is, uint64_t *frames) {
    const uint64_t size = c->numbers.frame_bytes;
    int opened = open(path, O_RDONLY | O_NONBLOCK); /* so that a pipe is refused and not waited for */
    FILE *in = opened < 0 ? NULL : fdopen(opened, "rb");
    if (!in || fstat(opened, is)) stop("cannot open %s: %s", path, strerror(errno));
    if (!S_ISREG(is->st_mode)) stop("%s is not a regular file", path);
    if ((uint64_t)is->st_size % size)
        stop("%s has %llu bytes, which are not whole frames: a frame of %u channels has %u bytes, and %u are left over",
             path, (unsigned long long)is->st_size, (unsigned)c->numbers.channels, (unsigned)size,
             (unsigned)((uint64_t)is->st_size % size));
    *frames = (uint64_t)is->st_size / size;
    return in;
}

/* A new file beside OUT, with the permissions of the one that it will replace. */
static FILE *open_output(const char *path, const struct stat *in) {
    struct stat is;
    mode_t mask = umask(0), mode = 0666 & ~mask;
    umask(mask);
    if (!stat(path, &is) && is.st_dev == in->st_dev && is.st_ino == in->st_ino)
        stop("%s is IN: OUT must be another file", path);
    if (!lstat(path, &is)) {
        if (!S_ISREG(is.st_mode)) stop("%s is there and is not a regular file", path);
        if (access(path, W_OK)) stop("cannot write %s: %s", path, strerror(errno));
        mode = is.st_mode & 0777;
    }
    char name[sizeof temporary];
    if ((size_t)snprintf(name, sizeof name, "%s.XXXXXX", path) >= sizeof name) stop("the name of OUT is too long");
    int made = mkstemp(name);
    if (made < 0) stop("cannot make a file beside %s: %s", path, strerror(errno));
    strcpy(temporary, name);
    FILE *to = fdopen(made, "wb");
    if (!to || fchmod(made, mode)) stop("cannot open %s: %s", name, strerror(errno));
    return to;
}

static void read_whole(FILE *in, const char *path, uint8_t *bytes, size_t count) {
    if (fread(bytes, 1, count, in) == count) return;
    stop("cannot read %s: %s", path, ferror(in) ? strerror(errno) : "it ends before the length that it had");
}

/* Piece by piece; gives the clipped samples of all channels. The buffer holds the frame before the piece, where there
 * is one, the piece, and the frame after it, where there is one: puigneht_cut chooses among them. */
static uint64_t convert(const puigneht_converter *c, FILE *in, const char *in_path, uint64_t frames, FILE *to,
                        const char *out_path) {
    const size_t size = (size_t)c->numbers.frame_bytes;
    uint8_t *buffer = malloc((FRAMES + 2) * size), *out = malloc(puigneht_bytes_of(c, FRAMES));
    if (!buffer || !out) stop("no memory for %d frames", FRAMES);
    puigneht_stats all = puigneht_no_stats(), stats;
    size_t held = 0; /* frames in the buffer */
    for (uint64_t done = 0; done < frames;) {
        size_t n = frames - done < FRAMES ? (size_t)(frames - done) : FRAMES, before = done > 0;
        size_t wanted = before + n + (done + n < frames);
        read_whole(in, in_path, buffer + held * size, (wanted - held) * size);
        puigneht_run run = puigneht_cut(c, buffer, wanted * size, before, n);
        puigneht_packed packed = puigneht_into(out, puigneht_bytes_of(c, n));
        puigneht_refusal refusal;
        expect(puigneht_convert(c, &run, &packed, &stats, &refusal), &refusal);
        if (puigneht_join_stats(&all, &stats)) stop("statistics that are none");
        if (fwrite(out, 1, packed.bytes_len, to) != packed.bytes_len)
            stop("cannot write %s: %s", out_path, strerror(errno));
        /* The piece's last frame is the next one's frame before, and the frame after it the next one's first. */
        done += n;
        held = done < frames ? 2 : 0;
        memmove(buffer, buffer + (wanted - held) * size, held * size);
    }
    free(buffer);
    free(out);
    uint64_t clips = 0;
    for (int k = 0; k < PUIGNEHT_MOST_CHANNELS; k++) clips += all.clipped[k];
    return clips;
}

int main(int argc, char **argv) {
    if (argc != 7) stop("to be called as convert RATE CUTOFF CHANNELS DB IN OUT");
    const char *in_path = argv[5], *out_path = argv[6];
    signal(SIGXFSZ, SIG_IGN); /* a file that grows too large is then a failed write */
    int ends[] = {SIGINT, SIGTERM, SIGHUP};
    for (int k = 0; k < 3; k++)
        if (signal(ends[k], SIG_IGN) != SIG_IGN) signal(ends[k], interrupted);
    puigneht_converter c = understood(argv);
    struct stat is;
    uint64_t frames;
    FILE *in = open_input(in_path, &c, &is, &frames);
    FILE *to = open_output(out_path, &is);
    uint64_t clips = convert(&c, in, in_path, frames, to, out_path);
    if (fflush(to) || fsync(fileno(to)) || fclose(to)) stop("cannot write %s: %s", out_path, strerror(errno));
    if (rename(temporary, out_path)) stop("cannot name the output %s: %s", out_path, strerror(errno));
    *temporary = 0;
    fclose(in);
    fprintf(stderr, "frames %llu, clipped samples %llu\n", (unsigned long long)frames, (unsigned long long)clips);
    return 0;
}
