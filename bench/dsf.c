/* DSF files: a frame taken out of a file beside its conversion, by channels, and by the frame's number; the writer
 * beside the reader. bench/dsf builds and runs it. Each figure is the best of the rounds (argument, 200 by default),
 * which take all figures in turn. */
#define _GNU_SOURCE
#include <stdio.h>
#include <stdlib.h>
#include <string.h>
#include <time.h>
#include "puigneht.h"

enum { HEADER = 92, BLOCK = 4096, FRAMES = 16, LONG = 3000, PLACES = 5 };

static const uint64_t places[PLACES] = {0, 10, 100, 1000, LONG - 1};

struct file {
    uint8_t channels;
    uint64_t frames, length;
    uint8_t *bytes;
};

static double now(void) {
    struct timespec t;
    clock_gettime(CLOCK_MONOTONIC, &t);
    return (double)t.tv_sec + 1e-9 * (double)t.tv_nsec;
}

static void must(uint8_t answer) {
    if (answer != PUIGNEHT_ACCEPTED) {
        fprintf(stderr, "refused: %u\n", answer);
        exit(1);
    }
}

static void *room(size_t n) {
    void *bytes = malloc(n);
    if (!bytes) exit(1);
    return bytes;
}

static void least(double *best, double seconds) {
    if (seconds < *best) *best = seconds;
}

static void put(uint8_t *at, uint64_t n, int size) {
    for (int k = 0; k < size; k++) at[k] = (uint8_t)(n >> 8 * k);
}

/* A file of random samples, in whole frames, padded with zero bytes. */
static struct file random_file(uint8_t channels, uint64_t frames, uint8_t bits) {
    static const uint8_t types[] = {0, 1, 2, 3, 4, 6, 7};
    uint64_t live = frames * PUIGNEHT_CHANNEL_BYTES, groups = (live + BLOCK - 1) / BLOCK, data = groups * BLOCK * channels;
    struct file f = {channels, frames, HEADER + data, room(HEADER + data)};
    uint32_t x = 1;
    memcpy(f.bytes, "DSD \x1c\0\0\0\0\0\0", 12);
    put(f.bytes + 12, f.length, 8);
    put(f.bytes + 20, 0, 8);
    memcpy(f.bytes + 28, "fmt \x34\0\0\0\0\0\0\0\1\0\0\0\0\0\0", 20);
    put(f.bytes + 48, types[channels], 4);
    put(f.bytes + 52, channels, 4);
    put(f.bytes + 56, 2822400, 4);
    put(f.bytes + 60, bits, 4);
    put(f.bytes + 64, 8 * live, 8);
    put(f.bytes + 72, BLOCK, 8);
    memcpy(f.bytes + 80, "data", 4);
    put(f.bytes + 84, 12 + data, 8);
    for (uint64_t k = 0; k < data; k++) {
        uint64_t byte = k / (BLOCK * (uint64_t)channels) * BLOCK + k % BLOCK; /* of its channel */
        f.bytes[HEADER + k] = byte < live ? (uint8_t)((x = x * 1664525u + 1013904223u) >> 24) : 0;
    }
    return f;
}

static size_t frame_size(const struct file *f) {
    return (size_t)PUIGNEHT_CHANNEL_BYTES * f->channels;
}

/* Seconds for all frames of a file. */
static double reading(const struct file *f, uint8_t *out) {
    size_t size = frame_size(f);
    double start = now();
    for (uint64_t k = 0; k < f->frames; k++) must(puigneht_dsf_frame(f->bytes, f->length, k, out + k * size, size, NULL));
    return now() - start;
}

/* Seconds for the file of the frames that were read; it is the file that they were read from. */
static double writing(const struct file *f, const uint8_t *frames, uint8_t *again) {
    double start = now();
    must(puigneht_dsf_write(f->channels, frames, f->frames * frame_size(f), again, f->length, NULL));
    double seconds = now() - start;
    if (memcmp(again, f->bytes, f->length)) exit(1);
    return seconds;
}

static double converting(const uint8_t *frames, size_t n, int32_t *out, size_t items) {
    puigneht_settings settings = puigneht_default_settings();
    puigneht_converter c;
    puigneht_stats stats;
    must(puigneht_open(&c, &settings, NULL));
    puigneht_run run = puigneht_cut(&c, frames, n, 0, FRAMES);
    double start = now();
    must(puigneht_convert_run(&c, &run, out, items, &stats, NULL));
    return now() - start;
}

/* Seconds for frame k of a file, of ten calls. */
static double one_frame(const struct file *f, uint64_t k, uint8_t *out) {
    double start = now();
    for (int turn = 0; turn < 10; turn++) must(puigneht_dsf_frame(f->bytes, f->length, k, out, frame_size(f), NULL));
    return (now() - start) / 10;
}

int main(int argc, char **argv) {
    int rounds = argc > 1 ? atoi(argv[1]) : 200;
    struct file low[7], high[7], long_file = random_file(2, LONG, 1);
    uint8_t *out = room((size_t)FRAMES * 6 * PUIGNEHT_CHANNEL_BYTES), *again;
    int32_t *samples = room(FRAMES * 2352 * sizeof *samples);
    double low_best[7], high_best[7], write_best[7], convert_best = 1e9, place_best[PLACES];
    for (uint8_t c = 1; c <= 6; c++) {
        low[c] = random_file(c, FRAMES, 1);
        high[c] = random_file(c, FRAMES, 8);
        low_best[c] = high_best[c] = write_best[c] = 1e9;
    }
    again = room(low[6].length);
    for (int k = 0; k < PLACES; k++) place_best[k] = 1e9;
    for (int round = 0; round < rounds; round++) {
        for (int c = 1; c <= 6; c++) {
            least(&high_best[c], reading(&high[c], out));
            least(&low_best[c], reading(&low[c], out));
            least(&write_best[c], writing(&low[c], out, again));
            if (c == 2) least(&convert_best, converting(out, FRAMES * frame_size(&low[c]), samples, FRAMES * 2352));
        }
        for (int k = 0; k < PLACES; k++) least(&place_best[k], one_frame(&long_file, places[k], out));
    }
    printf("A stereo frame: taken out %.2f us, converted %.2f us (88200 standard): %.3f\n\n", 1e6 * low_best[2] / FRAMES, 1e6 * convert_best / FRAMES,
           low_best[2] / convert_best);
    printf("| Channels | Lowest bit first, ns a byte | Highest first | Written | Written / read |\n|---|---|---|---|---|\n");
    for (int c = 1; c <= 6; c++) {
        double bytes = 1e-9 * FRAMES * c * PUIGNEHT_CHANNEL_BYTES;
        printf("| %d | %.3f | %.3f | %.3f | %.2f |\n", c, low_best[c] / bytes, high_best[c] / bytes, write_best[c] / bytes, write_best[c] / low_best[c]);
    }
    printf("\n| Frame |");
    for (int k = 0; k < PLACES; k++) printf(" %llu |", (unsigned long long)places[k]);
    printf("\n|---|---|---|---|---|---|\n| us |");
    for (int k = 0; k < PLACES; k++) printf(" %.2f |", 1e6 * place_best[k]);
    printf("\n\nThe best of %d rounds; files of %d frames, and one of %d in stereo.\n", rounds, FRAMES, LONG);
    return 0;
}
