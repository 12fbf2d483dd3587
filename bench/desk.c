/* The time that the largest call of the listening desk takes: 8 frames of 6 channels with both neighbours and the
 * counts lent, each route, random bytes at 0 dB. Printed are the least, the median and the longest of 201 calls in
 * milliseconds, and the median as a share of the 8/75 s that the frames play. bench/desk builds and runs it. */
#define _GNU_SOURCE
#include <stdio.h>
#include <stdlib.h>
#include <time.h>
#include "puigneht.h"

enum { FRAMES = PUIGNEHT_DESK_FRAMES, CHANNELS = 6, ROUNDS = 201, SIZE = PUIGNEHT_CHANNEL_BYTES * CHANNELS };

static uint8_t in[(FRAMES + 2) * SIZE];
static uint8_t out[FRAMES * 3 * 4704 * CHANNELS];

static double now(void) {
    struct timespec t;
    clock_gettime(CLOCK_MONOTONIC, &t);
    return 1e3 * (double)t.tv_sec + 1e-6 * (double)t.tv_nsec;
}

static int by_size(const void *a, const void *b) {
    double x = *(const double *)a, y = *(const double *)b;
    return (x > y) - (x < y);
}

/* Milliseconds of one call. */
static double call(const puigneht_converter *c) {
    uint64_t counts[FRAMES];
    puigneht_stats stats;
    puigneht_run run = puigneht_cut(c, in, sizeof in, 1, FRAMES);
    puigneht_packed packed = puigneht_counted(out, puigneht_bytes_of(c, FRAMES), counts, FRAMES);
    double start = now();
    uint8_t answer = puigneht_convert_desk(c, &run, &packed, &stats, NULL);
    double taken = now() - start;
    if (answer != PUIGNEHT_ACCEPTED) exit(1);
    return taken;
}

int main(void) {
    static const uint32_t rates[] = {88200, 176400, 352800};
    static const char *const cutoffs[] = {"standard", "low", "wide"};
    double taken[ROUNDS];
    uint32_t x = 1;
    for (size_t k = 0; k < sizeof in; k++) in[k] = (uint8_t)((x = x * 1664525u + 1013904223u) >> 24);
    for (int route = 0; route < 9; route++) {
        if (route == 6) continue; /* wide at 88,200 */
        puigneht_settings settings = {rates[route % 3], (uint32_t)route / 3, CHANNELS, 0, NULL, 0};
        puigneht_converter c;
        if (puigneht_open(&c, &settings, NULL)) return 1;
        for (int k = 0; k < ROUNDS; k++) taken[k] = call(&c);
        qsort(taken, ROUNDS, sizeof *taken, by_size);
        printf("%s %u: least %.3f ms, median %.3f, longest %.3f; %.2f %% of real time\n", cutoffs[settings.cutoff], settings.rate, taken[0],
               taken[ROUNDS / 2], taken[ROUNDS - 1], 100 * taken[ROUNDS / 2] / (1e3 * FRAMES / 75));
    }
    return 0;
}
