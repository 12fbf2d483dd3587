/* The second entry (header and sample bytes into an output) beside a memcpy of the sample bytes, and the header alone
 * (a file of no frames), by frames and format. bench/wav builds and runs it.
 *
 * A round makes the call, or the copy, often enough for some milliseconds, the two in turn; the least time of the
 * rounds is taken. */
#define _GNU_SOURCE
#include <stdio.h>
#include <stdlib.h>
#include <string.h>
#include <time.h>
#include "puigneht.h"

enum { ROUNDS = 15 };

static const uint32_t rates[] = {88200, 176400, 352800};
static const size_t frames[] = {1, 2, 4, 8, 75, 1000};

static double now(void) {
    struct timespec t;
    clock_gettime(CLOCK_MONOTONIC, &t);
    return (double)t.tv_sec + 1e-9 * (double)t.tv_nsec;
}

static void write_file(uint32_t rate, uint8_t channels, const uint8_t *in, size_t n, uint8_t *out) {
    puigneht_wav like = {rate, channels, 0, 0};
    if (puigneht_wav_write(&like, in, n, out, n + PUIGNEHT_WAV_HEADER, NULL)) exit(1);
}

int main(void) {
    size_t most = (size_t)1000 * 28224;
    uint8_t *in = malloc(most), *out = malloc(most + PUIGNEHT_WAV_HEADER);
    if (!in || !out) return 1;
    for (size_t i = 0; i < most; i++) in[i] = (uint8_t)(i * 167 >> 3);
    memset(out, 0, most + PUIGNEHT_WAV_HEADER);
    volatile uint8_t sink = 0;
    double start = now();
    for (int i = 0; i < 1000000; i++) {
        write_file(rates[i % 3], (uint8_t)(1 + i % 2), in, 0, out);
        sink ^= out[24];
    }
    printf("a file of no frames: %.0f ns\n\n", (now() - start) * 1e3);
    printf("%8s %9s %7s %10s %12s %12s %6s\n", "rate", "channels", "frames", "bytes", "wav ns", "memcpy ns", "ratio");
    for (int r = 0; r < 3; r++)
        for (uint8_t channels = 1; channels <= 2; channels++)
            for (size_t f = 0; f < sizeof frames / sizeof *frames; f++) {
                size_t n = frames[f] * rates[r] / 75 * 3 * channels, times = 20000000 / n + 1;
                double best[2] = {1e9, 1e9};
                for (int round = 0; round < ROUNDS; round++)
                    for (int which = 0; which < 2; which++) {
                        start = now();
                        for (size_t i = 0; i < times; i++) {
                            if (which)
                                memcpy(out + PUIGNEHT_WAV_HEADER, in, n);
                            else
                                write_file(rates[r], channels, in, n, out);
                            __asm__ volatile("" : : "r"(out) : "memory");
                            sink ^= out[PUIGNEHT_WAV_HEADER + i % n];
                        }
                        double t = (now() - start) / (double)times;
                        if (t < best[which]) best[which] = t;
                    }
                printf("%8u %9u %7zu %10zu %12.0f %12.0f %6.2f\n", rates[r], channels, frames[f], n, best[0] * 1e9, best[1] * 1e9, best[0] / best[1]);
            }
    return 0;
}
