/* Seconds that a 60-minute album takes, for every route, in stereo and six channels, as one run and in pieces; and ns a
 * sample by the length of a run, by the number of channels and by the number of a filter's taps. bench/album builds and
 * runs it.
 *
 * A stretch of the album is converted (argument: seconds of it, 20 by default) and its time scaled to 60 minutes.
 * Conversions run in a thread whose stack is painted before, so that the deepest use of it can be read off after. */
#define _GNU_SOURCE
#include <pthread.h>
#include <stdio.h>
#include <stdlib.h>
#include <string.h>
#include <time.h>
#include "puigneht.h"

enum { FRAMES_A_SECOND = 75, ALBUM_SECONDS = 3600, STACK = 1 << 20, PAINT = 0xa5, ROUNDS = 3 };

static const char *cutoffs[] = {"standard", "low", "wide"};
static const uint32_t rates[] = {88200, 176400, 352800};
static const size_t pieces[] = {0, 1, 8, 75, 1000}; /* 0: one run */

struct album {
    uint32_t rate;
    uint8_t cutoff, channels;
    size_t frames, piece, size, out_size; /* bytes of a frame, in and out */
    size_t taps;                          /* of a filter of one's own; 0: none */
    const uint8_t *in;
    uint8_t *out;
    uint64_t clips;
    double seconds;
};

static int32_t own[PUIGNEHT_MOST_TAPS];

/* n taps of either sign, which sum to 2^24 with the centre. */
static void make_filter(size_t n) {
    own[0] = 1 << 24;
    for (size_t k = 1; k < n; k++) {
        own[k] = (k % 3 ? 90000 : -90000) - 100 * (int32_t)k;
        own[0] -= 2 * own[k];
    }
}

static double now(void) {
    struct timespec t;
    clock_gettime(CLOCK_MONOTONIC, &t);
    return (double)t.tv_sec + 1e-9 * (double)t.tv_nsec;
}

/* The stretch, piece by piece, each with the frames next to it. */
static void *convert(void *argument) {
    struct album *a = argument;
    puigneht_settings settings = {a->rate, a->cutoff, a->channels, 0, a->taps ? own : NULL, a->taps};
    puigneht_converter c;
    puigneht_stats stats;
    if (puigneht_open(&c, &settings, NULL)) exit(1);
    double start = now();
    for (size_t at = 0; at < a->frames;) {
        puigneht_run run = puigneht_cut(&c, a->in, a->frames * a->size, at, a->piece ? a->piece : a->frames);
        size_t n = puigneht_frames_of(&c, &run);
        puigneht_packed out = puigneht_into(a->out + at * a->out_size, n * a->out_size);
        if (puigneht_convert(&c, &run, &out, &stats, NULL)) exit(1);
        for (int k = 0; k < PUIGNEHT_MOST_CHANNELS; k++) a->clips += stats.clipped[k];
        at += n;
    }
    a->seconds = now() - start;
    return NULL;
}

/* Runs the conversion on a painted stack; gives the bytes of it that were used. */
static size_t on_painted_stack(struct album *a, unsigned char *stack) {
    pthread_attr_t attributes;
    pthread_t thread;
    memset(stack, PAINT, STACK);
    pthread_attr_init(&attributes);
    if (pthread_attr_setstack(&attributes, stack, STACK) || pthread_create(&thread, &attributes, convert, a)) exit(1);
    pthread_join(thread, NULL);
    pthread_attr_destroy(&attributes);
    size_t untouched = 0;
    while (untouched < STACK && stack[untouched] == PAINT) untouched++;
    return STACK - untouched;
}

static struct album stretch(int route, uint8_t channels, size_t frames, size_t piece, const uint8_t *in, uint8_t *out) {
    size_t samples = (size_t)rates[route % 3] / FRAMES_A_SECOND;
    return (struct album){.rate = rates[route % 3], .cutoff = (uint8_t)(route / 3), .channels = channels, .frames = frames, .piece = piece,
                          .size = (size_t)PUIGNEHT_CHANNEL_BYTES * channels, .out_size = samples * channels * 3, .in = in, .out = out};
}

/* ns a sample of runs of that many frames with no neighbours, over some 1,000 frames; the best of the rounds. */
static double each(int route, uint8_t channels, size_t frames, size_t taps, const uint8_t *in, uint8_t *out) {
    struct album a = stretch(route, channels, frames, 0, in, out);
    a.taps = taps;
    double best = 1e9;
    size_t runs = 1000 / frames;
    for (int round = 0; round < ROUNDS; round++) {
        double total = 0;
        for (size_t k = 0; k < runs; k++) {
            convert(&a);
            total += a.seconds;
        }
        if (total < best) best = total;
    }
    return 3e9 * best / (double)(runs * frames * a.out_size);
}

static void lengths_and_channels(const uint8_t *in, uint8_t *out) {
    printf("\n| Route | 1 frame | 10 | 100 | 1,000 | 1 channel | 2 | 3 | 4 | 5 | 6 |\n|---|---|---|---|---|---|---|---|---|---|---|\n");
    for (int route = 0; route < 9; route++) {
        if (route == 6) continue; /* wide at 88,200 */
        printf("| %s %u |", cutoffs[route / 3], rates[route % 3]);
        for (size_t frames = 1; frames <= 1000; frames *= 10) printf(" %.2f |", each(route, 2, frames, 0, in, out));
        for (uint8_t channels = 1; channels <= 6; channels++) printf(" %.2f |", each(route, channels, 100, 0, in, out));
        printf("\n");
        fflush(stdout);
    }
    printf("\nns a sample, packed; runs of 1 to 1,000 frames in stereo, and of 100 frames with 1 to 6 channels; the best of %d.\n", ROUNDS);
}

static void filters(const uint8_t *in, uint8_t *out) {
    static const size_t taps[] = {0, 1, 31, 61, 117};
    printf("\n| Standard | F40 | 1 tap | 31 | 61 | 117 |\n|---|---|---|---|---|---|\n");
    for (int rate = 0; rate < 3; rate++) {
        printf("| %u |", rates[rate]);
        for (size_t k = 0; k < sizeof taps / sizeof *taps; k++) {
            make_filter(taps[k]);
            printf(" %.2f |", each(rate, 2, 100, taps[k], in, out));
        }
        printf("\n");
        fflush(stdout);
    }
    printf("\nns a sample, packed, of runs of 100 frames in stereo with the built-in filter and with one's own; the best of %d.\n", ROUNDS);
}

int main(int argc, char **argv) {
    size_t frames = (argc > 1 ? strtoul(argv[1], NULL, 10) : 20) * FRAMES_A_SECOND;
    size_t deepest = 0;
    unsigned char *stack = aligned_alloc(4096, STACK);
    uint8_t *in = malloc(frames * 6 * PUIGNEHT_CHANNEL_BYTES), *out = malloc(frames * 6 * 4704 * 3);
    if (!stack || !in || !out) return 1;
    uint32_t x = 1;
    for (size_t k = 0; k < frames * 6 * PUIGNEHT_CHANNEL_BYTES; k++) in[k] = (uint8_t)((x = x * 1664525u + 1013904223u) >> 24);
    printf("| Route | Channels | One run | 1 frame a piece | 8 | 75 | 1,000 |\n|---|---|---|---|---|---|---|\n");
    for (int route = 0; route < 9; route++) {
        if (route == 6) continue; /* wide at 88,200 */
        for (uint8_t channels = 2; channels <= 6; channels += 4) {
            printf("| %s %u | %u |", cutoffs[route / 3], rates[route % 3], channels);
            for (size_t p = 0; p < sizeof pieces / sizeof *pieces; p++) {
                struct album a = stretch(route, channels, frames, pieces[p], in, out);
                double best = 1e9;
                for (int round = 0; round < ROUNDS; round++) {
                    size_t used = on_painted_stack(&a, stack);
                    if (used > deepest) deepest = used;
                    if (a.seconds < best) best = a.seconds;
                }
                printf(" %.2f |", best * ALBUM_SECONDS * FRAMES_A_SECOND / (double)frames);
            }
            printf("\n");
            fflush(stdout);
        }
    }
    printf("\nSeconds for 60 minutes, scaled from %zu s; the best of %d. Deepest stack %zu bytes, the thread's own part included.\n",
           frames / FRAMES_A_SECOND, ROUNDS, deepest);
    if (frames >= 1000) lengths_and_channels(in, out);
    filters(in, out);
    return 0;
}
