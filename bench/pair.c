/* Two libraries in one process, in turns: whether they give the same on random calls, and the time of each on every
 * route. The one before has its calls renamed to before_*: bench/pair does that, builds and runs this.
 * With two words, a rate and a cutoff's number, it makes one conversion by the second library, for bench/stages. */
#define _GNU_SOURCE
#include <stdio.h>
#include <stdlib.h>
#include <string.h>
#include <time.h>
#include "puigneht.h"

extern puigneht_bytes_call_ before_puigneht_convert_call;

enum { MOST_FRAMES = 20, SIZE = 4704, MOST_CHANNELS = 6, FRAMES = 3, CALLS = 30 };

static const char *cutoffs[] = {"standard", "low", "wide"};
static const uint32_t rates[] = {88200, 176400, 352800};

struct call {
    puigneht_converter open;
    size_t frames;
    int own, before, after, lent;
};

static uint8_t in[(MOST_FRAMES + 2) * SIZE * MOST_CHANNELS];
static uint8_t out[2][MOST_FRAMES * SIZE * 3 * MOST_CHANNELS];
static uint64_t counts[2][MOST_FRAMES];
static puigneht_stats stats[2];

static double now(void) {
    struct timespec t;
    clock_gettime(CLOCK_THREAD_CPUTIME_ID, &t);
    return 1e9 * (double)t.tv_sec + (double)t.tv_nsec;
}

/* The conversion by the library before (0) or now (1). */
static uint8_t run(const struct call *c, int which) {
    const size_t size = (size_t)c->open.numbers.frame_bytes;
    const uint8_t *frames = in + size, *after = frames + c->frames * size;
    puigneht_run whole = {c->before ? in : NULL, c->before ? size : 0, frames, c->frames * size, c->after ? after : NULL, c->after ? size : 0};
    puigneht_refusal refusal;
    puigneht_packed packed = puigneht_into(out[which], 3 * puigneht_samples_of(&c->open, c->frames));
    if (c->lent) packed.counts = counts[which], packed.counts_len = c->frames;
    memset(&refusal, 0, sizeof refusal);
    return puigneht_pack_(which ? puigneht_convert_call : before_puigneht_convert_call, &c->open, &whole, &packed, &stats[which], &refusal);
}

/* Bytes, now and then with stretches of silence. */
static void fill(void) {
    for (size_t i = 0; i < sizeof in; i++) in[i] = (uint8_t)(rand() >> 7);
    if (rand() % 4 == 0) memset(in + rand() % (sizeof in / 2), 0x69, sizeof in / 4);
}

/* A filter of one's own, whose taps sum to 2^24 with the centre: its length, now and then. */
static size_t own_filter(int32_t *taps) {
    size_t n = rand() % 3 == 0 ? 1 + (size_t)rand() % PUIGNEHT_MOST_TAPS : 0;
    taps[0] = 1 << 24;
    for (size_t k = 1; k < n; k++) {
        taps[k] = rand() % 200000 - 100000;
        taps[0] -= 2 * taps[k];
    }
    return n;
}

static void same(int calls) {
    int accepted = 0, own = 0, differ = 0;
    for (int i = 0; i < calls; i++) {
        int32_t taps[PUIGNEHT_MOST_TAPS];
        size_t n = own_filter(taps);
        puigneht_settings settings = {rates[rand() % 3], (uint8_t)(rand() % 3), (uint8_t)(1 + rand() % 6), rand() % 130 - 110, n ? taps : NULL, n};
        struct call c = {.own = n > 0, .before = rand() % 2, .after = rand() % 2, .lent = rand() % 2, .frames = 1 + (size_t)rand() % MOST_FRAMES};
        fill();
        if (puigneht_open(&c.open, &settings, NULL)) continue;
        memset(out[0], 1, sizeof out[0]);
        memset(out[1], 1, sizeof out[1]);
        memset(stats, 0, sizeof stats);
        memset(counts, 0, sizeof counts);
        uint8_t a = run(&c, 0), b = run(&c, 1);
        accepted += !a;
        own += !a && c.own;
        differ += a != b || memcmp(out[0], out[1], sizeof out[0]) || memcmp(&stats[0], &stats[1], sizeof stats[0]) || memcmp(counts[0], counts[1], sizeof counts[0]);
    }
    printf("%d calls, %d accepted, %d of them with a filter of one's own: %d differ\n\n", calls, accepted, own, differ);
    if (differ) exit(1);
}

static int by_size(const void *a, const void *b) { return (*(const double *)a > *(const double *)b) - (*(const double *)a < *(const double *)b); }

static int opened(struct call *c, uint32_t rate, uint8_t cutoff, uint8_t channels) {
    puigneht_settings settings = {rate, cutoff, channels, 0, NULL, 0};
    *c = (struct call){.frames = FRAMES, .before = 1, .after = 1};
    return puigneht_open(&c->open, &settings, NULL) == 0;
}

/* The least of all rounds, and how far the quarters of the rounds' ratios lie apart. */
static void times(uint32_t rate, uint8_t cutoff, uint8_t channels, int rounds) {
    struct call c;
    double least[2] = {1e30, 1e30}, *ratio = malloc(sizeof *ratio * (size_t)rounds);
    if (!opened(&c, rate, cutoff, channels) || !ratio) exit(1);
    fill();
    for (int r = 0; r < rounds; r++) {
        double best[2] = {1e30, 1e30};
        for (int i = 0; i < CALLS; i++)
            for (int w = 0; w < 2; w++) {
                double t = now();
                if (run(&c, w)) exit(1);
                t = now() - t;
                if (t < best[w]) best[w] = t;
            }
        for (int w = 0; w < 2; w++)
            if (best[w] < least[w]) least[w] = best[w];
        ratio[r] = best[1] / best[0];
    }
    qsort(ratio, (size_t)rounds, sizeof *ratio, by_size);
    double samples = (double)puigneht_samples_of(&c.open, FRAMES), spread = ratio[3 * rounds / 4] - ratio[rounds / 4];
    printf("| %s %u | %u | %.2f | %.2f | %.3f | %.3f%s |\n", cutoffs[cutoff], rate, channels, least[0] / samples, least[1] / samples, least[1] / least[0], ratio[rounds / 2], spread > 0.02 ? " (spread)" : "");
    free(ratio);
}

int main(int n, char **words) {
    struct call c;
    if (n > 2) return opened(&c, (uint32_t)atoi(words[1]), (uint8_t)atoi(words[2]), 2) ? run(&c, 1) : 1;
    int rounds = n > 1 ? atoi(words[1]) : 30;
    srand(1);
    same(1500);
    printf("| Route | Channels | Before, ns a sample | Now | Least by least | Median of the rounds |\n|---|---|---|---|---|---|\n");
    for (uint8_t channels = 1; channels <= 2; channels++)
        for (uint8_t cutoff = 0; cutoff < 3; cutoff++)
            for (int r = 0; r < 3; r++)
                if (cutoff < 2 || r > 0) times(rates[r], cutoff, channels, rounds);
    return 0;
}
