/* Writes a sample album: some seconds of a chord, in stereo, as a DSF file (DSD64, lowest bit first), by a delta-sigma
 * modulator of second order.
 *
 *     cc -O2 tools/chord.c -o target/chord -lm
 *     target/chord SECONDS OUT.dsf                          (1 to 3600 seconds) */
#include <errno.h>
#include <math.h>
#include <stdint.h>
#include <stdio.h>
#include <stdlib.h>
#include <string.h>

enum { BLOCK = 4096, CHANNELS = 2, TONES = 4, HEAD = 92, FREQUENCY = 2822400 };

/* A tone: a point that turns on a circle; its height is the sound. */
struct tone {
    double x, y, cosine, sine;
};

/* The two sums of the modulator. */
struct channel {
    struct tone tones[TONES];
    double first, second;
};

/* A major, its tones a little apart on the right. A quarter of 50 % modulation each, so the chord is at most SACD's 0
 * dB. */
static const double pitches[TONES] = {220.0, 277.18, 329.63, 440.0};
static const double detuned[CHANNELS] = {1.0, 1.002};
static const double level = 0.125;

static struct channel started(double by) {
    struct channel c = {.first = 0};
    for (int k = 0; k < TONES; k++) {
        double turn = 2 * acos(-1) * pitches[k] * by / FREQUENCY;
        c.tones[k] = (struct tone){.x = 1, .y = 0, .cosine = cos(turn), .sine = sin(turn)};
    }
    return c;
}

static double next_sound(struct channel *c) {
    double sum = 0;
    for (int k = 0; k < TONES; k++) {
        struct tone *t = &c->tones[k];
        double x = t->x * t->cosine - t->y * t->sine;
        t->y = t->x * t->sine + t->y * t->cosine;
        t->x = x;
        sum += t->y;
    }
    return level * sum;
}

/* One bit: what is fed back is what the bit stands for, +1 or -1. */
static int next_bit(struct channel *c, double loudness) {
    int bit = c->second >= 0;
    double back = bit ? 1 : -1;
    c->first += loudness * next_sound(c) - back;
    c->second += c->first - back;
    return bit;
}

/* A tenth of a second fades in, and one out. */
static double loudness(uint64_t at, uint64_t samples) {
    double edge = FREQUENCY / 10, from_end = (double)(samples - at), from_start = (double)at;
    double nearest = from_start < from_end ? from_start : from_end;
    return nearest < edge ? nearest / edge : 1;
}

static void fill(struct channel *c, uint64_t from, uint64_t samples, uint8_t *block) {
    memset(block, 0, BLOCK);
    for (uint64_t k = 0; k < 8 * BLOCK && from + k < samples; k++)
        block[k / 8] |= (uint8_t)(next_bit(c, loudness(from + k, samples)) << k % 8);
}

static void put(uint8_t *at, uint64_t value, int bytes) {
    for (int k = 0; k < bytes; k++) at[k] = (uint8_t)(value >> 8 * k);
}

static void put_head(uint8_t *head, uint64_t samples, uint64_t data) {
    memset(head, 0, HEAD);
    memcpy(head, "DSD ", 4), put(head + 4, 28, 8), put(head + 12, HEAD + data, 8);
    memcpy(head + 28, "fmt ", 4), put(head + 32, 52, 8), put(head + 40, 1, 4);
    put(head + 48, 2, 4), put(head + 52, CHANNELS, 4), put(head + 56, FREQUENCY, 4), put(head + 60, 1, 4);
    put(head + 64, samples, 8), put(head + 72, BLOCK, 4);
    memcpy(head + 80, "data", 4), put(head + 84, 12 + data, 8);
}

static int stop(const char *what) {
    fprintf(stderr, "chord: %s: %s\n", what, strerror(errno));
    return 1;
}

int main(int argc, char **argv) {
    long seconds = argc == 3 ? strtol(argv[1], NULL, 10) : 0;
    if (seconds < 1 || seconds > 3600) return fprintf(stderr, "usage: chord SECONDS OUT.dsf\n"), 2;
    uint64_t samples = (uint64_t)seconds * FREQUENCY, groups = (samples + 8 * BLOCK - 1) / (8 * BLOCK);
    uint8_t head[HEAD], block[BLOCK];
    struct channel channels[CHANNELS];
    FILE *out = fopen(argv[2], "wb");
    if (!out) return stop(argv[2]);
    put_head(head, samples, groups * CHANNELS * BLOCK);
    fwrite(head, 1, HEAD, out);
    for (int c = 0; c < CHANNELS; c++) channels[c] = started(detuned[c]);
    for (uint64_t g = 0; g < groups * CHANNELS; g++) {
        fill(&channels[g % CHANNELS], g / CHANNELS * 8 * BLOCK, samples, block);
        fwrite(block, 1, BLOCK, out);
    }
    if (fflush(out) || ferror(out) || fclose(out)) return stop(argv[2]);
    return 0;
}
