/* What is said of a conversion that goes as it should. */
#define _POSIX_C_SOURCE 200809L
#include "told.h"
#include <stdio.h>
#include <string.h>
#include "ends.h"
#include "jobs.h"
#include "names.h"
#include "terminal.h"

typedef unsigned long long number;

struct called album_name(const struct asked *a) {
    struct called c = {""};
    if (has_tracks(a)) folder_name(a->folder, c.name, sizeof c.name);
    else if (a->count > 1 && strcmp(a->all, "-")) snprintf(c.name, sizeof c.name, "%s", base_of(a->all));
    if (!*c.name) snprintf(c.name, sizeof c.name, "%s", base_of(a->tracks[0]));
    return c;
}

/* ---- tracks */

void tell_order(const struct asked *a) {
    if (a->count < 2) return;
    for (int k = 0; k < a->count; k++) note("track %d: %s", k + 1, a->tracks[k]);
    for (int k = 1; k < a->count; k++) {
        if (!runs_backwards(a->tracks[k - 1], a->tracks[k])) continue;
        warn("is this the album's order? Numbers run backwards from track %d, %s, to track %d, %s", k,
             base_of(a->tracks[k - 1]), k + 1, base_of(a->tracks[k]));
        return;
    }
}

/* ---- headers */

/* A number with a comma between groups of three digits. */
static void put_grouped(char *text, size_t room, uint64_t n) {
    char digits[32];
    int count = snprintf(digits, sizeof digits, "%llu", (number)n);
    size_t length = 0;
    for (int k = 0; k < count && length + 2 < room; k++) {
        if (k && (count - k) % 3 == 0) text[length++] = ',';
        text[length++] = digits[k];
    }
    text[length] = 0;
}

static void tell_header(const struct outputs *o, const struct album *album, size_t head_len, const char *what) {
    const struct output *first = NULL;
    int more = -1;
    for (int k = 0; k < o->count; k++) {
        if (o->of[k].way == KEPT || o->of[k].wave.head_len != head_len) continue;
        first = first ? first : &o->of[k];
        more++;
    }
    if (!first) return;
    char others[40] = "", bytes[40];
    if (more) snprintf(others, sizeof others, " and %d more", more);
    put_grouped(bytes, sizeof bytes, first->wave.data);
    note("%s%s: %s (%llu channel%s, %s bytes of samples)", first->path, others, what,
         (number)album->opened.numbers.channels, album->opened.numbers.channels == 1 ? "" : "s", bytes);
}

void tell_headers(const struct outputs *o, const struct album *album) {
    if (album->asked->format != PUIGNEHT_FORMAT_AUTO) return;
    tell_header(o, album, PUIGNEHT_EXTENSIBLE_HEAD, "the extensible header, which names the loudspeakers");
    tell_header(o, album, PUIGNEHT_RF64_HEAD, "RF64, which holds more than a plain WAV file");
    tell_header(o, album, PUIGNEHT_RF64_EXTENSIBLE_HEAD, "RF64 with loudspeakers named, which holds more than a WAV file");
}

void tell_filled(const struct album *album) {
    number filled = album->opened.numbers.filled;
    if (filled && !has_tracks(album->asked))
        note("the album ends inside a frame: %llu bytes of each channel are filled up with 0x69 (%s)", filled,
             album->asked->tracks[album->asked->count - 1]);
}

/* ---- settings and speed */

static const char *route_of(const struct asked *a) {
    static const char *const routes[] = {"standard, flat to 40 kHz, nothing from 48 kHz on",
                                         "low, flat to 30 kHz, nothing from 36 kHz on"};
    if (a->taps) return "a low-pass of your own";
    if (a->cutoff <= PUIGNEHT_LOW) return routes[a->cutoff];
    return a->rate == 176400 ? "wide, flat to 80 kHz, nothing from 88.2 kHz on"
                             : "wide, flat to 80 kHz, nothing from 96 kHz on";
}

static void put_minutes(char *text, size_t room, uint64_t frames) {
    uint64_t tenths = frames * 10 / 75;
    snprintf(text, room, "%llu:%02llu.%llu", (number)(tenths / 600), (number)(tenths / 10 % 60), (number)(tenths % 10));
}

void tell_settings(const struct album *album) {
    const struct asked *a = album->asked;
    const puigneht_album_numbers *n = &album->opened.numbers;
    char minutes[40];
    if (!a->verbose) return;
    put_minutes(minutes, sizeof minutes, n->frames);
    note("%s: %llu track%s, %s minutes, %llu channel%s at 2,822.4 kHz, 1 bit", album_name(a).name, (number)a->count,
         a->count == 1 ? "" : "s", minutes, (number)n->channels, n->channels == 1 ? "" : "s");
    note("to %.1f kHz, 24 bits; %s; gain %g dB; up to %llu processes",
         (double)album->opened.converter.numbers.rate / 1000, route_of(a), a->decibels, (number)parts_of(a));
}

void tell_speed(const struct album *album, double began) {
    double took = seconds() - began;
    if (album->asked->verbose)
        note("done in %.1f s, %.0f times real time", took, (double)album->opened.numbers.frames / 75 / (took > 0.001 ? took : 0.001));
}
