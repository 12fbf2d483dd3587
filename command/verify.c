/* WAV files compared with what they would be: the same steps, and nothing is written. */
#define _POSIX_C_SOURCE 200809L
#include <stdio.h>
#include <stdlib.h>
#include <string.h>
#include "bytes.h"
#include "convert.h"
#include "ends.h"
#include "jobs.h"
#include "signals.h"
#include "terminal.h"
#include "told.h"
#include "wavfile.h"

typedef unsigned long long number;

static struct outputs outputs;
static struct input wavs[MOST_TRACKS];
static struct sound sounds[MOST_TRACKS];

/* ---- the WAV files */

static void open_wavs(void) {
    for (int k = 0; k < outputs.count; k++) {
        struct output *o = &outputs.of[k];
        if (o->way == PIPED) misused(o->path);
        open_input(&wavs[k], o->path);
        spare(o->path, &wavs[k].is);
        sounds[k] = read_sound(&wavs[k]);
        o->way = COMPARED;
        o->file = wavs[k].file;
        o->begin = sounds[k].begin;
        o->end = sounds[k].end;
    }
}

/* The rate of the files, if none is asked for. */
static void settle_rate(struct asked *a) {
    uint64_t rate = sounds[0].rate;
    if (!a->rate && (rate == 88200 || rate == 176400 || rate == 352800)) a->rate = (uint32_t)rate;
    for (int k = 0; k < outputs.count; k++)
        if (sounds[k].rate != a->rate)
            stop(REFUSED, "%s has %llu samples a second, and not %llu", outputs.of[k].path, (number)sounds[k].rate,
                 a->rate ? (number)a->rate : 88200);
}

static void check_channels(const struct album *album) {
    for (int k = 0; k < outputs.count; k++)
        if (sounds[k].channels != album->opened.numbers.channels)
            stop(REFUSED, "%s has %llu channels, and the album %llu", outputs.of[k].path, (number)sounds[k].channels,
                 (number)album->opened.numbers.channels);
}

/* ---- what is found */

/* Where a file has more samples than the album, the first of these. */
static uint64_t first_surplus(const struct album *album) {
    const uint64_t *marks = album->opened.marks;
    for (int k = 0; k < outputs.count; k++)
        if (outputs.of[k].end - outputs.of[k].begin > outputs.of[k].wave.data)
            return (outputs.count > 1 ? marks[k] : 0) + outputs.of[k].wave.data;
    return UINT64_MAX;
}

/* The file in which a place of the album's samples is, and the place in it; of surplus ones the file that has them. */
static const struct output *file_at(const struct album *album, uint64_t *place) {
    const uint64_t *marks = album->opened.marks;
    for (int k = 0; k < outputs.count; k++) {
        uint64_t begin = outputs.count > 1 ? marks[k] : 0, here = *place - begin;
        const struct output *o = &outputs.of[k];
        if (*place >= begin && (here < o->wave.data || (here == o->wave.data && o->end - o->begin > here))) {
            *place = here;
            return o;
        }
    }
    return &outputs.of[0];
}

static int tell_difference(const struct album *album, uint64_t place) {
    const struct output *o = file_at(album, &place);
    uint64_t channels = album->opened.numbers.channels, rate = album->opened.converter.numbers.rate;
    uint64_t sample = place / (3 * channels), ms = sample * 1000 / rate, has = o->end - o->begin;
    const char *why = place >= has ? ": the file ends there" : place >= o->wave.data ? ": the file goes on there" : "";
    char text[2 * 4096];
    snprintf(text, sizeof text, "%.4000s differs at sample %llu (%llu:%02llu.%03llu), channel %llu%s", o->path,
             (number)sample, (number)(ms / 60000), (number)(ms / 1000 % 60), (number)(ms % 1000),
             (number)(place / 3 % channels), why);
    make_plain(text);
    strcat(text, "\n");
    print(text);
    return REFUSED;
}

/* Whether it is the file that would be made, byte for byte: samples that are the same decide of no header. */
static bool is_whole(const struct output *o, const struct input *wav) {
    uint8_t head[PUIGNEHT_MOST_WAVE_HEAD];
    const puigneht_wave *w = &o->wave;
    if (wav->length != w->length || o->begin != w->head_len) return false;
    read_at(wav->file, wav->path, head, w->head_len, 0);
    return !memcmp(head, w->head, w->head_len);
}

static int tell_same(void) {
    bool whole = true;
    for (int k = 0; k < outputs.count; k++) whole = whole && is_whole(&outputs.of[k], &wavs[k]);
    print(whole ? "same\n" : "same samples (the file is another: its header, its fill, or what is behind them)\n");
    return DONE;
}

/* ---- all */

static void begin(struct album *album, struct asked *a, struct inputs *in) {
    open_inputs(in, a);
    spare_inputs(in);
    name_outputs(&outputs, a);
    open_wavs();
    settle_rate(a);
    open_album(album, a, in);
    head_outputs(&outputs, album);
    check_channels(album);
    tell_order(a);
    tell_settings(album);
}

int verify(const struct asked *asked, const struct words *words) {
    struct asked a = *asked;
    struct album album;
    struct inputs in;
    double began = seconds();
    take_files(&a, words);
    end_jobs_with_run();
    begin(&album, &a, &in);
    check_standard_output();
    begin_progress(album_name(&a).name, album.opened.numbers.frames);
    struct gave all = convert_all(&album, &outputs);
    check_unchanged(&in);
    tell_speed(&album, began);
    uint64_t surplus = first_surplus(&album), differs = surplus < all.differs ? surplus : all.differs;
    return differs == UINT64_MAX ? tell_same() : tell_difference(&album, differs);
}
