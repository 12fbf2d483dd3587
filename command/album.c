/* An album, and all that is asked of the proved libraries for it. */
#define _POSIX_C_SOURCE 200809L
#define _FILE_OFFSET_BITS 64
#include "album.h"
#include <stdlib.h>
#include "bytes.h"
#include "ends.h"
#include "taps.h"

/* Ends the run where it fails. */
static int read_input(void *context, uint64_t place, uint8_t *bytes, size_t count) {
    const struct input *in = context;
    read_at(in->file, in->path, bytes, count, place);
    return 0;
}

/* ---- opening */

static bool is_of_taps(const puigneht_refusal *r) {
    return r->number == PUIGNEHT_REFUSED_TAPS || r->number == PUIGNEHT_REFUSED_TAP_SUMS;
}

/* A track is named with its number, where there are several. */
static _Noreturn void refuse_track(const struct album *album, const puigneht_refusal *r) {
    char text[PUIGNEHT_DESCRIPTION_ROOM];
    const struct asked *a = album->asked;
    if (is_of_taps(r) && a->taps) refuse(r, a->taps);
    if (a->count == 1 || r->track >= a->count) refuse(r, a->tracks[0]);
    stop(REFUSED, "%s (track %d, %s)", puigneht_describe(r, text, sizeof text), r->track + 1, a->tracks[r->track]);
}

void open_album(struct album *album, const struct asked *a, const struct inputs *in) {
    puigneht_settings settings = puigneht_default_settings();
    puigneht_source sources[MOST_TRACKS];
    puigneht_refusal r;
    struct filter filter;
    album->asked = a;
    album->in = in;
    for (int k = 0; k < in->count; k++)
        sources[k] = (puigneht_source){read_input, (void *)&in->of[k], in->of[k].length};
    if (a->rate) settings.rate = a->rate;
    settings.cutoff = a->cutoff;
    settings.decibels = a->decibels;
    if (a->taps) {
        read_filter(&filter, &in->taps);
        settings.taps = filter.taps;
        settings.taps_len = filter.count;
    }
    if (puigneht_album_open(&album->opened, sources, (size_t)in->count, &settings, &r)) refuse_track(album, &r);
}

/* ---- its files and pieces */

struct part part_of(const struct album *album, uint64_t parts, uint64_t part) {
    puigneht_stretch pieces = puigneht_album_part(&album->opened, parts, part);
    return (struct part){pieces.begin, pieces.end, 1};
}

void head_of(const struct album *album, uint64_t track, const char *path, puigneht_wave *wave) {
    puigneht_refusal r;
    if (!puigneht_album_header(&album->opened, album->asked->format, track, wave, &r)) return;
    if (track == PUIGNEHT_ALL && album->asked->count > 1) refuse(&r, path);
    refuse_track(album, &r);
}

/* The album was opened and the numbers of its pieces are its own: a refusal is no user's mistake. */
static void expect(uint8_t answer, const struct album *album, uint64_t number, const puigneht_refusal *r) {
    char text[PUIGNEHT_DESCRIPTION_ROOM];
    if (answer)
        stop(SYSTEM, "piece %llu of %s: %s", (unsigned long long)number, album->asked->tracks[0],
             puigneht_describe(r, text, sizeof text));
}

puigneht_piece planned_piece(const struct album *album, uint64_t number) {
    puigneht_piece piece;
    puigneht_refusal r;
    expect(puigneht_album_plan(&album->opened, number, &piece, &r), album, number, &r);
    return piece;
}

puigneht_memory memory_of(const struct album *album) {
    size_t length = puigneht_album_memory(&album->opened);
    puigneht_memory memory = {malloc(length + !length), length};
    if (!memory.bytes) failed("get memory for", album->asked->tracks[0]);
    return memory;
}

puigneht_piece convert_piece(const struct album *album, uint64_t number, const puigneht_memory *memory) {
    puigneht_piece piece;
    puigneht_refusal r;
    expect(puigneht_album_piece(&album->opened, number, memory, &piece, &r), album, number, &r);
    return piece;
}

puigneht_frames frames_of(const struct album *album, uint64_t number, const puigneht_memory *memory) {
    puigneht_frames frames;
    puigneht_refusal r;
    expect(puigneht_album_frames(&album->opened, number, memory, &frames, &r), album, number, &r);
    return frames;
}

void join(puigneht_stats *s, const puigneht_stats *more) {
    if (puigneht_join_stats(s, more)) stop(SYSTEM, "statistics that are none");
}

void sheet_of(const struct album *album, const puigneht_stats *s, char *text) {
    puigneht_refusal r;
    if (puigneht_level_sheet(s, album->opened.numbers.channels, text, PUIGNEHT_SHEET_ROOM, &r))
        refuse(&r, album->asked->tracks[0]);
}
