/* The WAV files of a conversion, and its sheet. */
#define _POSIX_C_SOURCE 200809L
#include "outputs.h"
#include <string.h>
#include <unistd.h>
#include "bytes.h"
#include "ends.h"
#include "names.h"
#include "places.h"

/* A system that says that a file is there, and that none is, is asked no more often: signals wait meanwhile. */
enum { MOST_LOOKS = 100 };

bool has_sheet_file(const struct asked *a) {
    return a->sheet && strcmp(a->sheet, "-");
}

bool has_tracks(const struct asked *a) {
    return a->folder && !a->each;
}

void name_outputs(struct outputs *o, const struct asked *a) {
    o->count = has_tracks(a) ? a->count : 1;
    for (int k = 0; k < o->count; k++) {
        o->of[k].path = has_tracks(a) ? wav_of(a->folder, a->tracks[k]) : a->all;
        o->of[k].way = strcmp(o->of[k].path, "-") ? MADE : PIPED;
    }
}

/* ---- headers */

void head_outputs(struct outputs *o, const struct album *album) {
    for (int k = 0; k < o->count; k++)
        head_of(album, has_tracks(album->asked) ? (uint64_t)k : PUIGNEHT_ALL, o->of[k].path, &o->of[k].wave);
}

static void write_head(const struct output *o) {
    static const uint8_t zero[1];
    const puigneht_wave *w = &o->wave;
    write_at(o->made.file, o->path, w->head, w->head_len, 0);
    write_at(o->made.file, o->path, zero, (size_t)w->pad, w->length - w->pad);
}

void write_heads(const struct outputs *o) {
    for (int k = 0; k < o->count; k++)
        if (o->of[k].way == MADE) write_head(&o->of[k]);
}

/* ---- pieces */

bool has_part(const struct album *album, const struct output *o, const puigneht_piece *p, puigneht_write *w) {
    *w = puigneht_album_write(&album->opened, &o->wave, p);
    return w->length > 0;
}

void write_piece(const struct outputs *o, const struct album *album, const puigneht_piece *p) {
    puigneht_write w;
    for (int k = 0; k < o->count; k++)
        if (o->of[k].way == MADE && has_part(album, &o->of[k], p, &w))
            write_at(o->of[k].made.file, o->of[k].path, w.bytes, w.length, w.place);
}

/* ---- made, and taken back */

void make_all(struct outputs *o, const struct asked *a) {
    for (int k = 0; k < o->count; k++)
        if (o->of[k].way == MADE) make(&o->of[k].made, o->of[k].path);
    if (has_sheet_file(a) && !o->sheet_kept) make(&o->sheet, a->sheet);
    if (a->sheet && !has_sheet_file(a)) check_standard_output();
}

void settle_all(struct outputs *o) {
    for (int k = 0; k < o->count; k++)
        if (o->of[k].way == MADE) settle(&o->of[k].made);
}

void unmake_all(struct outputs *o) {
    for (int k = 0; k < o->count; k++) unmake(&o->of[k].made);
    unmake(&o->sheet);
}

/* ---- names */

/* What came meanwhile is looked at as what was there before, and may be gone again by then; passed over, the file that
 * was made is not needed. */
static void name_one(struct output *o, const struct asked *a, const struct inputs *in) {
    for (int looks = 0; !name_new(&o->made); looks++) {
        if (looks == MOST_LOOKS) name_failed(&o->made);
        if (!look_again(o, a, in)) {
            unmake(&o->made);
            o->way = KEPT;
            return;
        }
        if (a->there == REPLACE && name_over(&o->made)) return;
    }
}

static void name_sheet(struct outputs *o, const struct asked *a, const struct inputs *in) {
    for (int looks = 0; !name_new(&o->sheet); looks++) {
        if (looks == MOST_LOOKS) name_failed(&o->sheet);
        if (!look_at_sheet_again(o, a, in)) {
            unmake(&o->sheet);
            return;
        }
        if (a->there == REPLACE && name_over(&o->sheet)) return;
    }
}

/* The WAV files of tracks stand in one folder. */
static void settle_folders(const struct outputs *o) {
    const struct made *first = NULL;
    for (int k = 0; k < o->count && !first; k++)
        if (o->of[k].way == MADE) first = &o->of[k].made;
    if (o->sheet.taken) settle_folder(&o->sheet);
    if (first) settle_folder(first);
}

/* Until the end all can be taken back. */
void name_all(struct outputs *o, const struct asked *a, const struct inputs *in) {
    if (o->sheet.path) name_sheet(o, a, in);
    for (int k = 0; k < o->count; k++)
        if (o->of[k].way == MADE) name_one(&o->of[k], a, in);
    settle_folders(o);
    keep(&o->sheet);
    for (int k = 0; k < o->count; k++) keep(&o->of[k].made);
}
