/* Pieces beside WAV files that are there. */
#define _POSIX_C_SOURCE 200809L
#include "compared.h"
#include <string.h>
#include "bytes.h"

/* How many bytes are the same at the beginning. */
static size_t same(const uint8_t *one, const uint8_t *other, size_t count) {
    size_t k = 0;
    if (!memcmp(one, other, count)) return count;
    while (one[k] == other[k]) k++;
    return k;
}

/* How many of the bytes stand in the file; they are to stand from byte `place` of its samples on. */
static size_t same_in_file(const struct output *o, const uint8_t *bytes, size_t count, uint64_t place) {
    static uint8_t found[1 << 16];
    uint64_t all = o->end - o->begin, left = place < all ? all - place : 0;
    size_t done = 0, held = count < left ? count : (size_t)left;
    while (done < held) {
        size_t n = held - done < sizeof found ? held - done : sizeof found;
        read_at(o->file, o->path, found, n, o->begin + place + done);
        size_t alike = same(found, bytes + done, n);
        done += alike;
        if (alike < n) break;
    }
    return done;
}

/* A file may end where the album's last track does, before the fill. */
static bool is_excused(const struct output *o, const struct album *album, uint64_t place) {
    return place == o->end - o->begin && place == album->opened.marks[album->opened.tracks];
}

uint64_t compare_piece(const struct outputs *o, const struct album *album, const puigneht_piece *p) {
    puigneht_write w;
    for (int k = 0; k < o->count; k++) {
        const struct output *out = &o->of[k];
        if (!has_part(album, out, p, &w)) continue;
        uint64_t place = w.place - out->wave.head_len;
        size_t alike = same_in_file(out, w.bytes, w.length, place);
        if (alike < w.length && !is_excused(out, album, place + alike))
            return p->place + (uint64_t)(w.bytes - p->bytes) + alike;
    }
    return UINT64_MAX;
}
