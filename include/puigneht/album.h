/* DSF albums as the bytes of WAV files, piece by piece: the library libpuigneht_album.a, before libpuigneht.a. An album
 * is a list of tracks, one DSF file each, of one channel type (one to six channels); a single file is a list of one.
 * It is converted as one run, so no border is heard.
 *
 *     puigneht_source sources[] = {{read_at, &first, length_of_first}, {read_at, &second, length_of_second}};
 *     puigneht_settings settings = puigneht_default_settings();
 *     puigneht_album album;
 *     if (puigneht_album_open(&album, sources, 2, &settings, &refusal)) ...
 *     size_t room = puigneht_album_memory(&album);
 *     puigneht_memory memory = {malloc(room), room};                        one for each thread
 *     for (uint64_t t = 0; t < album.tracks; t++) {
 *         if (puigneht_album_header(&album, PUIGNEHT_FORMAT_AUTO, t, &waves[t], &refusal)) ...
 *         write_at(out[t], waves[t].head, waves[t].head_len, 0);
 *         write_at(out[t], "", waves[t].pad, waves[t].length - waves[t].pad);
 *     }
 *     for (uint64_t k = 0; k < album.numbers.pieces; k++) {
 *         puigneht_piece piece;
 *         if (puigneht_album_piece(&album, k, &memory, &piece, &refusal)) ...
 *         for (uint64_t t = 0; t < album.tracks; t++) {
 *             puigneht_write w = puigneht_album_write(&album, &waves[t], &piece);
 *             write_at(out[t], w.bytes, w.length, w.place);
 *         }
 *         if (puigneht_join_stats(&stats, &piece.stats)) ...
 *     }
 *
 * Whoever converts the pieces, in whatever order and on however many machines: a track's header, what the pieces have
 * for it, each at its place, and its pad are the WAV file of the track, whose samples are those that stand on its
 * bytes; with PUIGNEHT_ALL in the place of a track's number they are one WAV file of the whole album, and the fill of
 * its last frame behind the last track. The pieces' statistics joined are the album's. The frames next to a piece are
 * read here, so no caller chooses them.
 *
 * Tracks are numbered from 0; what a call refuses or cannot read of one is told with its number in `track` of the
 * refusal.
 *
 * An open album is only read, by callers too: threads may share it where its sources' `read` allows that, as pread
 * does. It has 14 kB. Opening needs 20 kB of stack, a piece 55 kB, and what `read` needs; the rest is in the caller's
 * memory. */
#ifndef PUIGNEHT_ALBUM_H
#define PUIGNEHT_ALBUM_H

#include "../puigneht.h"

#ifdef __cplusplus
extern "C" {
#endif

/* Reads exactly `count` bytes of a file from byte `place` on and gives 0, or gives anything else. */
typedef int puigneht_read(void *context, uint64_t place, uint8_t *bytes, size_t count);

/* A track's DSF file. */
typedef struct puigneht_source {
    puigneht_read *read;
    void *context;   /* handed to `read` */
    uint64_t length; /* bytes of the file */
} puigneht_source;

enum {
    PUIGNEHT_MOST_TRACKS = 99, /* of an album */
    PUIGNEHT_PIECE_FRAMES = 128,
    PUIGNEHT_MOST_WAVE_HEAD = 104 /* bytes */
};

/* In the place of a track's number: all of them in one file. */
#define PUIGNEHT_ALL UINT64_MAX

/* Which header a WAV file has. */
enum {
    PUIGNEHT_FORMAT_AUTO = 0, /* the plain one where it can tell the file, else the extensible one, else RF64 */
    PUIGNEHT_FORMAT_WAV = 1,  /* the plain one, or refused 12 */
    PUIGNEHT_FORMAT_RF64 = 2
};

/* The bytes of a header tell which it is: plain (one or two channels, as puigneht_wav_header's); extensible
 * (WAVE_FORMAT_EXTENSIBLE), which names the loudspeakers of three to six; RF64, for files past 4 GB, of the one and of
 * the other. */
enum {
    PUIGNEHT_PLAIN_HEAD = 44,
    PUIGNEHT_EXTENSIBLE_HEAD = 68,
    PUIGNEHT_RF64_HEAD = 80,
    PUIGNEHT_RF64_EXTENSIBLE_HEAD = 104
};

typedef struct puigneht_album_numbers {
    uint64_t channels;
    uint64_t channel_type; /* Sony's, 1 to 7, of every track */
    uint64_t bytes;        /* of each channel, of all tracks */
    uint64_t frames;
    uint64_t data_bytes;  /* of the album's samples, whole frames */
    uint64_t frame_bytes; /* of the samples that a frame gives */
    uint64_t filled;      /* bytes of each channel that are filled up with 0x69 in the last frame */
    uint64_t pieces;
} puigneht_album_numbers;

typedef struct puigneht_album {
    puigneht_album_numbers numbers;
    uint64_t tracks;
    puigneht_converter converter;             /* of its channels, open: for what is converted beside the pieces */
    uint64_t marks[PUIGNEHT_MOST_TRACKS + 1]; /* track t has the samples' bytes from marks[t] to before marks[t + 1] */
    uint64_t lengths[PUIGNEHT_MOST_TRACKS];
    puigneht_source sources[PUIGNEHT_MOST_TRACKS];
    uint8_t heads[PUIGNEHT_MOST_TRACKS][PUIGNEHT_DSF_HEADER]; /* the first bytes of each file */
} puigneht_album;

/* The plan of a piece. */
typedef struct puigneht_plan {
    uint64_t first, count; /* its frames */
    uint64_t place, bytes; /* where its samples stand in the album's, and how many bytes they are */
    uint64_t scratch;      /* bytes of its frames and those next to them */
    uint64_t window;       /* bytes of all that is read for it */
} puigneht_plan;

PUIGNEHT_HOLDS_(sizeof(puigneht_album_numbers) == 64 && sizeof(puigneht_plan) == 48, "eight and six numbers");

/* ---- the proved calls: settings as a converter has them (its channels, at most 255, and stored numbers decide
 * nothing), the first 92 bytes of each file end to end, and the lengths of the files. PUIGNEHT_NOT_UNDERSTOOD where
 * lists do not have the lengths that they are to have, and for 0 tracks or more than 99. */

uint8_t puigneht_album_open_call(const puigneht_numbers *numbers, const puigneht_gain_record *gain,
                                 const int32_t taps[PUIGNEHT_MOST_TAPS], const uint8_t *heads, size_t heads_len,
                                 const uint64_t *lengths, size_t lengths_len, puigneht_album_numbers *album,
                                 uint64_t *marks, size_t marks_len, uint64_t *track, uint64_t data[2],
                                 double *decibels);
void puigneht_album_part_call(uint64_t frames, uint64_t jobs, uint64_t part, puigneht_stretch *pieces);
/* Of each track two numbers: the byte of its data at which to read, and how many. */
uint8_t puigneht_album_piece_call(const puigneht_numbers *numbers, const puigneht_gain_record *gain,
                                  const int32_t taps[PUIGNEHT_MOST_TAPS], const uint8_t *heads, size_t heads_len,
                                  const uint64_t *lengths, size_t lengths_len, uint64_t piece, puigneht_plan *plan,
                                  uint64_t *reads, size_t reads_len);
/* Of each file between two marks three numbers: from which to which byte of the piece, and where in the file's samples.
 */
void puigneht_album_writes_call(const uint64_t *marks, size_t marks_len, uint64_t place, uint64_t bytes,
                                uint64_t *writes, size_t writes_len);
uint8_t puigneht_album_frames_call(const puigneht_numbers *numbers, const puigneht_gain_record *gain,
                                   const int32_t taps[PUIGNEHT_MOST_TAPS], const uint8_t *heads, size_t heads_len,
                                   const uint64_t *lengths, size_t lengths_len, uint64_t first, uint64_t count,
                                   const uint8_t *windows, size_t windows_len, uint8_t *scratch, size_t scratch_len,
                                   uint64_t data[2], double *decibels);
uint8_t puigneht_album_step_call(const puigneht_numbers *numbers, const puigneht_gain_record *gain,
                                 const int32_t taps[PUIGNEHT_MOST_TAPS], const uint8_t *heads, size_t heads_len,
                                 const uint64_t *lengths, size_t lengths_len, uint64_t first, uint64_t count,
                                 const uint8_t *windows, size_t windows_len, uint8_t *scratch, size_t scratch_len,
                                 uint8_t *out, size_t out_len, puigneht_stats *stats, uint64_t data[2],
                                 double *decibels);
/* Tells the header's length and the zero bytes behind the samples. */
uint8_t puigneht_wave_header_call(uint64_t format, uint64_t rate, uint64_t channels, uint64_t channel_type,
                                  uint64_t bytes, uint8_t out[PUIGNEHT_MOST_WAVE_HEAD], uint64_t told[2]);

/* Settings and files of an album as the calls take them. */
#define PUIGNEHT_OF_ALBUM_(a)                                                                                          \
    &(a)->converter.numbers, &(a)->converter.gain, (a)->converter.taps, (a)->heads[0],                                 \
        PUIGNEHT_DSF_HEADER *PUIGNEHT_AS_(size_t, (a)->tracks), (a)->lengths, PUIGNEHT_AS_(size_t, (a)->tracks)

/* ---- opening */

/* Notes that a track was refused or could not be read, and why a file was. */
static inline uint8_t puigneht_track_told_(puigneht_refusal *r, const puigneht_album *a, uint64_t track,
                                           uint8_t number) {
    const uint8_t *head = a->heads[track], *at = head + 48, *first = a->heads[0] + 48;
    int k;
    r->track = PUIGNEHT_AS_(uint8_t, track);
    r->length = a->lengths[track];
    if (number < PUIGNEHT_REFUSED_NOT_DSF || number > PUIGNEHT_REFUSED_DSF_LENGTH) return number;
    r->data[0] = r->data[1] = 0; /* `field` tells it */
    if (puigneht_dsf_why_call(head, PUIGNEHT_DSF_HEADER, r->length, &r->field)) return number;
    r->field.place = 48; /* it is a DSF file, and another than the first */
    for (k = 7; k >= 0; k--) {
        r->field.found = 256 * r->field.found + at[k];
        r->field.asked = 256 * r->field.asked + first[k];
    }
    return number;
}

/* Reads the beginning of each file. */
PUIGNEHT_LOOK_ static inline uint8_t puigneht_read_heads_(puigneht_album *a, const puigneht_source *sources,
                                                          size_t count, puigneht_refusal *r) {
    size_t k;
    for (k = 0; k < count; k++) {
        const puigneht_source s = sources[k];
        a->sources[k] = s;
        a->lengths[k] = s.length;
        if (s.read(s.context, 0, a->heads[k],
                   s.length < PUIGNEHT_DSF_HEADER ? PUIGNEHT_AS_(size_t, s.length)
                                                  : PUIGNEHT_AS_(size_t, PUIGNEHT_DSF_HEADER)))
            return puigneht_track_told_(r, a, k, PUIGNEHT_READ_FAILED);
    }
    a->tracks = count;
    return PUIGNEHT_ACCEPTED;
}

/* Opens what was read, and the converter of its channels. */
PUIGNEHT_LOOK_ static inline uint8_t puigneht_open_read_(puigneht_album *a, puigneht_refusal *r) {
    const size_t marks = PUIGNEHT_AS_(size_t, a->tracks) + 1;
    uint64_t track = 0;
    uint8_t number =
        puigneht_album_open_call(PUIGNEHT_OF_ALBUM_(a), &a->numbers, a->marks, marks, &track, r->data, &r->decibels);
    if (number == PUIGNEHT_NOT_UNDERSTOOD) return number;
    if (number != PUIGNEHT_ACCEPTED) return puigneht_track_told_(r, a, track, number);
    a->converter.numbers.channels = a->numbers.channels;
    return puigneht_open_call(&a->converter.numbers, &a->converter.gain, a->converter.taps, r->data, &r->decibels);
}

/* Opens an album of `count` tracks (1 to PUIGNEHT_MOST_TRACKS), whose sources are copied. The channels are the files':
 * those of `settings` are not read. PUIGNEHT_READ_FAILED; refused, by the first track of which it is so: 9, 10, 11 for
 * its header, 9 too for another channel type than the first track's (field: byte 48, where type and channels stand, 8
 * bytes, of the track and of the first); of the first track then 2, 3, 17, 18 for the settings; of any 5 where all up
 * to it have more than 540,000 frames. Refused, `album` is as it was. An open one is only read: nobody writes its rate,
 * cutoff, gain or filter, which are opened anew for others. */
PUIGNEHT_LOOK_ static inline uint8_t puigneht_album_open(puigneht_album *album, const puigneht_source *sources,
                                                         size_t count, const puigneht_settings *settings,
                                                         puigneht_refusal *refusal) {
    puigneht_refusal spare, *r = puigneht_begin_(refusal, &spare, PUIGNEHT_CALL_ALBUM_OPEN, count);
    puigneht_album a;
    double unused;
    uint8_t number = PUIGNEHT_NOT_UNDERSTOOD;
    memset(&a, 0, sizeof a);
    a.converter = puigneht_settled_(settings);
    a.converter.numbers.channels = 0;
    a.converter.gain.decibels = settings->decibels; /* without a factor: refused in its turn */
    (void)puigneht_gain_call(settings->decibels, &a.converter.gain, &unused);
    if (count <= PUIGNEHT_MOST_TRACKS) number = puigneht_read_heads_(&a, sources, count, r);
    if (number == PUIGNEHT_ACCEPTED) number = puigneht_open_read_(&a, r);
    if (number == PUIGNEHT_ACCEPTED) *album = a;
    return puigneht_told_(r, settings->rate, settings->cutoff, a.numbers.channels, number);
}

/* Whether an album is an open one, and its converter as it was opened. (Taps that were written are not seen, nor a
 * converter that was changed to others of the same rate.) */
static inline int puigneht_is_open_(const puigneht_album *a) {
    puigneht_converter c = a->converter;
    uint64_t data[2];
    double decibels;
    return a->tracks && a->tracks <= PUIGNEHT_MOST_TRACKS && a->numbers.frame_bytes &&
           25 * a->numbers.frame_bytes == c.numbers.rate * a->numbers.channels &&
           !puigneht_open_call(&c.numbers, &c.gain, c.taps, data, &decibels) && !memcmp(&c, &a->converter, sizeof c);
}

/* Notes which album a call was made with, and gives its answer. */
static inline uint8_t puigneht_of_album_(puigneht_refusal *r, const puigneht_album *a, uint8_t number) {
    return puigneht_told_(r, a->converter.numbers.rate, a->converter.numbers.cutoff, a->numbers.channels, number);
}

/* ---- the files that it becomes */

/* The WAV file of a track or of all: `head` in front, `data` bytes of samples, `pad` zero bytes (0 or 1) behind them.
 */
typedef struct puigneht_wave {
    uint64_t track; /* or PUIGNEHT_ALL */
    uint64_t data, pad;
    uint64_t length; /* of the file: head_len + data + pad */
    size_t head_len; /* PUIGNEHT_PLAIN_HEAD or another of those */
    uint8_t head[PUIGNEHT_MOST_WAVE_HEAD];
} puigneht_wave;

/* The header of the file of a track, or of all. Refused 5 (data: the track) where there is no such track; 12 (data:
 * channels, bytes) where PUIGNEHT_FORMAT_WAV is asked and the file has more than two channels, or more data than that
 * can tell. Not understood for another format (data: it), or where `album` is not an open one, or its converter was
 * written to since. Other than accepted, `wave` is as it was. */
PUIGNEHT_LOOK_ static inline uint8_t puigneht_album_header(const puigneht_album *album, uint64_t format, uint64_t track,
                                                           puigneht_wave *wave, puigneht_refusal *refusal) {
    puigneht_refusal spare, *r = puigneht_begin_(refusal, &spare, PUIGNEHT_CALL_ALBUM_HEADER, 0);
    const int is_all = track == PUIGNEHT_ALL, is_there = is_all || track < album->tracks;
    const puigneht_album_numbers *n = &album->numbers;
    puigneht_wave w;
    uint64_t told[2] = {0, 0};
    uint8_t number = PUIGNEHT_NOT_UNDERSTOOD;
    memset(&w, 0, sizeof w);
    w.track = track;
    if (puigneht_is_open_(album) && is_there) {
        r->track = is_all ? PUIGNEHT_AS_(uint8_t, 0) : PUIGNEHT_AS_(uint8_t, track);
        r->length = w.data = is_all ? n->data_bytes : album->marks[track + 1] - album->marks[track];
        number = puigneht_wave_header_call(format, album->converter.numbers.rate, n->channels, n->channel_type, w.data,
                                           w.head, told);
        r->data[0] = number == PUIGNEHT_NOT_UNDERSTOOD ? format : n->channels;
        r->data[1] = number == PUIGNEHT_NOT_UNDERSTOOD ? 0 : w.data;
    } else if (puigneht_is_open_(album)) {
        number = PUIGNEHT_REFUSED_FRAMES;
        r->data[0] = track;
    }
    w.head_len = PUIGNEHT_AS_(size_t, told[0]);
    w.pad = told[1];
    w.length = told[0] + w.data + told[1];
    if (number == PUIGNEHT_ACCEPTED) {
        r->data[0] = r->data[1] = 0;
        *wave = w;
    }
    return puigneht_of_album_(r, album, number);
}

/* ---- its pieces */

/* The pieces of part `part` (from 0) of `parts` (1 to 64), from `begin` to before `end`; 0 and 0 where there is no such
 * part. */
static inline puigneht_stretch puigneht_album_part(const puigneht_album *album, uint64_t parts, uint64_t part) {
    puigneht_stretch pieces;
    puigneht_album_part_call(album->numbers.frames, parts, part, &pieces);
    return pieces;
}

/* What a piece is worked out in: what is read, its frames and those next to them, and the bytes that they give. */
typedef struct puigneht_memory {
    uint8_t *bytes;
    size_t length; /* at least what puigneht_album_memory says, of each album that it serves */
} puigneht_memory;

/* Bytes of memory that serve every piece: 6 MB of stereo at 352,800; 8 kB more for each track and channel. */
static inline size_t puigneht_album_memory(const puigneht_album *album) {
    const uint64_t most = PUIGNEHT_PIECE_FRAMES, frames = album->numbers.frames;
    const uint64_t count = frames < most ? frames : most, held = frames < most + 2 ? frames : most + 2;
    const uint64_t each = held * PUIGNEHT_CHANNEL_BYTES,
                   beside = album->tracks * 2 * 4095; /* of blocks that are read */
    return PUIGNEHT_AS_(size_t, album->numbers.channels * (each + beside + each) + count * album->numbers.frame_bytes);
}

/* Plans piece number `number`: its numbers, and of each track two, the byte of its data at which to read and how many.
 */
PUIGNEHT_LOOK_ static inline uint8_t puigneht_plan_piece_(const puigneht_album *a, uint64_t number, puigneht_plan *p,
                                                          uint64_t reads[2 * PUIGNEHT_MOST_TRACKS],
                                                          puigneht_refusal *r) {
    uint8_t answer = PUIGNEHT_NOT_UNDERSTOOD;
    if (puigneht_is_open_(a))
        answer =
            puigneht_album_piece_call(PUIGNEHT_OF_ALBUM_(a), number, p, reads, 2 * PUIGNEHT_AS_(size_t, a->tracks));
    if (answer != PUIGNEHT_ACCEPTED || p->count) return answer;
    r->data[0] = number;
    return PUIGNEHT_REFUSED_FRAMES;
}

/* Reads what a piece needs to the beginning of the memory, which is to have room for its frames and `more` bytes, too.
 */
PUIGNEHT_LOOK_ static inline uint8_t puigneht_read_piece_(const puigneht_album *a, const puigneht_plan *p,
                                                          const uint64_t reads[2 * PUIGNEHT_MOST_TRACKS],
                                                          const puigneht_memory *m, uint64_t more,
                                                          puigneht_refusal *r) {
    const uint64_t needed = p->window + p->scratch + more;
    uint8_t *at = m->bytes;
    size_t k;
    if (m->length < needed) {
        r->data[0] = m->length;
        r->data[1] = needed;
        return PUIGNEHT_REFUSED_OUTPUT_BYTES;
    }
    for (k = 0; k < a->tracks; k++) {
        const size_t bytes = PUIGNEHT_AS_(size_t, reads[2 * k + 1]);
        if (bytes && a->sources[k].read(a->sources[k].context, PUIGNEHT_DSF_HEADER + reads[2 * k], at, bytes))
            return puigneht_track_told_(r, a, k, PUIGNEHT_READ_FAILED);
        at += bytes;
    }
    return PUIGNEHT_ACCEPTED;
}

typedef struct puigneht_piece {
    uint64_t first, count; /* its frames */
    uint64_t place;        /* where its samples stand in the album's */
    const uint8_t *bytes;  /* in the memory given */
    size_t length;
    puigneht_stats stats;
} puigneht_piece;

/* Notes a planned piece. */
static inline puigneht_piece puigneht_planned_(const puigneht_plan *p) {
    puigneht_piece piece;
    piece.first = p->first;
    piece.count = p->count;
    piece.place = p->place;
    piece.bytes = PUIGNEHT_NULL_;
    piece.length = PUIGNEHT_AS_(size_t, p->bytes);
    piece.stats = puigneht_no_stats();
    return piece;
}

/* Piece number `number` (from 0) as it is planned, nothing read: `bytes` is NULL, the statistics are those of no
 * samples. Refused 5 (data: the number) where there is no such piece; not understood where `album` is not an open one,
 * or its converter was written to since. */
PUIGNEHT_LOOK_ static inline uint8_t puigneht_album_plan(const puigneht_album *album, uint64_t number,
                                                         puigneht_piece *piece, puigneht_refusal *refusal) {
    puigneht_refusal spare, *r = puigneht_begin_(refusal, &spare, PUIGNEHT_CALL_ALBUM_PIECE, 0);
    puigneht_plan p;
    uint64_t reads[2 * PUIGNEHT_MOST_TRACKS];
    const uint8_t answer = puigneht_plan_piece_(album, number, &p, reads, r);
    if (answer == PUIGNEHT_ACCEPTED) *piece = puigneht_planned_(&p);
    return puigneht_of_album_(r, album, answer);
}

/* The piece itself: what it needs is read, and it is converted. Refused as puigneht_album_plan, then 7 (data: room,
 * need) where the memory is too small; PUIGNEHT_READ_FAILED. With another answer than 0 `memory` may have been written,
 * and `piece` is as it was. */
PUIGNEHT_LOOK_ static inline uint8_t puigneht_album_piece(const puigneht_album *album, uint64_t number,
                                                          const puigneht_memory *memory, puigneht_piece *piece,
                                                          puigneht_refusal *refusal) {
    puigneht_refusal spare, *r = puigneht_begin_(refusal, &spare, PUIGNEHT_CALL_ALBUM_PIECE, memory->length);
    puigneht_plan p;
    puigneht_stats stats;
    uint64_t reads[2 * PUIGNEHT_MOST_TRACKS];
    uint8_t answer = puigneht_plan_piece_(album, number, &p, reads, r);
    if (answer == PUIGNEHT_ACCEPTED) answer = puigneht_read_piece_(album, &p, reads, memory, p.bytes, r);
    if (answer == PUIGNEHT_ACCEPTED) {
        uint8_t *scratch = memory->bytes + p.window, *out = scratch + p.scratch;
        answer = puigneht_album_step_call(PUIGNEHT_OF_ALBUM_(album), p.first, p.count, memory->bytes,
                                          PUIGNEHT_AS_(size_t, p.window), scratch, PUIGNEHT_AS_(size_t, p.scratch), out,
                                          PUIGNEHT_AS_(size_t, p.bytes), &stats, r->data, &r->decibels);
        if (answer == PUIGNEHT_ACCEPTED) {
            *piece = puigneht_planned_(&p);
            piece->bytes = out;
            piece->stats = stats;
            piece->stats.made = PUIGNEHT_MADE;
        }
    }
    return puigneht_of_album_(r, album, answer);
}

/* What of a piece goes to a file: `length` bytes from `bytes` on stand from byte `place` of the file on, its header
 * counted. */
typedef struct puigneht_write {
    const uint8_t *bytes;
    size_t length; /* 0 where the file has nothing of the piece */
    uint64_t place;
} puigneht_write;

/* What of a piece goes to the file of a track, or of all, as puigneht_album_header told it; of a piece that is planned
 * alone `bytes` is NULL. */
static inline puigneht_write puigneht_album_write(const puigneht_album *album, const puigneht_wave *wave,
                                                  const puigneht_piece *piece) {
    const uint64_t all[2] = {0, wave->data}, *marks = wave->track < album->tracks ? album->marks + wave->track : all;
    uint64_t told[3] = {0, 0, 0};
    puigneht_write w;
    puigneht_album_writes_call(marks, 2, piece->place, piece->length, told, 3);
    w.bytes = piece->bytes ? piece->bytes + told[0] : PUIGNEHT_NULL_;
    w.length = PUIGNEHT_AS_(size_t, told[1] - told[0]);
    w.place = wave->head_len + told[2];
    return w;
}

/* ---- its frames, not converted */

typedef struct puigneht_frames {
    uint64_t first, count; /* the piece's frames */
    const uint8_t *bytes;  /* they and the frames next to them, in the memory given, in the layout of the conversions */
    size_t length;
    size_t before; /* frames before its first in `bytes`, 0 or 1 */
} puigneht_frames;

/* The frames of piece number `number`, the album's last filled up with 0x69; answers as puigneht_album_piece's. */
PUIGNEHT_LOOK_ static inline uint8_t puigneht_album_frames(const puigneht_album *album, uint64_t number,
                                                           const puigneht_memory *memory, puigneht_frames *frames,
                                                           puigneht_refusal *refusal) {
    puigneht_refusal spare, *r = puigneht_begin_(refusal, &spare, PUIGNEHT_CALL_ALBUM_FRAMES, memory->length);
    puigneht_plan p;
    uint64_t reads[2 * PUIGNEHT_MOST_TRACKS];
    uint8_t answer = puigneht_plan_piece_(album, number, &p, reads, r);
    if (answer == PUIGNEHT_ACCEPTED) answer = puigneht_read_piece_(album, &p, reads, memory, 0, r);
    if (answer == PUIGNEHT_ACCEPTED)
        answer = puigneht_album_frames_call(PUIGNEHT_OF_ALBUM_(album), p.first, p.count, memory->bytes,
                                            PUIGNEHT_AS_(size_t, p.window), memory->bytes + p.window,
                                            PUIGNEHT_AS_(size_t, p.scratch), r->data, &r->decibels);
    if (answer == PUIGNEHT_ACCEPTED) {
        frames->first = p.first;
        frames->count = p.count;
        frames->bytes = memory->bytes + p.window;
        frames->length = PUIGNEHT_AS_(size_t, p.scratch);
        frames->before = p.first ? 1 : 0;
    }
    return puigneht_of_album_(r, album, answer);
}

/* They as a run of the album's converter, with the frames next to them. */
static inline puigneht_run puigneht_album_run(const puigneht_album *album, const puigneht_frames *frames) {
    return puigneht_cut(&album->converter, frames->bytes, frames->length, frames->before,
                        PUIGNEHT_AS_(size_t, frames->count));
}

#ifdef __cplusplus
}
#endif

#endif
