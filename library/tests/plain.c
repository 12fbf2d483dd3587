/* The proved calls of puigneht/album.h once more, as plainly as C says them: byte by byte, with no plan of blocks and
 * no tables. library/tests/beside holds them beside the proved ones. Samples are those of puigneht_convert_call on the
 * frames that are put together here, and headers of files are read by the proved reader. */
#include "puigneht/album.h"

#include <stdlib.h>

#ifndef PLAIN
#define PLAIN(name) puigneht_##name
#endif

enum { IDLE = 0x69, BLOCK = 4096, FRAME = PUIGNEHT_CHANNEL_BYTES, HEAD = PUIGNEHT_DSF_HEADER };

/* The tracks' headers, and where each begins, in bytes of each channel. */
struct tracks {
    size_t count;
    puigneht_dsf dsf[PUIGNEHT_MOST_TRACKS];
    uint64_t begin[PUIGNEHT_MOST_TRACKS + 1];
    uint64_t channels, frames;
};

static uint64_t least(uint64_t a, uint64_t b) {
    return a < b ? a : b;
}
static uint64_t minus(uint64_t a, uint64_t b) {
    return a < b ? 0 : a - b;
}
static uint64_t whole(uint64_t a, uint64_t of) {
    return a / of + (a % of != 0);
}

static int is_rate(uint64_t rate) {
    return rate == 88200 || rate == 176400 || rate == 352800;
}

/* What is refused in any case: an answer, or 0. */
static uint8_t understood(const puigneht_numbers *n, size_t heads_len, size_t lengths_len) {
    const int is_known = is_rate(n->rate) && n->cutoff <= PUIGNEHT_WIDE && n->channels <= 255 && n->own <= 1;
    return is_known && lengths_len && lengths_len <= PUIGNEHT_MOST_TRACKS && heads_len == HEAD * lengths_len
               ? 0
               : PUIGNEHT_NOT_UNDERSTOOD;
}

/* Settings for so many channels. */
static uint8_t settings_fit(const puigneht_numbers *asked, const puigneht_gain_record *gain, const int32_t *taps,
                            uint64_t channels, uint64_t data[2], double *decibels) {
    puigneht_numbers n = *asked;
    n.channels = channels;
    return puigneht_open_call(&n, gain, taps, data, decibels);
}

/* Reads the tracks in turn, up to the first that is refused. */
static uint8_t read_tracks(struct tracks *t, const puigneht_numbers *n, const puigneht_gain_record *gain,
                           const int32_t *taps, const uint8_t *heads, const uint64_t *lengths, size_t count,
                           uint64_t *track, uint64_t data[2], double *decibels) {
    *decibels = 0, data[0] = data[1] = 0;
    memset(t, 0, sizeof *t);
    t->count = count;
    for (size_t k = 0; k < count; k++) {
        uint8_t number = puigneht_dsf_read_header_call(heads + HEAD * k, HEAD, lengths[k], &t->dsf[k], data);
        if (!number && t->dsf[k].channel_type != t->dsf[0].channel_type) number = PUIGNEHT_REFUSED_NOT_DSF;
        if (!number && !k) number = settings_fit(n, gain, taps, t->dsf[0].channels, data, decibels);
        *track = k;
        if (number) return number;
        t->channels = t->dsf[0].channels;
        t->begin[k + 1] = t->begin[k] + t->dsf[k].samples / 8;
        t->frames = whole(t->begin[k + 1], FRAME);
        data[0] = t->frames;
        if (t->frames > PUIGNEHT_MOST_FRAMES) return PUIGNEHT_REFUSED_FRAMES;
        data[0] = 0;
    }
    return 0;
}

/* Bytes of the album's samples before a byte of each channel: a sample stands on each fourth, second or single one. */
static uint64_t samples_before(uint64_t rate, uint64_t channels, uint64_t byte) {
    return whole(byte, 352800 / rate) * 3 * channels;
}

uint8_t PLAIN(album_open_call)(const puigneht_numbers *numbers, const puigneht_gain_record *gain,
                               const int32_t taps[PUIGNEHT_MOST_TAPS], const uint8_t *heads, size_t heads_len,
                               const uint64_t *lengths, size_t lengths_len, puigneht_album_numbers *album,
                               uint64_t *marks, size_t marks_len, uint64_t *track, uint64_t data[2], double *decibels) {
    struct tracks t;
    uint64_t of_track;
    uint8_t number = understood(numbers, heads_len, lengths_len);
    if (number || marks_len != lengths_len + 1) return PUIGNEHT_NOT_UNDERSTOOD;
    number = read_tracks(&t, numbers, gain, taps, heads, lengths, lengths_len, &of_track, data, decibels);
    *track = number ? of_track : 0;
    if (number) return number;
    album->channels = t.channels;
    album->channel_type = t.dsf[0].channel_type;
    album->bytes = t.begin[t.count];
    album->frames = t.frames;
    album->frame_bytes = numbers->rate / 75 * 3 * t.channels;
    album->data_bytes = t.frames * album->frame_bytes;
    album->filled = t.frames * FRAME - album->bytes;
    album->pieces = whole(t.frames, PUIGNEHT_PIECE_FRAMES);
    for (size_t k = 0; k <= t.count; k++) marks[k] = samples_before(numbers->rate, t.channels, t.begin[k]);
    return 0;
}

void PLAIN(album_part_call)(uint64_t frames, uint64_t jobs, uint64_t part, puigneht_stretch *pieces) {
    const uint64_t all = whole(frames, PUIGNEHT_PIECE_FRAMES);
    pieces->begin = pieces->end = 0;
    if (frames > PUIGNEHT_MOST_FRAMES || jobs > 64 || part >= jobs) return;
    pieces->begin = all * part / jobs;
    pieces->end = all * (part + 1) / jobs;
}

/* ---- a piece: its frames and those next to them, from frame `low` to before frame `high` */

static uint64_t low_of(uint64_t first) {
    return minus(first, 1);
}
static uint64_t high_of(const struct tracks *t, uint64_t first, uint64_t count) {
    return least(first + count + 1, t->frames);
}

/* Of a track's data the groups of blocks that hold what it has of the album's bytes from a to b. */
static puigneht_stretch read_of(const struct tracks *t, size_t k, uint64_t a, uint64_t b) {
    const uint64_t from = minus(a, t->begin[k]), to = least(t->begin[k + 1] - t->begin[k], minus(b, t->begin[k]));
    puigneht_stretch s = {0, 0};
    if (from >= to) return s;
    s.begin = from / BLOCK * BLOCK * t->channels;
    s.end = whole(to, BLOCK) * BLOCK * t->channels;
    return s;
}

/* All that is read for the bytes from a to b. */
static uint64_t reads_of(const struct tracks *t, uint64_t a, uint64_t b, uint64_t *reads) {
    uint64_t all = 0;
    for (size_t k = 0; k < t->count; k++) {
        const puigneht_stretch s = read_of(t, k, a, b);
        if (reads) reads[2 * k] = s.begin, reads[2 * k + 1] = s.end - s.begin;
        all += s.end - s.begin;
    }
    return all;
}

uint8_t PLAIN(album_piece_call)(const puigneht_numbers *numbers, const puigneht_gain_record *gain,
                                const int32_t taps[PUIGNEHT_MOST_TAPS], const uint8_t *heads, size_t heads_len,
                                const uint64_t *lengths, size_t lengths_len, uint64_t piece, puigneht_plan *plan,
                                uint64_t *reads, size_t reads_len) {
    struct tracks t;
    uint64_t track, data[2], high, frame;
    double decibels;
    uint8_t number = understood(numbers, heads_len, lengths_len);
    if (number || reads_len != 2 * lengths_len) return PUIGNEHT_NOT_UNDERSTOOD;
    number = read_tracks(&t, numbers, gain, taps, heads, lengths, lengths_len, &track, data, &decibels);
    if (number) return number;
    memset(plan, 0, sizeof *plan);
    memset(reads, 0, reads_len * sizeof *reads);
    if (piece >= whole(t.frames, PUIGNEHT_PIECE_FRAMES)) return 0;
    frame = numbers->rate / 75 * 3 * t.channels;
    plan->first = piece * PUIGNEHT_PIECE_FRAMES;
    plan->count = least(PUIGNEHT_PIECE_FRAMES, t.frames - plan->first);
    plan->place = plan->first * frame;
    plan->bytes = plan->count * frame;
    high = high_of(&t, plan->first, plan->count);
    plan->scratch = (high - low_of(plan->first)) * FRAME * t.channels;
    plan->window = reads_of(&t, low_of(plan->first) * FRAME, high * FRAME, reads);
    return 0;
}

void PLAIN(album_writes_call)(const uint64_t *marks, size_t marks_len, uint64_t place, uint64_t bytes, uint64_t *writes,
                              size_t writes_len) {
    if (!marks_len || writes_len != 3 * (marks_len - 1)) return;
    for (size_t k = 0; k + 1 < marks_len; k++) {
        const uint64_t begin = minus(marks[k], place), end = least(minus(marks[k + 1], place), bytes);
        const int is_any = begin < end;
        writes[3 * k] = is_any ? begin : 0;
        writes[3 * k + 1] = is_any ? end : 0;
        writes[3 * k + 2] = is_any ? minus(place, marks[k]) : 0;
    }
}

static uint8_t turned(uint8_t byte) {
    uint8_t back = 0;
    for (int k = 0; k < 8; k++) back = (uint8_t)(back << 1 | (byte >> k & 1));
    return back;
}

/* The album's bytes from a to b, out of windows that stand end to end; idle ones where it has none. */
static void gather(const struct tracks *t, uint64_t a, uint64_t b, const uint8_t *windows, uint8_t *out) {
    const uint64_t n = t->channels;
    memset(out, IDLE, (size_t)((b - a) * n));
    for (size_t k = 0; k < t->count; k++) {
        const puigneht_stretch s = read_of(t, k, a, b);
        for (uint64_t p = a < t->begin[k] ? t->begin[k] : a; p < least(b, t->begin[k + 1]); p++)
            for (uint64_t c = 0; c < n; c++) {
                const uint64_t j = p - t->begin[k], place = (j / BLOCK * n + c) * BLOCK + j % BLOCK;
                const uint8_t byte = windows[place - s.begin];
                out[(p - a) * n + c] = t->dsf[k].bits_per_sample == 1 ? turned(byte) : byte;
            }
        windows += s.end - s.begin;
    }
}

/* What a step and the frames alone try, and where they put the frames. */
static uint8_t gathered(struct tracks *t, const puigneht_numbers *n, uint64_t first, uint64_t count,
                        const uint8_t *windows, size_t windows_len, uint8_t *scratch, size_t scratch_len,
                        const size_t *out_len, uint64_t data[2]) {
    const uint64_t a = low_of(first) * FRAME;
    uint64_t b, needed;
    data[0] = first;
    if (first > t->frames || count > t->frames - first) return PUIGNEHT_REFUSED_FRAMES;
    data[0] = 0;
    b = high_of(t, first, count) * FRAME;
    if (windows_len != reads_of(t, a, b, NULL)) return PUIGNEHT_REFUSED_DSF_LENGTH;
    data[0] = scratch_len, data[1] = (b - a) * t->channels;
    if (data[0] != data[1]) return PUIGNEHT_REFUSED_OUTPUT_BYTES;
    needed = n->rate / 75 * 3 * t->channels * count;
    if (out_len) data[0] = *out_len, data[1] = needed;
    if (data[0] != data[1]) return PUIGNEHT_REFUSED_OUTPUT_BYTES;
    data[0] = data[1] = 0;
    gather(t, a, b, windows, scratch);
    return 0;
}

uint8_t PLAIN(album_frames_call)(const puigneht_numbers *numbers, const puigneht_gain_record *gain,
                                 const int32_t taps[PUIGNEHT_MOST_TAPS], const uint8_t *heads, size_t heads_len,
                                 const uint64_t *lengths, size_t lengths_len, uint64_t first, uint64_t count,
                                 const uint8_t *windows, size_t windows_len, uint8_t *scratch, size_t scratch_len,
                                 uint64_t data[2], double *decibels) {
    struct tracks t;
    uint64_t track;
    uint8_t number = understood(numbers, heads_len, lengths_len);
    if (number) return number;
    number = read_tracks(&t, numbers, gain, taps, heads, lengths, lengths_len, &track, data, decibels);
    return number ? number
                  : gathered(&t, numbers, first, count, windows, windows_len, scratch, scratch_len, NULL, data);
}

uint8_t PLAIN(album_step_call)(const puigneht_numbers *numbers, const puigneht_gain_record *gain,
                               const int32_t taps[PUIGNEHT_MOST_TAPS], const uint8_t *heads, size_t heads_len,
                               const uint64_t *lengths, size_t lengths_len, uint64_t first, uint64_t count,
                               const uint8_t *windows, size_t windows_len, uint8_t *scratch, size_t scratch_len,
                               uint8_t *out, size_t out_len, puigneht_stats *stats, uint64_t data[2],
                               double *decibels) {
    struct tracks t;
    puigneht_converter c;
    uint64_t track;
    uint8_t number = understood(numbers, heads_len, lengths_len);
    if (number) return number;
    number = read_tracks(&t, numbers, gain, taps, heads, lengths, lengths_len, &track, data, decibels);
    if (!number)
        number = gathered(&t, numbers, first, count, windows, windows_len, scratch, scratch_len, &out_len, data);
    if (number) return number;
    memset(&c, 0, sizeof c);
    c.numbers = *numbers, c.gain = *gain;
    memcpy(c.taps, taps, sizeof c.taps);
    c.numbers.channels = t.channels;
    if (puigneht_open_call(&c.numbers, &c.gain, c.taps, data, decibels)) abort();
    const puigneht_run run = puigneht_cut(&c, scratch, scratch_len, (size_t)(first - low_of(first)), (size_t)count);
    return puigneht_convert_call(PUIGNEHT_OF_(&c, &run, 0), out, out_len, NULL, 0, stats, data, decibels);
}

/* ---- headers of WAV files, field by field */

struct fields {
    uint8_t *at;
};

static void put(struct fields *f, int size, uint64_t value) {
    for (; size; size--, value >>= 8) *f->at++ = (uint8_t)value;
}
static void put_name(struct fields *f, const char *name) {
    while (*name) *f->at++ = (uint8_t)*name++;
}

/* Channels and loudspeakers of Sony's channel types. */
static const struct {
    uint64_t channels;
    uint32_t mask;
} types[] = {{0, 0}, {1, 0x4}, {2, 0x3}, {3, 0x7}, {4, 0x33}, {4, 0xF}, {5, 0x37}, {6, 0x3F}};

static void put_format(struct fields *f, uint64_t rate, uint64_t channels, uint32_t mask) {
    static const uint8_t pcm[] = {1, 0, 0, 0, 0, 0, 16, 0, 128, 0, 0, 170, 0, 56, 155, 113};
    put_name(f, "fmt "), put(f, 4, channels > 2 ? 40 : 16);
    put(f, 2, channels > 2 ? 0xFFFE : 1), put(f, 2, channels), put(f, 4, rate);
    put(f, 4, rate * 3 * channels), put(f, 2, 3 * channels), put(f, 2, 24);
    if (channels <= 2) return;
    put(f, 2, 22), put(f, 2, 24), put(f, 4, mask);
    for (size_t k = 0; k < sizeof pcm; k++) put(f, 1, pcm[k]);
}

uint8_t PLAIN(wave_header_call)(uint64_t format, uint64_t rate, uint64_t channels, uint64_t channel_type,
                                uint64_t bytes, uint8_t out[PUIGNEHT_MOST_WAVE_HEAD], uint64_t told[2]) {
    const uint64_t short_head = channels > 2 ? PUIGNEHT_EXTENSIBLE_HEAD : PUIGNEHT_PLAIN_HEAD, pad = bytes % 2;
    const int is_short = bytes <= UINT32_MAX && short_head - 8 + bytes + pad <= UINT32_MAX;
    struct fields f = {out};
    int is_long = format == PUIGNEHT_FORMAT_RF64 || !is_short;
    if (format > PUIGNEHT_FORMAT_RF64 || !is_rate(rate)) return PUIGNEHT_NOT_UNDERSTOOD;
    if (channel_type < 1 || channel_type > 7 || channels != types[channel_type].channels)
        return PUIGNEHT_REFUSED_NOT_WAV;
    if (format == PUIGNEHT_FORMAT_WAV && (channels > 2 || is_long)) return PUIGNEHT_REFUSED_NOT_WAV;
    if (bytes % (3 * channels) || bytes > UINT64_MAX - pad - short_head - 28) return PUIGNEHT_REFUSED_NOT_WAV;
    told[0] = is_long ? short_head + 36 : short_head;
    told[1] = pad;
    put_name(&f, is_long ? "RF64" : "RIFF"), put(&f, 4, is_long ? UINT32_MAX : told[0] - 8 + bytes + pad);
    put_name(&f, "WAVE");
    if (is_long) {
        put_name(&f, "ds64"), put(&f, 4, 28), put(&f, 8, told[0] - 8 + bytes + pad);
        put(&f, 8, bytes), put(&f, 8, bytes / (3 * channels)), put(&f, 4, 0);
    }
    put_format(&f, rate, channels, types[channel_type].mask);
    put_name(&f, "data"), put(&f, 4, is_long ? UINT32_MAX : bytes);
    return 0;
}
