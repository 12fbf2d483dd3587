/* Tries the calls of puigneht/album.h on albums of tracks that are made and cut here, beside the conversion of the
 * uncut frames, and what they refuse. As C and as C++. */
#include <math.h>
#include "try.h"

enum { ROUTES = 8 };
static const struct {
    uint32_t rate, cutoff;
} routes[ROUTES] = {{88200, 0},  {88200, 1},  {176400, 0}, {176400, 1},
                    {176400, 2}, {352800, 0}, {352800, 1}, {352800, 2}};

/* ---- an album's bytes, and its tracks as files */

struct track {
    uint8_t *file;
    uint64_t length, begin, bytes; /* of the file; its place in the album, and bytes of each channel */
    uint64_t reads, failing;       /* calls of `read`; from which on it fails */
};
static struct track tracks[PUIGNEHT_MOST_TRACKS];
static puigneht_source sources[PUIGNEHT_MOST_TRACKS];
static size_t count;
static uint64_t channels, type, all; /* all: bytes of each channel */
static uint8_t *frames;              /* the whole album, its last frame filled up */
static uint64_t frame_count;

static void put(uint8_t *at, int size, uint64_t value) {
    for (int k = 0; k < size; k++) at[k] = (uint8_t)(value >> 8 * k);
}
static uint64_t number_at(const uint8_t *at, int size) {
    uint64_t value = 0;
    while (size--) value = 256 * value + at[size];
    return value;
}

static uint8_t turned(uint8_t byte) {
    unsigned back = 0;
    for (int k = 0; k < 8; k++) back |= (byte >> k & 1u) << (7 - k);
    return (uint8_t)back;
}

static int read_track(void *context, uint64_t place, uint8_t *bytes, size_t n) {
    struct track *t = (struct track *)context;
    if (++t->reads > t->failing || place > t->length || n > t->length - place) return 1;
    memcpy(bytes, t->file + place, n);
    return 0;
}

static void put_head(uint8_t *head, uint64_t length, uint64_t bits, uint64_t bytes, uint64_t data) {
    memcpy(head, "DSD ", 4), put(head + 4, 8, 28), put(head + 12, 8, length);
    put(head + 20, 8, length > 92 + data ? 92 + data : 0);
    memcpy(head + 28, "fmt ", 4), put(head + 32, 8, 52), put(head + 40, 4, 1), put(head + 48, 4, type);
    put(head + 52, 4, channels), put(head + 56, 4, 2822400), put(head + 60, 4, bits), put(head + 64, 8, 8 * bytes);
    put(head + 72, 4, 4096), memcpy(head + 80, "data", 4), put(head + 84, 8, 12 + data);
}

/* The file of a stretch of the album; other bytes than idle ones behind the samples, and at times metadata. */
static void make_track(struct track *t, uint64_t begin, uint64_t bytes) {
    const uint64_t blocks = (bytes + 4095) / 4096, data = blocks * 4096 * channels, bits = begin % 3 ? 1 : 8;
    t->begin = begin, t->bytes = bytes, t->reads = 0, t->failing = UINT64_MAX;
    t->length = 92 + data + (begin % 5 == 2 ? 131 : 0);
    t->file = (uint8_t *)room_for((size_t)t->length);
    memset(t->file, 0xA3, (size_t)t->length);
    memset(t->file, 0, 92), put_head(t->file, t->length, bits, bytes, data);
    for (uint64_t j = 0; j < bytes; j++)
        for (uint64_t c = 0; c < channels; c++) {
            const uint8_t byte = frames[(begin + j) * channels + c];
            t->file[92 + (j / 4096 * channels + c) * 4096 + j % 4096] = bits == 1 ? turned(byte) : byte;
        }
}

/* An album of tracks of these lengths, in bytes of each channel. */
static void make_album(uint64_t of_type, const uint64_t *lengths, size_t n) {
    static const uint64_t of[] = {0, 1, 2, 3, 4, 4, 5, 6};
    uint64_t begin = 0;
    type = of_type, channels = of[type], count = n;
    for (size_t k = all = 0; k < n; k++) all += lengths[k];
    frame_count = (all + 4703) / 4704;
    frames = noise((size_t)(frame_count * 4704 * channels));
    for (uint64_t p = all * channels; p < frame_count * 4704 * channels; p++) frames[p] = 0x69;
    for (size_t k = 0; k < n; begin += lengths[k++]) {
        make_track(&tracks[k], begin, lengths[k]);
        sources[k].read = read_track, sources[k].context = &tracks[k], sources[k].length = tracks[k].length;
    }
}

static void end_album(void) {
    for (size_t k = 0; k < count; k++) free(tracks[k].file);
    free(frames);
}

static puigneht_memory memory_of(const puigneht_album *a) {
    puigneht_memory m = {NULL, puigneht_album_memory(a)};
    m.bytes = (uint8_t *)room_for(m.length);
    return m;
}

/* ---- beside the uncut album */

static uint8_t *whole; /* its samples */
static puigneht_stats of_whole;

static void convert_whole(const puigneht_converter *c) {
    const size_t length = puigneht_bytes_of(c, (size_t)frame_count);
    const puigneht_run run = puigneht_cut(c, frames, (size_t)(frame_count * 4704 * channels), 0, (size_t)frame_count);
    whole = (uint8_t *)room_for(length);
    const puigneht_packed out = puigneht_into(whole, length);
    EXPECT(puigneht_convert(c, &run, &out, &of_whole, NULL) == 0);
}

/* Bytes of the album's samples before byte `byte` of each channel. */
static uint64_t samples_before(uint64_t rate, uint64_t byte) {
    const uint64_t stands_on = rate == 88200 ? 4 : rate == 176400 ? 2 : 1;
    return (byte + stands_on - 1) / stands_on * 3 * channels;
}

/* A file as it is to be: header fields, the album's samples from `begin` to `end`, a zero byte behind odd ones. */
static void expect_file(const puigneht_wave *w, const uint8_t *file, uint64_t rate, uint64_t begin, uint64_t end) {
    const uint64_t data = end - begin, head = channels > 2 ? 68 : 44;
    EXPECT(w->head_len == head && w->data == data && w->pad == data % 2 && w->length == head + data + data % 2);
    EXPECT(!memcmp(file, "RIFF", 4) && number_at(file + 4, 4) == w->length - 8 && !memcmp(file + 8, "WAVEfmt ", 8));
    EXPECT(number_at(file + 20, 2) == (channels > 2 ? 0xFFFEu : 1u) && number_at(file + 22, 2) == channels &&
           number_at(file + 24, 4) == rate && number_at(file + 34, 2) == 24);
    EXPECT(!memcmp(file + head - 8, "data", 4) && number_at(file + head - 4, 4) == data);
    EXPECT(data == 0 || !memcmp(file + head, whole + begin, (size_t)data));
    EXPECT(data % 2 == 0 || file[head + data] == 0);
}

struct out {
    puigneht_wave wave;
    uint8_t *file;
};

static void begin_out(struct out *o, const puigneht_album *a, uint64_t track) {
    puigneht_refusal r;
    EXPECT(puigneht_album_header(a, PUIGNEHT_FORMAT_AUTO, track, &o->wave, &r) == 0 && r.number == 0 &&
           r.call == PUIGNEHT_CALL_ALBUM_HEADER && r.length == o->wave.data && o->wave.track == track &&
           r.channels == channels && !r.data[0] && !r.data[1] && r.rate == a->converter.numbers.rate);
    o->file = (uint8_t *)room_for((size_t)o->wave.length);
    memset(o->file, 0xEE, (size_t)o->wave.length);
    memcpy(o->file, o->wave.head, o->wave.head_len);
    memset(o->file + o->wave.length - o->wave.pad, 0, (size_t)o->wave.pad);
}

static void write_out(const struct out *o, const puigneht_album *a, const puigneht_piece *p) {
    const puigneht_write w = puigneht_album_write(a, &o->wave, p);
    EXPECT(w.bytes >= p->bytes && w.length <= p->length && w.bytes + w.length <= p->bytes + p->length);
    EXPECT(w.length == 0 || (w.place >= o->wave.head_len && w.place + w.length <= o->wave.head_len + o->wave.data));
    if (w.length && w.place + w.length <= o->wave.length) memcpy(o->file + w.place, w.bytes, w.length);
}

/* The plan of a piece says where it is; what of it goes where is told without its bytes, too. */
static void expect_plan(const puigneht_album *a, uint64_t number, const puigneht_piece *p, const struct out *o) {
    const puigneht_stats none = puigneht_no_stats();
    puigneht_piece planned;
    puigneht_refusal r;
    memset(&planned, 0, sizeof planned);
    EXPECT(puigneht_album_plan(a, number, &planned, &r) == 0 && r.number == 0 && r.call == PUIGNEHT_CALL_ALBUM_PIECE &&
           r.channels == channels && r.length == 0);
    EXPECT(planned.first == p->first && planned.count == p->count && planned.place == p->place &&
           planned.length == p->length && !planned.bytes && !memcmp(&planned.stats, &none, sizeof none));
    const puigneht_write w = puigneht_album_write(a, &o->wave, p), v = puigneht_album_write(a, &o->wave, &planned);
    EXPECT(!v.bytes && v.length == w.length && v.place == w.place);
}

/* The frames of a piece, and that they convert to its samples. */
static void expect_frames(const puigneht_album *a, uint64_t number, const puigneht_piece *p, const uint8_t *bytes) {
    const uint64_t one = 4704 * channels, before = p->first ? 1 : 0, after = p->first + p->count < frame_count ? 1 : 0;
    puigneht_memory m = memory_of(a);
    puigneht_frames f;
    puigneht_refusal r;
    memset(&f, 0, sizeof f);
    EXPECT(puigneht_album_frames(a, number, &m, &f, &r) == 0 && r.call == PUIGNEHT_CALL_ALBUM_FRAMES && r.number == 0);
    EXPECT(f.first == p->first && f.count == p->count && f.before == before &&
           f.length == (before + p->count + after) * one);
    EXPECT(!memcmp(f.bytes, frames + (p->first - before) * one, f.length));
    const puigneht_run run = puigneht_album_run(a, &f);
    EXPECT((run.before != NULL) == (before == 1) && (run.after != NULL) == (after == 1));
    uint8_t *out = (uint8_t *)room_for(p->length);
    const puigneht_packed to = puigneht_into(out, p->length);
    puigneht_stats s;
    EXPECT(puigneht_convert(&a->converter, &run, &to, &s, NULL) == 0 && !memcmp(out, bytes, p->length) &&
           !memcmp(&s, &p->stats, sizeof s));
    free(out), free(m.bytes);
}

/* All pieces from the last to the first, in memory that holds other things. */
static void expect_pieces(const puigneht_album *a, struct out *each, struct out *one) {
    puigneht_memory m = memory_of(a);
    puigneht_stats joined = puigneht_no_stats();
    puigneht_piece p;
    puigneht_refusal r;
    uint64_t next = frame_count;
    memset(m.bytes, 0x3C, m.length), memset(&p, 0, sizeof p);
    for (uint64_t k = a->numbers.pieces; k--;) {
        EXPECT(puigneht_album_piece(a, k, &m, &p, &r) == 0 && r.number == 0 && r.call == PUIGNEHT_CALL_ALBUM_PIECE &&
               r.length == m.length && !r.data[0] && !r.data[1]);
        EXPECT(p.first + p.count == next && p.count && p.count <= 128 && p.first == 128 * k);
        next = p.first;
        EXPECT(p.place == samples_before(a->converter.numbers.rate, 4704 * p.first) &&
               p.length == a->numbers.frame_bytes * p.count && !memcmp(p.bytes, whole + p.place, p.length));
        EXPECT(puigneht_join_stats(&joined, &p.stats) == 0);
        for (size_t t = 0; t < count; t++) write_out(&each[t], a, &p);
        write_out(one, a, &p);
        if (k < 2) expect_frames(a, k, &p, p.bytes);
        expect_plan(a, k, &p, &each[k % count]);
    }
    EXPECT(next == 0 && !memcmp(&joined, &of_whole, sizeof joined));
    free(m.bytes);
}

static void expect_album(uint32_t rate, uint32_t cutoff, double decibels, size_t taps_len) {
    static int32_t taps[PUIGNEHT_MOST_TAPS];
    static struct out each[PUIGNEHT_MOST_TRACKS], one;
    puigneht_settings s = puigneht_default_settings();
    puigneht_album a;
    puigneht_refusal r;
    puigneht_converter c;
    taps[0] = 1 << 24;
    for (size_t k = 1; k < taps_len; k++) taps[0] -= 2 * (taps[k] = (int32_t)(k * 7919 % 60000) - 30000);
    s.rate = rate, s.cutoff = cutoff, s.decibels = decibels, s.channels = 4000000000;
    if (taps_len) s.taps = taps, s.taps_len = taps_len;
    memset(&a, 5, sizeof a);
    EXPECT(puigneht_album_open(&a, sources, count, &s, &r) == 0 && r.number == 0 && r.track == 0 && r.length == count &&
           r.call == PUIGNEHT_CALL_ALBUM_OPEN && r.channels == channels && !r.data[0] && !r.data[1]);
    s.channels = (uint32_t)channels;
    EXPECT(puigneht_open(&c, &s, NULL) == 0 && !memcmp(&c, &a.converter, sizeof c));
    EXPECT(a.tracks == count && a.numbers.channels == channels && a.numbers.channel_type == type &&
           a.numbers.bytes == all && a.numbers.frames == frame_count && a.numbers.pieces == (frame_count + 127) / 128);
    EXPECT(a.numbers.frame_bytes == rate / 25 * channels && a.numbers.filled == frame_count * 4704 - all &&
           a.numbers.data_bytes == frame_count * a.numbers.frame_bytes);
    convert_whole(&c);
    for (size_t t = 0; t < count; t++) begin_out(&each[t], &a, t);
    begin_out(&one, &a, PUIGNEHT_ALL);
    expect_pieces(&a, each, &one);
    for (size_t t = 0; t < count; t++) {
        const uint64_t begin = samples_before(rate, tracks[t].begin);
        expect_file(&each[t].wave, each[t].file, rate, begin, samples_before(rate, tracks[t].begin + tracks[t].bytes));
        EXPECT(a.marks[t] == begin && a.lengths[t] == tracks[t].length);
        free(each[t].file);
    }
    expect_file(&one.wave, one.file, rate, 0, a.numbers.data_bytes);
    EXPECT(a.marks[count] == samples_before(rate, all));
    free(one.file), free(whole);
}

static void cut_albums(void) {
    static const struct {
        uint64_t type, lengths[12];
    } cuts[] = {{2, {3 * 4704}},                             /* a single file */
                {1, {1}},                                    /* of eight bits */
                {2, {1, 1, 1, 1, 1}},                        /* tracks that may have no sample */
                {1, {3, 4704, 2, 4703, 1}},                  /* inside samples and frames */
                {2, {4704, 4704 * 2, 4704}},                 /* at frame borders */
                {2, {4095, 1, 4096, 4097, 10000, 66, 5}},    /* at blocks, and shorter than the reach */
                {1, {128 * 4704 - 1, 2, 128 * 4704 + 5, 7}}, /* at pieces */
                {2, {127 * 4704, 4704, 1}},
                {7, {5000, 13, 4704}},
                {6, {4703, 2 * 4704 + 2}},
                {5, {1, 9408}},
                {4, {4096, 4096}},
                {3, {20000, 20000, 3}}};
    for (size_t k = 0; k < sizeof cuts / sizeof *cuts; k++) {
        size_t n = 0;
        while (n < 12 && cuts[k].lengths[n]) n++;
        make_album(cuts[k].type, cuts[k].lengths, n);
        for (size_t r = 0; r < ROUTES; r++)
            if (all < 100000 || r % 3 == k % 3)
                expect_album(routes[r].rate, routes[r].cutoff, r % 2 ? 5.75 : -3, r % 4 ? 0 : 1 + 19 * k % 117);
        end_album();
    }
}

/* The most tracks, some of them empty. */
static void many_tracks(void) {
    uint64_t lengths[PUIGNEHT_MOST_TRACKS];
    for (size_t k = 0; k < PUIGNEHT_MOST_TRACKS; k++) lengths[k] = k * k * 7 % 1283 * (k % 11 != 3);
    make_album(2, lengths, PUIGNEHT_MOST_TRACKS);
    expect_album(88200, 0, 24, 0), expect_album(176400, 2, -120, 0), expect_album(352800, 1, 0.5, 0);
    end_album();
    make_album(1, lengths, 1);
    expect_album(88200, 0, 0, 0);
    end_album();
}

/* ---- what is refused */

static puigneht_settings asked(void) {
    puigneht_settings s = puigneht_default_settings();
    s.rate = 176400;
    return s;
}

#define NOT "refused 9: not a DSF file as Sony's document lays it out: "
static const struct {
    int place, size;
    uint64_t value;
    uint64_t field, found, asked;
    unsigned number;
    const char *sentence;
} broken[] = {{0, 4, 7, 0, 7, 0x20445344, 9, NOT "the name of the DSD chunk (byte 0) is 7, and not 'DSD '"},
              {48, 4, 7, 48, 7 + (UINT64_C(2) << 32), 1 + (UINT64_C(1) << 32), 9,
               NOT "channel type 7 does not go with 2 channels"},
              {60, 4, 2, 60, 2, 1, 9, NOT "the bits per sample (byte 60) is 2, and not 1"},
              {56, 4, 5644800, 56, 5644800, 2822400, 10,
               "refused 10: 5,644,800 one-bit samples a second: only 2,822,400 (DSD64) are converted"},
              {84, 8, 13, 84, 13, 12 + 2 * 8192, 11,
               "refused 11: the data chunk says 13 bytes, and the file's samples need 16,396: a damaged file?"}};

/* A broken track, whichever it is, and two: the first is told. */
static void broken_tracks(void) {
    static const uint64_t lengths[] = {5000, 5000, 5000};
    const puigneht_settings s = asked();
    puigneht_album a, kept;
    puigneht_refusal r;
    memset(&a, 5, sizeof a), kept = a;
    for (size_t k = 0; k < sizeof broken / sizeof *broken; k++)
        for (size_t t = 0; t < 3; t++) {
            make_album(2, lengths, 3);
            put(tracks[t].file + broken[k].place, broken[k].size, broken[k].value);
            if (t < 2) put(tracks[2].file + 72, 4, 17);
            REFUSED(puigneht_album_open(&a, sources, 3, &s, &r), broken[k].number, broken[k].sentence);
            EXPECT(r.track == t && r.field.place == broken[k].field && r.field.found == broken[k].found &&
                   r.field.asked == broken[k].asked && r.length == tracks[t].length && !r.data[0] && !r.data[1]);
            end_album();
        }
    make_album(2, lengths, 3);
    tracks[1].length = sources[1].length = 40; /* and no more can be read */
    REFUSED(puigneht_album_open(&a, sources, 3, &s, &r), 9, NOT "it has 40 bytes, and a header has 92");
    EXPECT(r.track == 1 && r.length == 40);
    tracks[1].length = sources[1].length = 5000;
    REFUSED(puigneht_album_open(&a, sources, 3, &s, &r), 11,
            "refused 11: the file says 16,476 bytes and has 5,000: an incomplete upload?");
    EXPECT(r.track == 1 && r.field.place == 12);
    tracks[1].length = sources[1].length = 0;
    REFUSED(puigneht_album_open(&a, sources, 3, &s, &r), 9, NOT "it has 0 bytes, and a header has 92");
    EXPECT(!memcmp(&a, &kept, sizeof a));
    end_album();
}

/* A track of another channel type, also where it has as many channels. */
static void other_types(void) {
    static const uint64_t lengths[] = {5000, 5000, 9};
    const puigneht_settings s = asked();
    puigneht_album a;
    puigneht_refusal r;
    make_album(5, lengths, 3);
    put(tracks[1].file + 48, 4, 4);
    REFUSED(puigneht_album_open(&a, sources, 3, &s, &r), 9,
            "refused 9: its channel type is 4 (quad), and the first track's 5 (4 channels)");
    EXPECT(r.track == 1 && r.field.place == 48 && r.field.found == 4 + (UINT64_C(4) << 32) &&
           r.field.asked == 5 + (UINT64_C(4) << 32) && r.length == tracks[1].length);
    end_album();
    make_album(1, lengths, 2);
    uint8_t *mono = tracks[0].file, *second = tracks[1].file;
    const uint64_t length = tracks[0].length;
    free(frames), free(second);
    make_album(2, lengths, 2);
    free(tracks[1].file);
    tracks[1].file = mono, tracks[1].length = sources[1].length = length;
    REFUSED(puigneht_album_open(&a, sources, 2, &s, &r), 9,
            "refused 9: its channel type is 1 (mono), and the first track's 2 (stereo)");
    EXPECT(r.track == 1 && r.field.found == 1 + (UINT64_C(1) << 32));
    end_album();
}

static const struct {
    double decibels;
    const char *sentence;
} no_gains[] = {{24.5, "refused 3: the gain is not -120 to 24 decibels, but 24.5"},
                {-120.25, "refused 3: the gain is not -120 to 24 decibels, but -120.25"},
                {-1e300, "refused 3: the gain is not -120 to 24 decibels, but -1e+300"},
                {HUGE_VAL, "refused 3: the gain is not -120 to 24 decibels, but inf"},
                {(double)NAN, "refused 3: the gain is not -120 to 24 decibels, but nan"}};

static void settings_refused(void) {
    static const uint64_t lengths[] = {100, 200};
    static const int32_t bad[] = {16777216, 1};
    puigneht_settings s = asked();
    puigneht_album a, kept;
    puigneht_refusal r;
    memset(&a, 5, sizeof a), kept = a;
    make_album(2, lengths, 2);
    for (size_t k = 0; k < sizeof no_gains / sizeof *no_gains; k++) {
        s.decibels = no_gains[k].decibels;
        REFUSED(puigneht_album_open(&a, sources, 2, &s, &r), 3, no_gains[k].sentence);
        EXPECT(!memcmp(&r.decibels, &no_gains[k].decibels, sizeof(double)) && r.track == 0);
    }
    tracks[0].failing = 0, EXPECT(puigneht_album_open(&a, sources, 2, &s, &r) == 254 && r.decibels == 0);
    tracks[0].failing = UINT64_MAX;
    s.rate = 88200, s.cutoff = 2;
    REFUSED(puigneht_album_open(&a, sources, 2, &s, &r), 2, "refused 2: wide is for 176400 and 352800");
    EXPECT(r.data[0] == 88200 && r.data[1] == 2 && r.rate == 88200 && r.cutoff == 2 && r.decibels == 0);
    put(tracks[0].file, 4, 0);
    EXPECT(puigneht_album_open(&a, sources, 2, &s, &r) == 9 && r.decibels == 0);
    memcpy(tracks[0].file, "DSD ", 4), put(tracks[1].file, 4, 0);
    EXPECT(puigneht_album_open(&a, sources, 2, &s, &r) == 2 && r.track == 0);
    memcpy(tracks[1].file, "DSD ", 4);
    s = asked(), s.taps = bad, s.taps_len = 2;
    EXPECT(puigneht_album_open(&a, sources, 2, &s, &r) == 18);
    s.taps_len = 0,
    REFUSED(puigneht_album_open(&a, sources, 2, &s, &r), 17, "refused 17: a filter may have 1 to 117 taps");
    s = asked(), s.rate = 48000;
    REFUSED(puigneht_album_open(&a, sources, 2, &s, &r), 255,
            "not understood: a rate of 48,000: there are 88,200, 176,400 and 352,800");
    s = asked(), s.cutoff = 7;
    REFUSED(puigneht_album_open(&a, sources, 2, &s, &r), 255,
            "not understood: cutoff 7: there are 0 standard, 1 low and 2 wide");
    s = asked();
    REFUSED(puigneht_album_open(&a, sources, 0, &s, &r), 255, "not understood: 0 tracks: an album has 1 to 99");
    tracks[0].reads = 0;
    REFUSED(puigneht_album_open(&a, sources, 100, &s, &r), 255, "not understood: 100 tracks: an album has 1 to 99");
    EXPECT(r.length == 100 && tracks[0].reads == 0 && !memcmp(&a, &kept, sizeof a));
    EXPECT(puigneht_album_open(&a, sources, SIZE_MAX, &s, NULL) == 255);
    end_album();
}

/* Reads that fail, of the beginnings and of pieces. */
static void failed_reads(void) {
    static const uint64_t lengths[] = {70 * 4704, 100 * 4704, 9};
    const puigneht_settings s = asked();
    puigneht_album a, kept;
    puigneht_piece p, kept_piece;
    puigneht_frames f, kept_frames;
    puigneht_refusal r;
    memset(&a, 5, sizeof a), kept = a, memset(&p, 5, sizeof p), kept_piece = p, memset(&f, 5, sizeof f),
                             kept_frames = f;
    make_album(2, lengths, 3);
    for (size_t t = 0; t < 3; t++) {
        tracks[t].failing = 0;
        REFUSED(puigneht_album_open(&a, sources, 3, &s, &r), 254, "the file cannot be read");
        EXPECT(r.track == t && r.length == tracks[t].length && !memcmp(&a, &kept, sizeof a));
        tracks[t].failing = UINT64_MAX;
    }
    EXPECT(puigneht_album_open(&a, sources, 3, &s, NULL) == 0);
    puigneht_memory m = memory_of(&a);
    for (size_t t = 0; t < 3; t++) {
        tracks[t].failing = 0;
        for (uint64_t k = 0; k < 2; k++) {
            const int needed = t == 1 || t == 2 * k;
            EXPECT(puigneht_album_piece(&a, k, &m, &p, &r) == (needed ? 254 : 0) && (!needed || r.track == t) &&
                   (!needed || r.length == tracks[t].length));
            EXPECT(puigneht_album_frames(&a, k, &m, &f, &r) == (needed ? 254 : 0) && (!needed || r.track == t));
            EXPECT(!needed || (!memcmp(&p, &kept_piece, sizeof p) && !memcmp(&f, &kept_frames, sizeof f)));
            p = kept_piece, f = kept_frames;
        }
        tracks[t].failing = UINT64_MAX;
    }
    free(m.bytes);
    end_album();
}

/* Too little memory, and pieces and tracks that are not there. */
static void not_there(void) {
    static const uint64_t lengths[] = {70 * 4704, 100 * 4704 + 1};
    const puigneht_settings s = asked();
    puigneht_album a;
    puigneht_piece p, kept;
    puigneht_frames f;
    puigneht_wave w, kept_wave;
    puigneht_refusal r;
    memset(&p, 5, sizeof p), kept = p, memset(&w, 5, sizeof w), kept_wave = w;
    make_album(2, lengths, 2);
    EXPECT(puigneht_album_open(&a, sources, 2, &s, NULL) == 0);
    puigneht_memory m = memory_of(&a), small = m;
    small.length = 9;
    REFUSED(puigneht_album_piece(&a, 0, &small, &p, &r), 7, "refused 7: memory of 9 bytes, where 4,240,576 are needed");
    small.length = (size_t)r.data[1];
    EXPECT(r.data[0] == 9 && small.length <= m.length && puigneht_album_piece(&a, 0, &small, &p, NULL) == 0);
    small.length--, p = kept, EXPECT(puigneht_album_piece(&a, 0, &small, &p, NULL) == 7);
    REFUSED(puigneht_album_frames(&a, 0, &small, &f, &r), 0, "accepted");
    small.length = 0;
    REFUSED(puigneht_album_frames(&a, 0, &small, &f, &r), 7,
            "refused 7: memory of 0 bytes, where 2,434,240 are needed");
    small.length = (size_t)r.data[1], EXPECT(puigneht_album_frames(&a, 0, &small, &f, NULL) == 0);
    small.length--, EXPECT(puigneht_album_frames(&a, 0, &small, &f, NULL) == 7);
    REFUSED(puigneht_album_piece(&a, 2, &m, &p, &r), 5, "refused 5: the album has no piece 2: they are counted from 0");
    REFUSED(puigneht_album_plan(&a, 2, &p, &r), 5, "refused 5: the album has no piece 2: they are counted from 0");
    REFUSED(puigneht_album_frames(&a, UINT64_MAX, &m, &f, &r), 5,
            "refused 5: the album has no piece 18,446,744,073,709,551,615: they are counted from 0");
    REFUSED(puigneht_album_header(&a, 0, 2, &w, &r), 5, "refused 5: the album has no track 2: they are counted from 0");
    REFUSED(puigneht_album_header(&a, 3, 1, &w, &r), 255,
            "not understood: format 3: there are 0 auto, 1 WAV and 2 RF64");
    EXPECT(r.data[0] == 3 && !memcmp(&p, &kept, sizeof p) && !memcmp(&w, &kept_wave, sizeof w));
    free(m.bytes);
    end_album();
}

/* An album whose rate was written after it was opened, or that was not opened, gives neither header nor piece. */
static void written_albums(void) {
    static const uint64_t rates[] = {88200, 352800, 176401, 0}, lengths[] = {9};
    static const char *sentence =
        "not understood: a converter or an album that was not opened, or was written to since";
    const puigneht_settings s = asked();
    puigneht_album a, opened;
    puigneht_piece p;
    puigneht_frames f;
    puigneht_wave w, kept;
    puigneht_refusal r;
    make_album(2, lengths, 1);
    EXPECT(puigneht_album_open(&opened, sources, 1, &s, NULL) == 0);
    puigneht_memory m = memory_of(&opened);
    memset(&w, 5, sizeof w), kept = w;
    for (size_t k = 0; k < 11; k++) {
        a = opened;
        if (k < 4) a.converter.numbers.rate = rates[k];
        if (k == 4) a.numbers.channels = 1;
        if (k == 5) a.tracks = 0;
        if (k == 6) a.tracks = 100;
        if (k == 7) a.converter.numbers.cutoff = 1;
        if (k == 8) a.converter.numbers.channels = 1;
        if (k == 9) a.converter.gain.decibels = 6;
        if (k == 10) a.converter.numbers.frame_bytes = 0;
        EXPECT(puigneht_album_piece(&a, 0, &m, &p, &r) == 255 && r.call == PUIGNEHT_CALL_ALBUM_PIECE);
        EXPECT(puigneht_album_frames(&a, 0, &m, &f, &r) == 255 && r.call == PUIGNEHT_CALL_ALBUM_FRAMES);
        EXPECT(puigneht_album_plan(&a, 0, &p, &r) == 255 && r.call == PUIGNEHT_CALL_ALBUM_PIECE);
        EXPECT(puigneht_album_header(&a, 0, 0, &w, &r) == 255 && r.rate == a.converter.numbers.rate);
        if (k != 2 && k != 3) REFUSED(puigneht_album_header(&a, 0, 0, &w, &r), 255, sentence);
        if (k != 2 && k != 3) REFUSED(puigneht_album_piece(&a, 0, &m, &p, &r), 255, sentence);
    }
    memset(&a, 0, sizeof a);
    EXPECT(puigneht_album_header(&a, 0, PUIGNEHT_ALL, &w, &r) == 255 && !memcmp(&w, &kept, sizeof w));
    REFUSED(puigneht_album_piece(&a, 0, &m, &p, &r), 255,
            "not understood: a rate of 0: there are 88,200, 176,400 and 352,800");
    EXPECT(puigneht_album_memory(&a) == 0);
    free(m.bytes);
    end_album();
}

/* ---- albums of which the headers alone are there: long ones, and every kind of header */

static uint8_t long_heads[PUIGNEHT_MOST_TRACKS][92];
static int read_head(void *context, uint64_t place, uint8_t *bytes, size_t n) {
    if (place || n > 92) return 1;
    memcpy(bytes, context, n);
    return 0;
}

static void make_heads(uint64_t of_type, const uint64_t *lengths, size_t n) {
    static const uint64_t of[] = {0, 1, 2, 3, 4, 4, 5, 6};
    type = of_type, channels = of[type], count = n;
    for (size_t k = 0; k < n; k++) {
        const uint64_t data = (lengths[k] + 4095) / 4096 * 4096 * channels;
        memset(long_heads[k], 0, 92), put_head(long_heads[k], 92 + data, 1, lengths[k], data);
        sources[k].read = read_head, sources[k].context = long_heads[k], sources[k].length = 92 + data;
    }
}

static void long_albums(void) {
    static const uint64_t two_hours[] = {300000 * UINT64_C(4704), 240000 * UINT64_C(4704) - 1, 1, 1};
    static const uint64_t too_many = 540000 * UINT64_C(4704) + 1;
    puigneht_settings s = asked();
    puigneht_album a, b;
    puigneht_refusal r;
    make_heads(2, two_hours, 3);
    EXPECT(puigneht_album_open(&a, sources, 3, &s, &r) == 0 && a.numbers.frames == 540000 && a.numbers.filled == 0 &&
           a.numbers.pieces == 4219 && a.numbers.data_bytes == UINT64_C(7620480000));
    make_heads(2, two_hours, 4);
    REFUSED(puigneht_album_open(&a, sources, 4, &s, &r), 5,
            "refused 5: 540,001 frames with the tracks before it: at most 540,000 (two hours) are converted");
    EXPECT(r.track == 3 && r.data[0] == 540001 && r.length == sources[3].length);
    make_heads(2, &too_many, 1);
    REFUSED(puigneht_album_open(&b, sources, 1, &s, &r), 5,
            "refused 5: 540,001 frames: at most 540,000 (two hours) are converted");
    for (uint64_t parts = 1; parts <= 64; parts += 7) {
        uint64_t next = 0;
        for (uint64_t k = 0; k < parts; k++) {
            puigneht_stretch part = puigneht_album_part(&a, parts, k);
            EXPECT(part.begin == next && part.end - part.begin <= 4219 / parts + 1);
            next = part.end;
        }
        EXPECT(next == 4219 && puigneht_album_part(&a, parts, parts).end == 0);
    }
    EXPECT(puigneht_album_part(&a, 65, 0).end == 0 && puigneht_album_part(&a, 0, 0).end == 0);
}

/* The plan of the last piece of a long album stands past 4 GB, in the track's file too. */
static void long_places(void) {
    static const uint64_t lengths[] = {4000, 222000 * UINT64_C(4704)};
    puigneht_settings s = asked();
    puigneht_album a;
    puigneht_wave w, one;
    puigneht_piece p;
    puigneht_write to;
    s.rate = 352800;
    make_heads(2, lengths, 2);
    EXPECT(puigneht_album_open(&a, sources, 2, &s, NULL) == 0 && a.numbers.pieces == 1735);
    EXPECT(puigneht_album_header(&a, 0, 1, &w, NULL) == 0 && w.head_len == 80 &&
           w.data == UINT64_C(222000) * 4704 * 6 && w.length == 80 + w.data);
    EXPECT(puigneht_album_header(&a, 0, PUIGNEHT_ALL, &one, NULL) == 0 && one.data == UINT64_C(222001) * 4704 * 6);
    memset(&p, 0, sizeof p);
    p.place = UINT64_C(1734) * 128 * 28224, p.length = 49 * 28224, p.bytes = long_heads[0];
    to = puigneht_album_write(&a, &w, &p);
    EXPECT(to.bytes == p.bytes && to.place == 80 + p.place - 24000 && to.length == w.data + 24000 - p.place);
    to = puigneht_album_write(&a, &one, &p);
    EXPECT(to.bytes == p.bytes && to.place == 80 + p.place && to.length == p.length);
}

/* A header's fields, read one by one. */
static void expect_header(const puigneht_wave *w, uint64_t rate, int is_long) {
    static const uint32_t masks[] = {0, 4, 3, 7, 0x33, 0xF, 0x37, 0x3F};
    static const uint8_t pcm[] = {1, 0, 0, 0, 0, 0, 16, 0, 128, 0, 0, 170, 0, 56, 155, 113};
    const uint8_t *h = w->head, *f = h + (is_long ? 48 : 12), *d = h + w->head_len - 8;
    const uint64_t format = channels > 2 ? 40 : 16, riff = w->head_len - 8 + w->data + w->data % 2;
    EXPECT(w->head_len == (is_long ? 64 : 28) + format && w->length == 8 + riff && w->pad == w->data % 2);
    EXPECT(!memcmp(h, is_long ? "RF64" : "RIFF", 4) && number_at(h + 4, 4) == (is_long ? UINT32_MAX : riff) &&
           !memcmp(h + 8, "WAVE", 4));
    if (is_long)
        EXPECT(!memcmp(h + 12, "ds64", 4) && number_at(h + 16, 4) == 28 && number_at(h + 20, 8) == riff &&
               number_at(h + 28, 8) == w->data && number_at(h + 36, 8) == w->data / (3 * channels) &&
               number_at(h + 44, 4) == 0);
    EXPECT(!memcmp(f, "fmt ", 4) && number_at(f + 4, 4) == format &&
           number_at(f + 8, 2) == (channels > 2 ? 0xFFFEu : 1u));
    EXPECT(number_at(f + 10, 2) == channels && number_at(f + 12, 4) == rate &&
           number_at(f + 16, 4) == rate * 3 * channels && number_at(f + 20, 2) == 3 * channels &&
           number_at(f + 22, 2) == 24);
    if (channels > 2)
        EXPECT(number_at(f + 24, 2) == 22 && number_at(f + 26, 2) == 24 && number_at(f + 28, 4) == masks[type] &&
               !memcmp(f + 32, pcm, 16));
    EXPECT(!memcmp(d, "data", 4) && number_at(d + 4, 4) == (is_long ? UINT32_MAX : w->data));
}

/* Albums of these bytes of each channel at 352,800, where a byte gives a sample: at the edges of what a header tells.
 */
static void headers(void) {
    static const struct {
        uint64_t type, bytes;
        int is_long;
    } of[] = {{1, 1, 0},         {1, 1431655752, 0}, {1, 1431655753, 1}, {2, 715827876, 0}, {2, 715827877, 1},
              {3, 477218581, 0}, {3, 477218582, 1},  {4, 357913936, 0},  {5, 357913937, 1}, {6, 286331148, 0},
              {6, 286331149, 1}, {7, 238609290, 0},  {7, 238609291, 1},  {7, 7, 0},         {6, 1, 0}};
    puigneht_settings s = asked();
    puigneht_refusal r;
    s.rate = 352800;
    for (size_t k = 0; k < sizeof of / sizeof *of; k++) {
        puigneht_album a;
        puigneht_wave w, kept;
        uint8_t answer;
        make_heads(of[k].type, &of[k].bytes, 1);
        EXPECT(puigneht_album_open(&a, sources, 1, &s, NULL) == 0);
        EXPECT(puigneht_album_header(&a, PUIGNEHT_FORMAT_AUTO, 0, &w, NULL) == 0 &&
               w.data == of[k].bytes * 3 * channels);
        expect_header(&w, 352800, of[k].is_long);
        EXPECT(puigneht_album_header(&a, PUIGNEHT_FORMAT_RF64, 0, &w, NULL) == 0);
        expect_header(&w, 352800, 1);
        kept = w;
        answer = puigneht_album_header(&a, PUIGNEHT_FORMAT_WAV, 0, &w, &r);
        EXPECT(answer == (channels > 2 || of[k].is_long ? 12 : 0));
        if (answer) EXPECT(r.data[0] == channels && r.data[1] == w.data && !memcmp(&w, &kept, sizeof w));
        if (!answer) expect_header(&w, 352800, 0);
    }
    make_heads(7, &of[13].bytes, 1);
    puigneht_album a;
    puigneht_wave w;
    EXPECT(puigneht_album_open(&a, sources, 1, &s, NULL) == 0);
    REFUSED(puigneht_album_header(&a, 1, 0, &w, &r), 12, "refused 12: 6 channels: the WAV file takes one or two");
    make_heads(1, &of[2].bytes, 1);
    EXPECT(puigneht_album_open(&a, sources, 1, &s, NULL) == 0);
    REFUSED(puigneht_album_header(&a, 1, 0, &w, &r), 12,
            "refused 12: 4,294,967,259 bytes of samples: a WAV file holds at most 4,294,967,258, which are 67:37 of 1 "
            "channel at 352,800");
}

int main(void) {
    cut_albums();
    many_tracks();
    broken_tracks();
    other_types();
    settings_refused();
    failed_reads();
    not_there();
    written_albums();
    long_albums();
    long_places();
    headers();
    return done();
}
