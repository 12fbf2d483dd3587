/* Tries the calls of puigneht.h that take a converter, a run, statistics, overs and turns: each beside the proved call
 * with arguments that are written down here one by one. As C and as C++. */
#include "try.h"

static const struct {
    uint32_t rate, cutoff;
} routes[] = {{88200, 0}, {88200, 1}, {176400, 0}, {176400, 1}, {176400, 2}, {352800, 0}, {352800, 1}, {352800, 2}};
enum { ROUTES = sizeof routes / sizeof *routes, FRAMES = 5, ROOM = 4 * 4704 * 6 * (FRAMES + 1) };

static int32_t taps[PUIGNEHT_MOST_TAPS + 1];

static puigneht_settings wanted(size_t route, uint32_t channels, double decibels, size_t taps_len) {
    puigneht_settings s = puigneht_default_settings();
    s.rate = routes[route].rate;
    s.cutoff = routes[route].cutoff;
    s.channels = channels;
    s.decibels = decibels;
    s.taps = taps_len ? taps : NULL;
    s.taps_len = taps_len;
    taps[0] = 1 << 24;
    for (size_t k = 1; k < taps_len; k++) taps[0] -= 2 * (taps[k] = (int32_t)(k * 7919 % 60000) - 30000);
    return s;
}

static puigneht_converter opened(size_t route, uint32_t channels, double decibels, size_t taps_len) {
    puigneht_settings s = wanted(route, channels, decibels, taps_len);
    puigneht_converter c;
    puigneht_refusal r;
    memset(&c, 7, sizeof c);
    EXPECT(puigneht_open(&c, &s, &r) == 0 && r.number == 0 && r.call == PUIGNEHT_CALL_OPEN && r.length == taps_len);
    EXPECT(r.rate == s.rate && r.cutoff == s.cutoff && r.channels == channels && r.data[0] == 0 && r.data[1] == 0 &&
           r.decibels == 0);
    return c;
}

static void opening(size_t route, uint32_t channels, size_t taps_len) {
    puigneht_converter c = opened(route, channels, -2.5, taps_len);
    puigneht_numbers n = {routes[route].rate, routes[route].cutoff, channels, taps_len > 0, taps_len, 0, 0, 0};
    puigneht_gain_record g, h;
    uint64_t data[2];
    double decibels;
    EXPECT(puigneht_gain_call(-2.5, &g, &decibels) == 0 && puigneht_gain(-2.5, &h, NULL) == 0 &&
           !memcmp(&g, &h, sizeof g));
    EXPECT(puigneht_open_call(&n, &g, taps, data, &decibels) == 0);
    EXPECT(!memcmp(&n, &c.numbers, sizeof n) && !memcmp(&g, &c.gain, sizeof g) &&
           !memcmp(c.taps, taps, taps_len * sizeof *taps));
    EXPECT(puigneht_samples_of(&c, 3) == 3 * channels * routes[route].rate / 75 &&
           puigneht_bytes_of(&c, 2) == 6 * channels * routes[route].rate / 75);
}

static void refused_openings(void) {
    static const int32_t bad[] = {16777216, 1};
    puigneht_converter c = opened(0, 2, 0, 0), kept = c;
    puigneht_settings s = puigneht_default_settings();
    puigneht_refusal r;
    puigneht_gain_record g = {7, 8};
    EXPECT(s.rate == 88200 && s.cutoff == PUIGNEHT_STANDARD && s.channels == 2 && s.decibels == 0 && !s.taps &&
           !s.taps_len);
    REFUSED(puigneht_gain(24.5, &g, &r), 3, "refused 3: the gain is not -120 to 24 decibels, but 24.5");
    EXPECT(r.call == PUIGNEHT_CALL_GAIN && g.decibels == 7 && g.factor == 8 && r.decibels == 24.5);
    EXPECT(puigneht_gain(-120, &g, &r) == 0 && g.decibels == -120 && puigneht_gain(24, &g, &r) == 0 &&
           g.decibels == 24);
    s.cutoff = PUIGNEHT_WIDE, EXPECT(puigneht_open(&c, &s, NULL) == 2);
    s.cutoff = PUIGNEHT_LOW, EXPECT(puigneht_open(&c, &s, NULL) == 0 && c.numbers.cutoff == 1), c = kept;
    s.cutoff = PUIGNEHT_STANDARD, EXPECT(puigneht_open(&c, &s, NULL) == 0 && !memcmp(&c, &kept, sizeof c));
    s.channels = 0, REFUSED(puigneht_open(&c, &s, &r), 1, "refused 1: 0 channels: there may be 1 to 6");
    EXPECT(r.data[0] == 0 && r.call == PUIGNEHT_CALL_OPEN);
    s.channels = 7, REFUSED(puigneht_open(&c, &s, &r), 1, "refused 1: 7 channels: there may be 1 to 6");
    EXPECT(r.data[0] == 7);
    s.channels = 258, REFUSED(puigneht_open(&c, &s, &r), 255, "not understood: 258 channels: there may be 1 to 6");
    s.channels = 2, s.cutoff = 2, REFUSED(puigneht_open(&c, &s, &r), 2, "refused 2: wide is for 176400 and 352800");
    EXPECT(r.data[0] == 88200 && r.data[1] == 2);
    s.cutoff = 3,
    REFUSED(puigneht_open(&c, &s, &r), 255, "not understood: cutoff 3: there are 0 standard, 1 low and 2 wide");
    s.cutoff = 0, s.rate = 44100,
    REFUSED(puigneht_open(&c, &s, &r), 255, "not understood: a rate of 44,100: there are 88,200, 176,400 and 352,800");
    s.rate = 88200, s.decibels = -120.25,
    REFUSED(puigneht_open(&c, &s, &r), 3, "refused 3: the gain is not -120 to 24 decibels, but -120.25");
    EXPECT(r.decibels == -120.25);
    s.decibels = 0, s.taps = bad, s.taps_len = 0,
    REFUSED(puigneht_open(&c, &s, &r), 17, "refused 17: a filter of 0 taps: it may have 1 to 117");
    s.taps = NULL, s.taps_len = 9,
    REFUSED(puigneht_open(&c, &s, &r), 17, "refused 17: a filter of 0 taps: it may have 1 to 117");
    s.taps = taps, s.taps_len = 118,
    REFUSED(puigneht_open(&c, &s, &r), 17, "refused 17: a filter of 118 taps: it may have 1 to 117");
    s.taps = bad, s.taps_len = 2,
    REFUSED(puigneht_open(&c, &s, &r), 18,
            "refused 18: a filter's centre and twice its other taps are to sum to 16,777,216, and their sizes to at "
            "most 40,000,000");
    EXPECT(puigneht_open(&c, &s, NULL) == 18 && !memcmp(&c, &kept, sizeof c));
}

static void changes(void) {
    puigneht_converter c = opened(0, 3, 1, 30), kept = c, again = opened(6, 3, -7, 30);
    puigneht_refusal r;
    REFUSED(puigneht_change(&c, 88200, 2, 0, &r), 2, "refused 2: wide is for 176400 and 352800");
    EXPECT(r.call == PUIGNEHT_CALL_CHANGE && r.rate == 88200 && r.cutoff == 2 && r.channels == 3 && r.length == 30);
    REFUSED(puigneht_change(&c, 88200, 1, 25, &r), 3, "refused 3: the gain is not -120 to 24 decibels, but 25");
    REFUSED(puigneht_change(&c, 88201, 1, 0, &r), 255,
            "not understood: a rate of 88,201: there are 88,200, 176,400 and 352,800");
    EXPECT(puigneht_change(&c, 88200, 3, 0, NULL) == 255 && !memcmp(&c, &kept, sizeof c));
    EXPECT(puigneht_change(&c, 352800, 1, -7, &r) == 0 && r.number == 0 && !memcmp(&c, &again, sizeof c));
    c.numbers.taps = 118;
    REFUSED(puigneht_change(&c, 88200, 0, 0, &r), 17, "refused 17: a filter of 118 taps: it may have 1 to 117");
    c.numbers.taps = 30;
    c.numbers.reach++;
    REFUSED(puigneht_change(&c, 88200, 0, 0, &r), 15,
            "refused 15: the converter's numbers are not those of its settings");
}

/* ---- runs */

static void cuts(const puigneht_converter *c, const uint8_t *album) {
    const size_t size = 4704 * (size_t)c->numbers.channels;
    for (size_t more = 0; more < 2; more++)
        for (size_t all = 0; all <= FRAMES; all++)
            for (size_t first = 0; first <= FRAMES + 1; first++)
                for (size_t count = 0; count <= FRAMES + 1; count++) {
                    const size_t begin = first > all ? all : first, end = begin + count > all ? all : begin + count;
                    puigneht_run run = puigneht_cut(c, album, all * size + more, first, count);
                    EXPECT(run.frames == album + begin * size && run.frames_len == (end - begin) * size + more);
                    EXPECT(puigneht_frames_of(c, &run) == end - begin);
                    EXPECT(begin ? run.before + size == run.frames && run.before_len == size
                                 : !run.before && !run.before_len);
                    EXPECT(end < all ? run.after == album + end * size && run.after_len == size
                                     : !run.after && !run.after_len);
                }
    puigneht_run none = puigneht_cut(c, NULL, 3 * size + 1, 1, 9),
                 last = puigneht_cut(c, album, FRAMES * size, 1, SIZE_MAX);
    EXPECT(!none.frames && !none.frames_len && !none.before && !none.after && last.frames_len == (FRAMES - 1) * size);
}

/* ---- conversions beside the proved calls */

static int32_t *samples[2];
static uint8_t *packed[2];
static uint64_t counts[2][FRAMES + 1];
static puigneht_stats stats[2];

static int same_stats(const puigneht_stats *a, const puigneht_stats *b) {
    return !memcmp(a, b, offsetof(puigneht_stats, made));
}

enum { RUN, FRAME, RACK, DESK, WAV, KINDS };

static uint8_t by_record(int kind, const puigneht_converter *c, const puigneht_run *run, size_t n, size_t counted,
                         puigneht_stats *s, puigneht_refusal *r) {
    puigneht_packed out = counted ? puigneht_counted(packed[0], n, counts[0], counted) : puigneht_into(packed[0], n);
    switch (kind) {
    case RUN: return puigneht_convert_run(c, run, samples[0], n, s, r);
    case FRAME: return puigneht_convert_frame(c, run, samples[0], n, s, r);
    case RACK: return puigneht_convert(c, run, &out, s, r);
    case DESK: return puigneht_convert_desk(c, run, &out, s, r);
    default: return puigneht_wav_convert(c, run, &out, s, r);
    }
}

static uint8_t by_hand(int kind, const puigneht_converter *c, uint8_t there, const puigneht_run *u, size_t n,
                       size_t counted, uint64_t *data, double *decibels) {
    const puigneht_numbers *m = &c->numbers;
    const puigneht_gain_record *g = &c->gain;
    uint8_t with = (uint8_t)(there + (counted ? 4 : 0));
    switch (kind) {
    case RUN:
        return puigneht_convert_run_call(m, g, c->taps, there, u->before, u->before_len, u->frames, u->frames_len,
                                         u->after, u->after_len, samples[1], n, &stats[1], data, decibels);
    case FRAME:
        return puigneht_convert_frame_call(m, g, c->taps, there, u->before, u->before_len, u->frames, u->frames_len,
                                           u->after, u->after_len, samples[1], n, &stats[1], data, decibels);
    case RACK:
        return puigneht_convert_call(m, g, c->taps, with, u->before, u->before_len, u->frames, u->frames_len, u->after,
                                     u->after_len, packed[1], n, counts[1], counted, &stats[1], data, decibels);
    case DESK:
        return puigneht_convert_desk_call(m, g, c->taps, with, u->before, u->before_len, u->frames, u->frames_len,
                                          u->after, u->after_len, packed[1], n, counts[1], counted, &stats[1], data,
                                          decibels);
    default:
        return puigneht_wav_convert_call(m, g, c->taps, with, u->before, u->before_len, u->frames, u->frames_len,
                                         u->after, u->after_len, packed[1], n, counts[1], counted, &stats[1], data,
                                         decibels);
    }
}

/* One conversion both ways: answers, what is told, and every item. */
static void both(int kind, const puigneht_converter *c, const puigneht_run *run, size_t n, size_t counted) {
    const uint8_t there = (uint8_t)((run->before_len || run->before ? 1 : 0) + (run->after_len || run->after ? 2 : 0));
    puigneht_refusal r;
    uint64_t data[2] = {0, 0};
    double decibels = 0;
    uint8_t answer;
    for (int k = 0; k < 2; k++) {
        memset(samples[k], 5, ROOM), memset(packed[k], 5, ROOM), memset(counts[k], 5, sizeof counts[k]),
            memset(&stats[k], 5, sizeof stats[k]);
    }
    answer = by_record(kind, c, run, n, counted, &stats[0], &r);
    EXPECT(answer == by_hand(kind, c, there, run, n, counted, data, &decibels) && r.number == answer);
    EXPECT(same_stats(&stats[0], &stats[1]) &&
           (answer == 0 ? stats[0].made == PUIGNEHT_MADE : stats[0].made == stats[1].made));
    EXPECT(!memcmp(samples[0], samples[1], ROOM) && !memcmp(packed[0], packed[1], ROOM) &&
           !memcmp(counts[0], counts[1], sizeof counts[0]));
    EXPECT(!memcmp(r.data, data, sizeof data) && !memcmp(&r.decibels, &decibels, sizeof decibels) &&
           r.length == run->frames_len);
    EXPECT(r.call == PUIGNEHT_CALL_CONVERT_RUN + kind && r.rate == c->numbers.rate && r.cutoff == c->numbers.cutoff &&
           r.channels == c->numbers.channels);
    EXPECT(by_record(kind, c, run, n, counted, NULL, NULL) == answer);
}

static size_t needed(int kind, const puigneht_converter *c, size_t frames) {
    return kind < RACK  ? puigneht_samples_of(c, frames)
           : kind < WAV ? puigneht_bytes_of(c, frames)
                        : puigneht_bytes_of(c, frames) + 44;
}

static void conversions(const puigneht_converter *c, const uint8_t *album) {
    const size_t size = 4704 * (size_t)c->numbers.channels;
    for (int kind = 0; kind < KINDS; kind++)
        for (size_t first = 0; first < 4; first++) {
            const size_t count = kind == FRAME ? 1 : first == 1 ? 3 : FRAMES - first;
            puigneht_run run = puigneht_cut(c, album, FRAMES * size, first, count);
            both(kind, c, &run, needed(kind, c, count), 0);
            both(kind, c, &run, needed(kind, c, count), kind < RACK ? 0 : count);
            both(kind, c, &run, needed(kind, c, count) + 1, 0);
        }
}

/* Each piece of an album joined, with its statistics and overs, is the whole. */
static void joins(const puigneht_converter *c, const uint8_t *album) {
    const size_t size = 4704 * (size_t)c->numbers.channels, channels = (size_t)c->numbers.channels;
    puigneht_run whole = puigneht_cut(c, album, FRAMES * size, 0, FRAMES);
    puigneht_stats all, one, piece;
    puigneht_overs of_all, of_pieces, apart;
    memset(&of_all, 0, sizeof of_all);
    EXPECT(puigneht_convert_run(c, &whole, samples[0], puigneht_samples_of(c, FRAMES), &all, NULL) == 0);
    EXPECT(puigneht_count_overs(&of_all, channels, samples[0], puigneht_samples_of(c, FRAMES)) == 0);
    for (size_t by = 1; by < FRAMES; by++) {
        uint64_t sums[6] = {0, 0, 0, 0, 0, 0};
        memset(&of_pieces, 0, sizeof of_pieces);
        one = puigneht_no_stats();
        for (size_t first = 0; first < FRAMES; first += by) {
            puigneht_run run = puigneht_cut(c, album, FRAMES * size, first, by);
            size_t at = puigneht_samples_of(c, first), n = puigneht_samples_of(c, puigneht_frames_of(c, &run));
            EXPECT(puigneht_convert_run(c, &run, samples[1] + at, n, &piece, NULL) == 0 &&
                   puigneht_join_stats(&one, &piece) == 0);
            EXPECT(puigneht_count_overs(&of_pieces, channels, samples[1] + at, n) == 0);
            memset(&apart, 0, sizeof apart);
            EXPECT(first == 0 ||
                   puigneht_count_overs(&apart, channels, samples[1] + at - 3 * channels, 3 * channels) == 0);
            apart = puigneht_overs_from_here(&apart);
            EXPECT(puigneht_count_overs(&apart, channels, samples[1] + at, n) == 0);
            for (size_t k = 0; k < 6; k++) sums[k] += apart.of[k].overs;
        }
        EXPECT(!memcmp(samples[0], samples[1], puigneht_samples_of(c, FRAMES) * sizeof(int32_t)) &&
               same_stats(&one, &all) && one.made == PUIGNEHT_MADE);
        EXPECT(!memcmp(&of_all, &of_pieces, sizeof of_all));
        for (size_t k = 0; k < 6; k++) EXPECT(sums[k] == of_all.of[k].overs);
    }
}

static void refused_conversions(void) {
    puigneht_converter c = opened(0, 2, 0, 0), d;
    uint8_t *album = noise(9 * 9408);
    puigneht_refusal r;
    puigneht_run run = puigneht_cut(&c, album, 3 * 9408, 1, 1), odd = puigneht_cut(&c, album, 3 * 9408 + 5, 1, 1),
                 nine = puigneht_cut(&c, album, 9 * 9408, 0, 9);
    puigneht_run short_before = {album, 9407, album, 9408, NULL, 0}, no_before = {NULL, 9, album, 9408, NULL, 0},
                 long_after = {NULL, 0, album, 9408, album, 9409};
    puigneht_run no_after = {NULL, 0, album, 9408, NULL, 1}, empty_before = {album, 0, album, 9408, NULL, 0},
                 empty_after = {NULL, 0, album, 9408, album, 0};
    puigneht_packed out = puigneht_into(packed[0], 7056), few = puigneht_counted(packed[0], 7056, counts[0], 2),
                    none = puigneht_counted(packed[0], 7056, NULL, 1);
    puigneht_packed small = puigneht_into(packed[0], 7);
    REFUSED(puigneht_convert_run(&c, &odd, samples[0], 2352, NULL, &r), 4,
            "refused 4: 9,413 bytes are not whole frames: a frame of 2 channels has 9,408 bytes");
    REFUSED(puigneht_convert_frame(&c, &nine, samples[0], 2352, NULL, &r), 4,
            "refused 4: 84,672 bytes are not one frame: a frame of 2 channels has 9,408 bytes");
    REFUSED(puigneht_convert(&c, &short_before, &out, NULL, &r), 13,
            "refused 13: the 9,407 bytes before the run are not one frame: a frame of 2 channels has 9,408 bytes");
    REFUSED(puigneht_convert(&c, &no_before, &out, NULL, &r), 13,
            "refused 13: the 0 bytes before the run are not one frame: a frame of 2 channels has 9,408 bytes");
    REFUSED(puigneht_convert(&c, &empty_before, &out, NULL, &r), 13,
            "refused 13: the 0 bytes before the run are not one frame: a frame of 2 channels has 9,408 bytes");
    REFUSED(puigneht_convert(&c, &long_after, &out, NULL, &r), 14,
            "refused 14: the 9,409 bytes after the run are not one frame: a frame of 2 channels has 9,408 bytes");
    REFUSED(puigneht_convert(&c, &no_after, &out, NULL, &r), 14,
            "refused 14: the 0 bytes after the run are not one frame: a frame of 2 channels has 9,408 bytes");
    REFUSED(puigneht_convert(&c, &empty_after, &out, NULL, &r), 14,
            "refused 14: the 0 bytes after the run are not one frame: a frame of 2 channels has 9,408 bytes");
    REFUSED(puigneht_convert_run(&c, &run, samples[0], 2353, NULL, &r), 6,
            "refused 6: room for 2,353 samples, where 2,352 are to be written");
    REFUSED(puigneht_convert_desk(&c, &run, &small, NULL, &r), 7,
            "refused 7: room for 7 bytes, where 7,056 are to be written");
    REFUSED(puigneht_convert(&c, &run, &few, NULL, &r), 8,
            "refused 8: room for the counts of 2 frames, where there are 1");
    REFUSED(puigneht_convert(&c, &run, &none, NULL, &r), 8,
            "refused 8: room for the counts of 0 frames, where there are 1");
    puigneht_run most = puigneht_cut(&c, album, 9 * 9408, 0, PUIGNEHT_DESK_FRAMES),
                 past = puigneht_cut(&c, album, 9 * 9408, 0, PUIGNEHT_DESK_FRAMES + 1);
    puigneht_packed desk = puigneht_into(packed[0], puigneht_bytes_of(&c, PUIGNEHT_DESK_FRAMES));
    EXPECT(puigneht_convert_desk(&c, &most, &desk, NULL, NULL) == 0 &&
           puigneht_convert_desk(&c, &past, &desk, NULL, NULL) == 16);
    REFUSED(puigneht_convert_desk(&c, &nine, &out, NULL, &r), 16,
            "refused 16: 9 frames: at most 8 at the listening desk");
    d = c, d.numbers.reach--,
    REFUSED(puigneht_convert(&d, &run, &out, NULL, &r), 15,
            "refused 15: the converter's numbers are not those of its settings");
    d = c, d.gain.factor = 2,
    REFUSED(puigneht_convert(&d, &run, &out, NULL, &r), 3,
            "refused 3: the gain's factor is not that of its decibels, 0");
    d.gain.decibels = -120, REFUSED(puigneht_convert(&d, &run, &out, NULL, &r), 3,
                                    "refused 3: the gain's factor is not that of its decibels, -120");
    d.gain.decibels = 24, REFUSED(puigneht_convert(&d, &run, &out, NULL, &r), 3,
                                  "refused 3: the gain's factor is not that of its decibels, 24");
    d = c, d.numbers.channels = 9,
    REFUSED(puigneht_convert(&d, &run, &out, NULL, &r), 1, "refused 1: 9 channels: there may be 1 to 6");
    d = c, d.numbers.own = 2,
    REFUSED(puigneht_convert(&d, &run, &out, NULL, &r), 255,
            "not understood: a converter or an album that was not opened, or was written to since");
    d = c, d.numbers.own = 1,
    REFUSED(puigneht_convert(&d, &run, &out, NULL, &r), 17, "refused 17: a filter may have 1 to 117 taps");
    memset(&d, 0, sizeof d);
    REFUSED(puigneht_convert(&d, &run, &out, NULL, &r), 255,
            "not understood: a rate of 0: there are 88,200, 176,400 and 352,800");
    run.frames_len ? (void)0 : exit(2);
    d = opened(0, 3, 0, 0);
    puigneht_run three = puigneht_cut(&d, album, 2 * 14112, 0, 1);
    out = puigneht_into(packed[0], 10584 + 44);
    REFUSED(puigneht_wav_convert(&d, &three, &out, NULL, &r), 12,
            "refused 12: 3 channels: the WAV file takes one or two");
    d = opened(7, 2, 0, 0);
    puigneht_run much = {NULL, 0, album, (size_t)9408 * 160000, NULL, 0},
                 many = {NULL, 0, album, (size_t)9408 * 540001, NULL, 0};
    out = puigneht_into(packed[0], (size_t)28224 * 160000 + 44);
    REFUSED(puigneht_wav_convert(&d, &much, &out, NULL, &r), 12,
            "refused 12: 4,515,840,000 bytes of samples: a WAV file holds at most 4,294,967,259, which are 33:48 of 2 "
            "channels at 352,800");
    REFUSED(puigneht_convert(&c, &many, &out, NULL, &r), 5,
            "refused 5: 540,001 frames: at most 540,000 (two hours) are converted");
    free(album);
}

/* ---- statistics, samples, overs, turns */

static void statistics(void) {
    puigneht_stats s = puigneht_no_stats(), zeros, t, kept;
    puigneht_refusal r;
    char text[PUIGNEHT_SHEET_ROOM];
    static const char *two = "   0             5          -9           7\n   1             6           -           -\n "
                             "               11                        \n";
    memset(&zeros, 0, sizeof zeros);
    for (int k = 0; k < 6; k++) EXPECT(s.empty[k] == 1 && s.clipped[k] == 0 && s.lowest[k] == 0 && s.highest[k] == 0);
    t = s, t.clipped[0] = 5, t.lowest[0] = -9, t.highest[0] = 7, t.empty[0] = 0, t.clipped[1] = 6;
    kept = s, EXPECT(puigneht_join_stats(&s, &zeros) == 255 && !memcmp(&s, &kept, sizeof s));
    EXPECT(puigneht_join_stats(&zeros, &s) == 255 && zeros.empty[0] == 0);
    EXPECT(puigneht_join_stats(&s, &t) == 0 && !memcmp(&s, &t, sizeof s));
    t.empty[2] = 2, EXPECT(puigneht_join_stats(&s, &t) == 255);
    memset(text, 1, sizeof text), memset(&r, 255, sizeof r);
    EXPECT(puigneht_level_sheet(&s, 2, text, sizeof text, &r) == 0 && r.decibels == 0 && r.data[1] == 0 &&
           r.field.place == 0 && r.rate == 0);
    EXPECT(puigneht_level_sheet(&s, 2, text, sizeof text, &r) == 0 && !strcmp(text, two) && text[43 * 3 + 1] == 1 &&
           r.call == PUIGNEHT_CALL_LEVEL_SHEET);
    memset(text, 1, sizeof text);
    EXPECT(puigneht_level_sheet(&s, 2, text, 43 * 3 + 1, NULL) == 0 && !strcmp(text, two));
    memset(text, 1, sizeof text);
    REFUSED(puigneht_level_sheet(&s, 2, text, 43 * 3, &r), 7,
            "refused 7: room for 128 bytes, where 129 are to be written");
    REFUSED(puigneht_level_sheet(&s, 2, text, 0, &r), 7, "refused 7: room for 0 bytes, where 129 are to be written");
    REFUSED(puigneht_level_sheet(&s, 7, text, sizeof text, &r), 1, "refused 1: 7 channels: there may be 1 to 6");
    REFUSED(puigneht_level_sheet(&s, 258, text, sizeof text, &r), 1, "refused 1: 258 channels: there may be 1 to 6");
    REFUSED(puigneht_level_sheet(&zeros, 2, text, sizeof text, &r), 255,
            "not understood: statistics that no conversion made");
    s.highest[1] = INT64_MAX, s.empty[1] = 0;
    REFUSED(puigneht_level_sheet(&s, 2, text, sizeof text, &r), 20,
            "refused 20: a number is too wide for its column of the level sheet");
    for (size_t k = 0; k < sizeof text; k++) EXPECT(text[k] == 1);
    s.empty[1] = 1, EXPECT(puigneht_level_sheet(&s, 6, text, sizeof text, &r) == 0 && strlen(text) == 43 * 7);
}

static void packing(void) {
    static const int32_t some[] = {0, 1, -1, 8388607, -8388608, 65536, -65537, 256};
    uint8_t bytes[24], fewer[24];
    int32_t back[9];
    memset(bytes, 3, sizeof bytes), memset(fewer, 3, sizeof fewer), memset(back, 9, sizeof back);
    puigneht_pack_s24le(some, 8, bytes, 24);
    puigneht_pack_s24le_call(some, 8, fewer, 23);
    EXPECT(!memcmp(bytes, fewer, 21) && fewer[22] == 3);
    puigneht_unpack_s24le(bytes, 23, back, 9);
    EXPECT(!memcmp(back, some, 7 * sizeof *some) && back[7] == 0x09090909);
    puigneht_unpack_s24le(bytes, 24, back, 8);
    EXPECT(!memcmp(back, some, sizeof some) && back[8] == 0x09090909);
}

static void overs(void) {
    enum { HI = 8388607, LO = -8388608 };
    static const int32_t loud[] = {HI, LO, HI, LO, HI, 0, LO, LO, LO, LO, LO, HI};
    puigneht_overs o, kept;
    memset(&o, 0, sizeof o);
    EXPECT(puigneht_count_overs(&o, 1, loud, 12) == 0 && o.of[0].overs == 1 && o.of[0].end == 1 &&
           o.of[0].length == 1 && o.of[1].end == 0);
    EXPECT(puigneht_count_overs(&o, 1, loud, 12) == 0 && o.of[0].overs == 2);
    memset(&o, 0, sizeof o);
    EXPECT(puigneht_count_overs(&o, 2, loud, 12) == 0 && o.of[0].overs == 2 && o.of[0].end == 2 &&
           o.of[0].length == 3 && o.of[1].end == 1 && o.of[2].end == 0);
    kept = o;
    EXPECT(puigneht_count_overs(&o, 0, loud, 12) == 255 && puigneht_count_overs(&o, 7, loud, 7) == 255 &&
           puigneht_count_overs(&o, 2, loud, 11) == 255);
    o.of[1].end = kept.of[1].end = 3;
    EXPECT(puigneht_count_overs(&o, 2, loud, 12) == 255 && !memcmp(&o, &kept, sizeof o));
    o = puigneht_overs_from_here(&kept);
    for (int k = 0; k < 6; k++)
        EXPECT(o.of[k].overs == 0 && o.of[k].end == kept.of[k].end && o.of[k].length == kept.of[k].length);
}

static void turns(void) {
    puigneht_board b, kept;
    puigneht_refusal r;
    static const char *sentence =
        "refused 19: a number out of range: 1 to 8 albums of 1 to 540,000 frames, due after turn 0 to 1,000,000, "
        "in turns of 1 to 540,000 frames";
    memset(&b, 0, sizeof b);
    b.albums = 3, b.frames[0] = 100, b.dues[0] = 5, b.frames[1] = 50, b.dues[1] = 1, b.frames[2] = 10, b.dues[2] = 1;
    EXPECT(puigneht_turns(&b, 50, &r) == 0 && r.call == PUIGNEHT_CALL_TURNS && r.length == 3);
    EXPECT(b.finishes[0] == 4 && b.finishes[1] == 1 && b.finishes[2] == 2 && b.late[0] == -1 && b.late[1] == 0 &&
           b.late[2] == 1 && b.finishes[3] == 0);
    kept = b;
    REFUSED(puigneht_turns(&b, 0, &r), 19, sentence);
    b.albums = kept.albums = 9, REFUSED(puigneht_turns(&b, 50, &r), 19, sentence);
    EXPECT(!memcmp(&b, &kept, sizeof b));
    for (b.albums = 8, b.frames[3] = 1; b.albums > 4; b.albums--) REFUSED(puigneht_turns(&b, 50, &r), 19, sentence);
    EXPECT(puigneht_turns(&b, 50, NULL) == 0 && b.finishes[3] == 1);
    for (size_t k = 0; k < 8; k++) b.frames[k] = 1;
    b.albums = 8, EXPECT(puigneht_turns(&b, 50, NULL) == 0);
    b.albums = 9, EXPECT(puigneht_turns(&b, 50, NULL) == 19);
}

int main(void) {
    uint8_t *album = noise((size_t)4704 * 6 * (FRAMES + 1) + 1);
    for (int k = 0; k < 2; k++) {
        samples[k] = (int32_t *)room_for(ROOM);
        packed[k] = (uint8_t *)room_for(ROOM);
    }
    for (size_t route = 0; route < ROUTES; route++)
        for (uint32_t channels = 1; channels <= 6; channels++) {
            puigneht_converter c = opened(route, channels, route % 2 ? 18.5 : -3, channels % 3 ? 0 : 20 * channels - 3);
            opening(route, channels, channels % 2 ? 0 : 20 * channels - 3);
            if (channels < 3 || route == channels) cuts(&c, album), conversions(&c, album), joins(&c, album);
        }
    refused_openings();
    changes();
    refused_conversions();
    statistics();
    packing();
    overs();
    turns();
    for (int k = 0; k < 2; k++) free(samples[k]), free(packed[k]);
    free(album);
    return done();
}
