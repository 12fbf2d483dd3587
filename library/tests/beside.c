/* Random calls of the proved calls of puigneht/album.h and of the plain ones of plain.c: answers and all memory that is
 * lent are to be the same.
 *     beside [CALLS [SEED]]      10,000 of them if it is not given */
#define PLAIN(name) plain_##name
#include "plain.c"
#include "try.h"

static uint64_t state = 1;

/* A number from 0 to below n. */
static uint64_t any(uint64_t n) {
    state ^= state << 13, state ^= state >> 7, state ^= state << 17;
    return n ? (state * UINT64_C(0x2545F4914F6CDD1D) >> 20) % n : 0;
}
static int rarely(void) {
    return any(40) == 0;
}
static uint64_t any_size(void) {
    const uint64_t n = any(UINT64_MAX) << any(64);
    return any(3) ? n >> any(64) : UINT64_MAX - any(5);
}

/* ---- what is lent: the same twice */

struct lent {
    puigneht_numbers numbers;
    puigneht_gain_record gain;
    int32_t taps[PUIGNEHT_MOST_TAPS];
    uint8_t heads[100 * 92];
    size_t heads_len, lengths_len, marks_len, reads_len, scratch_len, out_len;
    uint64_t lengths[101];
    puigneht_album_numbers album;
    puigneht_plan plan;
    uint64_t marks[102], reads[202], track, data[2];
    double decibels;
    puigneht_stats stats;
    uint8_t *scratch, *out;
};
static struct lent one, two;
static uint8_t *windows;
static size_t windows_len;
static const uint64_t of_type[] = {0, 1, 2, 3, 4, 4, 5, 6};

static void put_number(uint8_t *at, int size, uint64_t value) {
    for (int k = 0; k < size; k++) at[k] = (uint8_t)(value >> 8 * k);
}

static void put_track(struct lent *l, size_t k, uint64_t type, uint64_t bytes) {
    const uint64_t data = (bytes + 4095) / 4096 * 4096 * of_type[type], more = any(4) ? 0 : any(300);
    uint8_t *h = l->heads + 92 * k;
    l->lengths[k] = 92 + data + more;
    memcpy(h, "DSD ", 4), put_number(h + 4, 8, 28), put_number(h + 12, 8, 92 + data + more);
    put_number(h + 20, 8, any_size());
    memcpy(h + 28, "fmt ", 4), put_number(h + 32, 8, 52), put_number(h + 40, 4, 1), put_number(h + 44, 4, 0);
    put_number(h + 48, 4, type), put_number(h + 52, 4, of_type[type]), put_number(h + 56, 4, 2822400);
    put_number(h + 60, 4, any(2) ? 1 : 8), put_number(h + 64, 8, 8 * bytes), put_number(h + 72, 4, 4096);
    put_number(h + 76, 4, 0), memcpy(h + 80, "data", 4), put_number(h + 84, 8, 12 + data);
    if (rarely()) h[any(92)] = (uint8_t)any(256);
    if (rarely()) l->lengths[k] = any_size();
}

static void put_settings(struct lent *l) {
    static const uint64_t rates[] = {88200, 176400, 352800};
    l->numbers.rate = rarely() ? any_size() : rates[any(3)];
    l->numbers.cutoff = rarely() ? any_size() : any(l->numbers.rate == 88200 && !rarely() ? 2 : 3);
    l->numbers.channels = rarely() ? any_size() : any(256);
    l->numbers.own = rarely() ? any(4) : any(2);
    l->numbers.taps = rarely() ? any_size() : 1 + any(117);
    l->numbers.samples_per_frame = any_size(), l->numbers.reach = any_size(), l->numbers.frame_bytes = any_size();
    if (puigneht_gain_call((double)any(145) - 120 + 0.25 * (double)any(2), &l->gain, &l->decibels))
        l->gain.decibels = 24, l->gain.factor = 1;
    if (rarely()) l->gain.factor *= 2;
    l->taps[0] = 1 << 24;
    for (size_t k = 1; k < PUIGNEHT_MOST_TAPS; k++) {
        l->taps[k] = (int32_t)any(40000) - 20000;
        if (k < l->numbers.taps) l->taps[0] -= 2 * l->taps[k];
    }
    if (rarely()) l->taps[any(117)]++;
}

/* An album of some tracks, few of them long; other lists at times have lengths that do not fit. */
static void put_album(struct lent *l) {
    const uint64_t type = 1 + any(7), most = any(8) ? 4704 * 3 : 4704 * 150;
    const size_t tracks = any(30) ? 1 + (size_t)any(6) : (size_t)any(101);
    memset(l, 0, sizeof *l);
    put_settings(l);
    for (size_t k = 0; k < tracks; k++)
        put_track(l, k, any(200) ? type : 1 + any(7),
                  any(100) ? any(5) ? any(most / tracks + 1) : any(6) : any(540002) * 4704);
    l->lengths_len = tracks, l->heads_len = 92 * tracks, l->marks_len = tracks + 1, l->reads_len = 2 * tracks;
    if (rarely()) l->heads_len -= l->heads_len ? any(92) : 0;
    if (rarely()) l->marks_len = any(102);
    if (rarely()) l->reads_len = any(202);
    memset(&l->album, 0xA1, sizeof l->album), memset(&l->plan, 0xA2, sizeof l->plan);
    memset(l->marks, 0xA3, sizeof l->marks), memset(l->reads, 0xA4, sizeof l->reads);
    memset(&l->stats, 0xA5, sizeof l->stats), memset(l->data, 0xA6, sizeof l->data);
    l->track = 77, l->decibels = 5;
}

#define SETTINGS(l) &(l).numbers, &(l).gain, (l).taps, (l).heads, (l).heads_len, (l).lengths, (l).lengths_len

static int is_same(void) {
    const size_t room = offsetof(struct lent, scratch);
    return !memcmp(&one, &two, room) && !memcmp(one.scratch, two.scratch, one.scratch_len) &&
           !memcmp(one.out, two.out, one.out_len);
}
static void lists(size_t scratch_len, size_t out_len) {
    one.scratch_len = scratch_len, one.out_len = out_len;
    memcpy(&two, &one, sizeof one);
    one.scratch = (uint8_t *)room_for(scratch_len), two.scratch = (uint8_t *)room_for(scratch_len);
    one.out = (uint8_t *)room_for(out_len), two.out = (uint8_t *)room_for(out_len);
    memset(one.scratch, 0xB1, scratch_len), memset(two.scratch, 0xB1, scratch_len);
    memset(one.out, 0xB2, out_len), memset(two.out, 0xB2, out_len);
}
static void end_lists(void) {
    free(one.scratch), free(two.scratch), free(one.out), free(two.out);
}

static unsigned long answers[256];

static void expect_same(uint8_t a, uint8_t b, const char *call, int is_alike) {
    tried++, answers[a]++;
    if (a == b && is_alike) return;
    wrong++;
    printf("%s: %u and %u%s\n", call, a, b, is_alike ? "" : ", and memory differs");
}

/* ---- the calls */

static void opening(void) {
    put_album(&one);
    lists(0, 0);
    const uint8_t a = puigneht_album_open_call(SETTINGS(one), &one.album, one.marks, one.marks_len, &one.track,
                                               one.data, &one.decibels),
                  b = plain_album_open_call(SETTINGS(two), &two.album, two.marks, two.marks_len, &two.track, two.data,
                                            &two.decibels);
    expect_same(a, b, "open", is_same());
    end_lists();
}

static void planning(void) {
    const uint64_t piece = any(3) ? any(3) : any_size();
    put_album(&one);
    lists(0, 0);
    const uint8_t a = puigneht_album_piece_call(SETTINGS(one), piece, &one.plan, one.reads, one.reads_len),
                  b = plain_album_piece_call(SETTINGS(two), piece, &two.plan, two.reads, two.reads_len);
    expect_same(a, b, "piece", is_same());
    end_lists();
}

static void parting(void) {
    const uint64_t frames = any(4) ? any(540002) : any_size(), jobs = any(4) ? any(66) : any_size();
    const uint64_t part = any(4) ? any(jobs + 1) : any_size();
    puigneht_stretch a = {7, 7}, b = {7, 7};
    puigneht_album_part_call(frames, jobs, part, &a);
    plain_album_part_call(frames, jobs, part, &b);
    expect_same(0, 0, "part", !memcmp(&a, &b, sizeof a));
}

static void writing(void) {
    uint64_t marks[9], a[26], b[26], place = any(2) ? any(1000) : any_size(), bytes = any(2) ? any(1000) : any_size();
    const size_t n = any(10), told = rarely() ? any(27) : n ? 3 * (n - 1) : 0;
    for (size_t k = 0; k < 9; k++) marks[k] = any(3) ? any(2000) : any_size();
    for (size_t k = 1; k < 9 && any(5); k++)
        if (marks[k] < marks[k - 1]) marks[k] = marks[k - 1];
    memset(a, 9, sizeof a), memset(b, 9, sizeof b);
    puigneht_album_writes_call(marks, n, place, bytes, a, told);
    plain_album_writes_call(marks, n, place, bytes, b, told);
    expect_same(0, 0, "writes", !memcmp(a, b, sizeof a));
}

/* A step, or the frames alone, of any stretch of an album: the lists mostly as they are to be. */
static void stepping(int is_step) {
    struct tracks t;
    uint64_t first = any(3), count = any(4), track, data[2], scratch = any(9), out = any(9);
    double decibels;
    put_album(&one);
    windows_len = (size_t)any(9);
    if (!understood(&one.numbers, one.heads_len, one.lengths_len) &&
        !read_tracks(&t, &one.numbers, &one.gain, one.taps, one.heads, one.lengths, one.lengths_len, &track, data,
                     &decibels)) {
        first = rarely() ? any_size() : any(t.frames + 1);
        count = rarely() ? any_size() : any(least(t.frames - least(t.frames, first), 4) + 1);
        if (first <= t.frames && count <= t.frames - first) {
            const uint64_t a = low_of(first), b = high_of(&t, first, count);
            windows_len = (size_t)reads_of(&t, a * FRAME, b * FRAME, NULL);
            scratch = (b - a) * FRAME * t.channels, out = one.numbers.rate / 75 * 3 * t.channels * count;
        }
    }
    if (rarely()) windows_len += 1 - 2 * (windows_len != 0);
    if (rarely()) scratch += 1 - 2 * (scratch != 0);
    if (rarely()) out += 1 - 2 * (out != 0);
    lists((size_t)scratch, (size_t)out);
    windows = (uint8_t *)room_for(windows_len);
    for (size_t k = 0; k < windows_len; k++) windows[k] = (uint8_t)(state >> k % 50) ^ (uint8_t)(k * k >> 5);
    if (is_step) {
        const uint8_t a = puigneht_album_step_call(SETTINGS(one), first, count, windows, windows_len, one.scratch,
                                                   one.scratch_len, one.out, one.out_len, &one.stats, one.data,
                                                   &one.decibels),
                      b = plain_album_step_call(SETTINGS(two), first, count, windows, windows_len, two.scratch,
                                                two.scratch_len, two.out, two.out_len, &two.stats, two.data,
                                                &two.decibels);
        expect_same(a, b, "step", is_same());
    } else {
        const uint8_t a = puigneht_album_frames_call(SETTINGS(one), first, count, windows, windows_len, one.scratch,
                                                     one.scratch_len, one.data, &one.decibels),
                      b = plain_album_frames_call(SETTINGS(two), first, count, windows, windows_len, two.scratch,
                                                  two.scratch_len, two.data, &two.decibels);
        expect_same(a, b, "frames", is_same());
    }
    free(windows);
    end_lists();
}

static void heading(void) {
    static const uint64_t rates[] = {88200, 176400, 352800};
    const uint64_t type = rarely() ? any_size() : 1 + any(7), edge = UINT64_C(4294967295) - any(120);
    const uint64_t rate = rarely() ? any_size() : rates[any(3)], format = rarely() ? any_size() : any(3);
    uint64_t channels = rarely() || type > 7 ? any_size() : of_type[type], bytes = any(2) ? edge : any_size();
    uint64_t told[2] = {7, 8}, also[2] = {7, 8};
    uint8_t a[104], b[104];
    if (channels && channels < 7 && !rarely()) bytes -= bytes % (3 * channels);
    memset(a, 9, sizeof a), memset(b, 9, sizeof b);
    const uint8_t x = puigneht_wave_header_call(format, rate, channels, type, bytes, a, told),
                  y = plain_wave_header_call(format, rate, channels, type, bytes, b, also);
    expect_same(x, y, "header", !memcmp(a, b, sizeof a) && !memcmp(told, also, sizeof told));
}

int main(int argc, char **argv) {
    const unsigned long calls = argc > 1 ? strtoul(argv[1], NULL, 10) : 10000;
    if (argc > 2) state = strtoull(argv[2], NULL, 10) * 2 + 1;
    for (unsigned long k = 0; k < calls; k++) switch (any(10)) {
        case 0:
        case 1: opening(); break;
        case 2:
        case 3: planning(); break;
        case 4: parting(); break;
        case 5: writing(); break;
        case 6: heading(); break;
        case 7: stepping(0); break;
        default: stepping(1);
        }
    for (int k = 0; k < 256; k++)
        if (answers[k]) printf("%d: %lu  ", k, answers[k]);
    printf("\n");
    return done();
}
