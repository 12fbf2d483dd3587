/* Tries the calls of the level report and those that make a DSF file in parts. As C and as C++. */
#include "try.h"

enum { FRAMES = 300, SIZE = 4704 };

static const uint32_t rates[] = {88200, 176400, 352800};

static puigneht_converter opened(uint32_t rate, uint32_t channels, double decibels) {
    puigneht_settings s = puigneht_default_settings();
    puigneht_converter c;
    s.rate = rate;
    s.channels = channels;
    s.decibels = decibels;
    if (puigneht_open(&c, &s, NULL)) exit(2);
    return c;
}

/* ---- levels */

/* The lines of a frame, out of its samples, clips and overs as other calls give them. */
static size_t lines_of(char *text, size_t room, const puigneht_converter *c, const puigneht_run *run, unsigned number,
                       puigneht_overs *overs) {
    static int32_t samples[PUIGNEHT_MOST_SAMPLES];
    const size_t channels = (size_t)c->numbers.channels, count = puigneht_samples_of(c, 1);
    puigneht_stats stats;
    size_t length = 0;
    *overs = puigneht_overs_from_here(overs);
    EXPECT(puigneht_convert_frame(c, run, samples, count, &stats, NULL) == 0 &&
           puigneht_count_overs(overs, channels, samples, count) == 0);
    for (size_t k = 0; k < channels; k++) {
        int32_t low = samples[k], high = samples[k];
        for (size_t n = k; n < count; n += channels) {
            low = samples[n] < low ? samples[n] : low;
            high = samples[n] > high ? samples[n] : high;
        }
        length += (size_t)snprintf(text + length, room - length,
                                   "frame %u channel %u clipped %lu low %ld high %ld over %lu\n", number, (unsigned)k,
                                   (unsigned long)stats.clipped[k], (long)low, (long)high,
                                   (unsigned long)overs->of[k].overs);
    }
    return length;
}

static int same_standings(const puigneht_levels *l, const puigneht_overs *o, size_t channels) {
    for (size_t k = 0; k < PUIGNEHT_MOST_CHANNELS; k++) {
        uint64_t end = k < channels ? o->of[k].end : 0, length = k < channels ? o->of[k].length : 0;
        if (l->standings[k].end != end || l->standings[k].length != length) return 0;
    }
    return 1;
}

static void report(uint32_t rate, uint32_t channels, double decibels) {
    static puigneht_levels l, early;
    static char text[4096];
    const size_t size = SIZE * channels;
    puigneht_converter c = opened(rate, channels, decibels);
    puigneht_overs overs;
    puigneht_refusal r;
    uint8_t *frames = noise(9 * size);
    memset(&l, 0, sizeof l);
    memset(&overs, 0, sizeof overs);
    for (unsigned f = 0; f < 9; f++) {
        puigneht_run run = puigneht_cut(&c, frames, 9 * size, f, 1);
        EXPECT(puigneht_frame_levels(&c, &run, f, &l, &r) == 0 && r.call == PUIGNEHT_CALL_FRAME_LEVELS &&
               r.length == size && r.rate == rate && r.channels == channels && r.number == 0);
        size_t length = lines_of(text, sizeof text, &c, &run, f, &overs);
        EXPECT(l.length == length && !memcmp(l.lines, text, length) && same_standings(&l, &overs, channels));
        memset(&early, 0, sizeof early); /* from zeros: another number of overs perhaps, and the same in progress */
        EXPECT(puigneht_frame_levels(&c, &run, 7, &early, NULL) == 0 && same_standings(&early, &overs, channels) &&
               early.clipped == l.clipped && !memcmp(early.samples, l.samples, sizeof l.samples));
    }
    free(frames);
}

static void reports(void) {
    for (int k = 0; k < 3; k++)
        for (uint32_t channels = 1; channels <= 6; channels++) report(rates[k], channels, 6);
    report(88200, 2, -20);
}

/* Refused, it keeps all. */
static void refusals(void) {
    static puigneht_levels l, kept;
    static uint8_t frames[3 * SIZE];
    puigneht_converter c = opened(88200, 1, 0), other;
    puigneht_refusal r;
    puigneht_run two = puigneht_cut(&c, frames, sizeof frames, 0, 2), one = puigneht_cut(&c, frames, sizeof frames, 1, 1);
    memset(&l, 1, sizeof l);
    for (int k = 0; k < PUIGNEHT_MOST_CHANNELS; k++) l.standings[k].end = 1;
    kept = l;
    REFUSED(puigneht_frame_levels(&c, &two, 0, &l, &r), 4,
            "refused 4: 9,408 bytes are not one frame: a frame of 1 channel has 4,704 bytes");
    other = c;
    other.numbers.samples_per_frame = 1u << 20;
    REFUSED(puigneht_frame_levels(&other, &one, 0, &l, &r), 15,
            "refused 15: the converter's numbers are not those of its settings");
    other = c;
    other.numbers.rate = 44100;
    EXPECT(puigneht_frame_levels(&other, &one, 0, &l, NULL) == 255 && !memcmp(&l, &kept, sizeof l));
    l.standings[5].end = 3;
    EXPECT(puigneht_frame_levels(&c, &one, 0, &l, NULL) == 255);
    l.standings[5].end = 1;
    EXPECT(!memcmp(&l, &kept, sizeof l));
    l.standings[0].length = 2; /* two at the high end, and this frame does not begin there */
    EXPECT(puigneht_frame_levels(&c, &one, 0, &l, NULL) == 0 && l.length && l.standings[1].end == 0);
}

static void last_lines(void) {
    uint8_t line[PUIGNEHT_LAST_LINE_ROOM];
    static const char most[] = "frames 18446744073709551615 clipped 18446744073709551614\n";
    EXPECT(puigneht_last_line(0, 0, line) == 19 && !memcmp(line, "frames 0 clipped 0\n", 19));
    EXPECT(puigneht_last_line(UINT64_MAX, UINT64_MAX - 1, line) == sizeof most - 1 && !memcmp(line, most, sizeof most - 1));
}

/* ---- a DSF file in parts */

/* By stretches of so many frames. */
static void in_parts(uint64_t channels, const uint8_t *frames, size_t frames_len, size_t stretch) {
    uint64_t length = 0, part = 0;
    uint8_t *file, *made;
    puigneht_refusal r;
    if (puigneht_dsf_length(channels, frames_len, &length, NULL)) exit(2);
    file = (uint8_t *)room_for((size_t)length);
    made = (uint8_t *)room_for((size_t)length);
    EXPECT(puigneht_dsf_write(channels, frames, frames_len, file, (size_t)length, NULL) == 0);
    EXPECT(puigneht_dsf_head(channels, frames_len, made, &r) == 0 && r.call == PUIGNEHT_CALL_DSF_WRITE &&
           r.length == frames_len && r.channels == channels);
    size_t at = PUIGNEHT_DSF_HEADER;
    for (size_t done = 0; done < frames_len; done += stretch * SIZE * (size_t)channels, at += (size_t)part) {
        size_t left = frames_len - done, most = stretch * SIZE * (size_t)channels, n = left < most ? left : most;
        if (puigneht_dsf_length(channels, n, &part, NULL)) exit(2);
        part -= PUIGNEHT_DSF_HEADER;
        EXPECT(puigneht_dsf_lay_out(channels, frames + done, n, made + at, (size_t)part, &r) == 0 && r.length == n);
    }
    EXPECT(at == length && !memcmp(file, made, at));
    free(file);
    free(made);
}

static void parts(void) {
    EXPECT(PUIGNEHT_STRETCH_BYTES == PUIGNEHT_STRETCH_FRAMES * PUIGNEHT_CHANNEL_BYTES);
    for (uint64_t channels = 1; channels <= 6; channels++) {
        uint8_t *frames = noise(FRAMES * SIZE * (size_t)channels);
        for (size_t count = 0; count <= FRAMES; count += 50) {
            in_parts(channels, frames, count * SIZE * (size_t)channels, PUIGNEHT_STRETCH_FRAMES);
            in_parts(channels, frames, count * SIZE * (size_t)channels, 2 * PUIGNEHT_STRETCH_FRAMES);
        }
        free(frames);
    }
}

static void refused_parts(void) {
    static uint8_t frames[SIZE + 1], out[8192 + 1], head[PUIGNEHT_DSF_HEADER];
    puigneht_refusal r;
    memset(out, 7, sizeof out);
    memset(head, 7, sizeof head);
    REFUSED(puigneht_dsf_head(7, SIZE, head, &r), 1, "refused 1: 7 channels: there may be 1 to 6");
    REFUSED(puigneht_dsf_head(257, SIZE, head, &r), 1, "refused 1: 257 channels: there may be 1 to 6");
    REFUSED(puigneht_dsf_head(1, SIZE + 1, head, &r), 4,
            "refused 4: 4,705 bytes are not whole frames: a frame of 1 channel has 4,704 bytes");
    REFUSED(puigneht_dsf_head(1, (size_t)540001 * SIZE, head, &r), 5,
            "refused 5: 540,001 frames: at most 540,000 (two hours) are written");
    REFUSED(puigneht_dsf_lay_out(0, frames, SIZE, out, 8192, &r), 1, "refused 1: 0 channels: there may be 1 to 6");
    REFUSED(puigneht_dsf_lay_out(1, frames, SIZE + 1, out, 8192, &r), 4,
            "refused 4: 4,705 bytes are not whole frames: a frame of 1 channel has 4,704 bytes");
    REFUSED(puigneht_dsf_lay_out(1, frames, SIZE, out, 8193, &r), 7,
            "refused 7: room for 8,193 bytes, where 8,192 are to be written");
    for (size_t k = 0; k < sizeof out; k++) wrong += out[k] != 7;
    for (size_t k = 0; k < sizeof head; k++) wrong += head[k] != 7;
    EXPECT(puigneht_dsf_lay_out(2, frames, 0, out, 0, NULL) == 0 && out[0] == 7);
}

int main(void) {
    reports();
    refusals();
    last_lines();
    parts();
    refused_parts();
    return done();
}
