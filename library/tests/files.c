/* Tries the calls of puigneht.h that take files, and the sentences of their refusals. As C and as C++. */
#include "try.h"

enum { FRAMES = 300, CHANNELS = 2, SIZE = 4704 * CHANNELS };

static uint8_t *frames, *file;
static size_t file_len;

static void put(uint8_t *at, int size, uint64_t value) {
    for (int k = 0; k < size; k++) at[k] = (uint8_t)(value >> 8 * k);
}

static void written(void) {
    uint64_t length = 0;
    puigneht_refusal r;
    frames = noise((size_t)SIZE * FRAMES);
    EXPECT(puigneht_dsf_length(CHANNELS, (size_t)SIZE * FRAMES, &length, &r) == 0 &&
           r.call == PUIGNEHT_CALL_DSF_WRITE && r.length == (uint64_t)SIZE * FRAMES);
    EXPECT(length == 92 + 2 * 4096 * ((4704 * FRAMES + 4095) / 4096) && r.channels == 2);
    file_len = (size_t)length;
    file = (uint8_t *)room_for(file_len);
    EXPECT(puigneht_dsf_write(CHANNELS, frames, (size_t)SIZE * FRAMES, file, file_len, &r) == 0 && r.number == 0);
    REFUSED(puigneht_dsf_write(CHANNELS, frames, (size_t)SIZE * FRAMES, file, 9, &r), 7,
            "refused 7: room for 9 bytes, where 2,826,332 are to be written");
    REFUSED(puigneht_dsf_write(1, frames, 9, file, 9, &r), 4,
            "refused 4: 9 bytes are not whole frames: a frame of 1 channel has 4,704 bytes");
    REFUSED(puigneht_dsf_write(257, frames, SIZE, file, 9, &r), 1, "refused 1: 257 channels: there may be 1 to 6");
    REFUSED(puigneht_dsf_length(0, SIZE, &length, &r), 1, "refused 1: 0 channels: there may be 1 to 6");
    REFUSED(puigneht_dsf_length(1, (size_t)4704 * 540001, &length, &r), 5,
            "refused 5: 540,001 frames: at most 540,000 (two hours) are written");
    EXPECT(length == file_len && puigneht_dsf_length(6, 6 * 4704, &length, NULL) == 0 && length == 92 + 6 * 8192);
}

static void read_back(void) {
    puigneht_dsf d, e;
    puigneht_refusal r;
    static uint8_t one[SIZE + 1];
    EXPECT(puigneht_dsf_read(file, file_len, &d, &r) == 0 && r.call == PUIGNEHT_CALL_DSF_READ && r.length == file_len &&
           r.field.place == 0);
    EXPECT(d.channel_type == 2 && d.channels == 2 && d.bits_per_sample == 1 && d.samples == 8 * 4704 * FRAMES &&
           d.frames == FRAMES);
    EXPECT(puigneht_dsf_read_header(file, 92, file_len, &e, &r) == 0 && !memcmp(&d, &e, sizeof d) &&
           r.length == file_len);
    for (uint64_t f = 0; f + 1 < FRAMES; f += 23) {
        EXPECT(puigneht_dsf_frame(file, file_len, f, one, SIZE, &r) == 0 && !memcmp(one, frames + f * SIZE, SIZE) &&
               r.call == PUIGNEHT_CALL_DSF_FRAME);
        puigneht_stretch s = puigneht_dsf_window(&d, f), t = puigneht_dsf_window(&d, f + 1);
        puigneht_dsf_part part = {file, 92, file_len, file + 92 + s.begin, (size_t)(t.end - s.begin), s.begin};
        memset(one, 0, sizeof one);
        EXPECT(s.end - s.begin >= SIZE && puigneht_dsf_window_frame(&part, f, one, SIZE, &r) == 0 &&
               !memcmp(one, frames + f * SIZE, SIZE));
        EXPECT(puigneht_dsf_window_frame(&part, f + 1, one, SIZE, NULL) == 0 &&
               !memcmp(one, frames + (f + 1) * SIZE, SIZE));
        part.window_len--;
        REFUSED(puigneht_dsf_window_frame(&part, f + 1, one, SIZE, &r), 11,
                "refused 11: the part of the file that was given does not hold the frame");
        EXPECT(r.call == PUIGNEHT_CALL_DSF_WINDOW_FRAME && r.length == file_len);
        part.window_len++, part.start++;
        EXPECT(puigneht_dsf_window_frame(&part, f, one, SIZE, NULL) == 11);
        part.start--;
        REFUSED(puigneht_dsf_window_frame(&part, FRAMES, one, SIZE, &r), 5,
                "refused 5: the file has no frame 300: they are counted from 0");
        REFUSED(puigneht_dsf_window_frame(&part, f, one, SIZE + 1, &r), 7,
                "refused 7: room for 9,409 bytes, where 9,408 are to be written");
        part.head_len = 91;
        REFUSED(puigneht_dsf_window_frame(&part, f, one, SIZE, &r), 9,
                "refused 9: not a DSF file as Sony's document lays it out: it has 91 bytes, and a header has 92");
    }
    REFUSED(puigneht_dsf_frame(file, file_len, FRAMES, one, SIZE, &r), 5,
            "refused 5: the file has no frame 300: they are counted from 0");
    puigneht_stretch none = puigneht_dsf_window(&d, FRAMES);
    EXPECT(none.begin == 0 && none.end == 0);
}

/* Files of other channels than their type's number: 5 channels are type 6, and 6 are type 7. */
static void many_channels(void) {
    static uint8_t some[3 * 4704 * 6], back[4704 * 6];
    for (uint64_t channels = 1; channels <= 6; channels++) {
        const size_t one = 4704 * (size_t)channels;
        uint64_t length = 0;
        puigneht_dsf d;
        for (size_t k = 0; k < sizeof some; k++) some[k] = (uint8_t)(k * 2654435761u >> 13);
        EXPECT(puigneht_dsf_length(channels, 3 * one, &length, NULL) == 0);
        uint8_t *whole = (uint8_t *)room_for((size_t)length);
        EXPECT(puigneht_dsf_write(channels, some, 3 * one, whole, (size_t)length, NULL) == 0 &&
               puigneht_dsf_read(whole, (size_t)length, &d, NULL) == 0 && d.channels == channels && d.frames == 3);
        EXPECT(d.channel_type == (channels < 5 ? channels : channels + 1));
        for (uint64_t f = 0; f < 3; f++) {
            puigneht_stretch s = puigneht_dsf_window(&d, f);
            puigneht_dsf_part part = {whole, 92, length, whole + 92 + s.begin, (size_t)(s.end - s.begin), s.begin};
            EXPECT(s.end > s.begin && s.end <= length - 92 && s.begin % (4096 * channels) == 0 &&
                   s.end % (4096 * channels) == 0);
            EXPECT(puigneht_dsf_window_frame(&part, f, back, one, NULL) == 0 && !memcmp(back, some + f * one, one));
        }
        free(whole);
    }
}

/* ---- what is wrong with a file */

#define NOT "refused 9: not a DSF file as Sony's document lays it out: "
static const struct {
    int place, size;
    uint64_t value;
    unsigned number;
    const char *sentence;
} broken[] = {
    {0, 4, 0x46464952, 9, NOT "the name of the DSD chunk (byte 0) is 'RIFF', and not 'DSD '"},
    {0, 4, 7, 9, NOT "the name of the DSD chunk (byte 0) is 7, and not 'DSD '"},
    {4, 8, 29, 9, NOT "the size of the DSD chunk (byte 4) is 29, and not 28"},
    {28, 4, 0x544d4620, 9, NOT "the name of the fmt chunk (byte 28) is ' FMT', and not 'fmt '"},
    {32, 8, 5000000, 9, NOT "the size of the fmt chunk (byte 32) is 5,000,000, and not 52"},
    {40, 4, 2, 9, NOT "the format version (byte 40) is 2, and not 1"},
    {44, 4, 1, 9, NOT "the format ID (byte 44) is 1, and not 0"},
    {48, 4, 3, 9, NOT "channel type 3 does not go with 2 channels"},
    {52, 4, 4294967295, 9, NOT "channel type 2 does not go with 4,294,967,295 channels"},
    {60, 4, 2, 9, NOT "the bits per sample (byte 60) is 2, and not 1"},
    {72, 4, 4095, 9, NOT "the block size (byte 72) is 4,095, and not 4,096"},
    {76, 4, 1, 9, NOT "the reserved field (byte 76) is 1, and not 0"},
    {80, 4, 0x61746163, 9, NOT "the name of the data chunk (byte 80) is 'cata', and not 'data'"},
    {56, 4, 5644800, 10, "refused 10: 5,644,800 one-bit samples a second: only 2,822,400 (DSD64) are converted"},
    {64, 8, 1001, 10, "refused 10: 1,001 samples of a channel, which are no whole bytes"},
    {12, 8, 2826333, 11, "refused 11: the file says 2,826,333 bytes and has 2,826,332: an incomplete upload?"},
    {12, 8, 2826000, 11,
     "refused 11: the file says 2,826,000 bytes and has 2,826,332, which are 332 more: something was added, or tags "
     "were taken away"},
    {84, 8, 12, 11, "refused 11: the data chunk says 12 bytes, and the file's samples need 2,826,252: a damaged file?"},
};

static void broken_files(void) {
    uint8_t *bad = (uint8_t *)room_for(file_len), one[1];
    puigneht_dsf d, kept;
    puigneht_refusal r;
    memset(&d, 3, sizeof d), kept = d;
    for (size_t k = 0; k < sizeof broken / sizeof *broken; k++) {
        memcpy(bad, file, file_len);
        put(bad + broken[k].place, broken[k].size, broken[k].value);
        REFUSED(puigneht_dsf_read(bad, file_len, &d, &r), broken[k].number, broken[k].sentence);
        EXPECT(r.field.place == (broken[k].place == 52 ? 48 : (uint64_t)broken[k].place));
        REFUSED(puigneht_dsf_read_header(bad, 92, file_len, &d, &r), broken[k].number, broken[k].sentence);
        REFUSED(puigneht_dsf_frame(bad, file_len, 0, one, 1, &r), broken[k].number, broken[k].sentence);
    }
    memcpy(bad, file, file_len);
    put(bad + 12, 8, file_len - 5000);
    REFUSED(puigneht_dsf_read(bad, file_len - 5000, &d, &r), 11,
            "refused 11: the file has 2,821,332 bytes, and its samples need 2,826,332: it ends before they do");
    REFUSED(puigneht_dsf_read(file, file_len - 1, &d, &r), 11,
            "refused 11: the file says 2,826,332 bytes and has 2,826,331: an incomplete upload?");
    REFUSED(puigneht_dsf_read(file, 40, &d, &r), 9, NOT "it has 40 bytes, and a header has 92");
    EXPECT(!memcmp(&d, &kept, sizeof d));
    free(bad);
}

static void uploads(void) {
    uint64_t place = 7;
    EXPECT(puigneht_dsf_give_up(file, file_len, &place) == PUIGNEHT_UPLOAD_ACCEPTED &&
           puigneht_dsf_give_up(file, 500, &place) == PUIGNEHT_UPLOAD_UNFINISHED);
    EXPECT(puigneht_dsf_give_up_header(file, 92, file_len, &place) == PUIGNEHT_UPLOAD_ACCEPTED && place == 7);
    EXPECT(puigneht_dsf_give_up_header(file, 60, file_len, &place) == PUIGNEHT_UPLOAD_UNFINISHED && place == 7);
    EXPECT(puigneht_dsf_give_up_header(file, 92, file_len + 1, &place) == PUIGNEHT_UPLOAD_GIVE_UP &&
           place == file_len + 1);
    EXPECT(puigneht_dsf_give_up_header((const uint8_t *)"DSX ", 4, 3, &place) == PUIGNEHT_UPLOAD_GIVE_UP && place == 3);
    EXPECT(puigneht_dsf_give_up_header((const uint8_t *)"DSX ", 4, 2, &place) == PUIGNEHT_UPLOAD_UNFINISHED);
    EXPECT(puigneht_dsf_give_up((const uint8_t *)"DSD?", 4, &place) == PUIGNEHT_UPLOAD_GIVE_UP && place == 4);
}

/* ---- WAV files */

static void wavs(void) {
    static uint8_t wav[44 + 7056 + 1], again[44 + 7056], head[44];
    puigneht_wav w, v = {88200, 2, 0, 0}, kept;
    puigneht_refusal r;
    const char *other = "refused 12: not a WAV file of the plain header, 24 bits, one or two channels, one of the "
                        "three rates and whole frames";
    EXPECT(puigneht_wav_write(&v, frames, 7056, wav, 44 + 7056, &r) == 0 && r.call == PUIGNEHT_CALL_WAV_WRITE &&
           r.length == 7056 && r.channels == 2);
    EXPECT(puigneht_wav_read(wav, 44 + 7056, &w, &r) == 0 && w.rate == 88200 && w.channels == 2 && w.begin == 44 &&
           w.length == 7056);
    EXPECT(puigneht_wav_write(&w, wav + w.begin, (size_t)w.length, again, sizeof again, NULL) == 0 &&
           !memcmp(wav, again, sizeof again));
    EXPECT(puigneht_wav_header(88200, 2, 7056, head, &r) == 0 && !memcmp(wav, head, 44) &&
           r.call == PUIGNEHT_CALL_WAV_WRITE);
    memset(&w, 3, sizeof w), kept = w;
    REFUSED(puigneht_wav_read(wav, 44 + 7055, &w, &r), 12, other);
    EXPECT(r.call == PUIGNEHT_CALL_WAV_READ && r.length == 44 + 7055 && !memcmp(&w, &kept, sizeof w));
    REFUSED(puigneht_wav_write(&v, frames, 7056, again, 44, &r), 7,
            "refused 7: room for 44 bytes, where 7,100 are to be written");
    REFUSED(puigneht_wav_write(&v, frames, 7, again, 51, &r), 12,
            "refused 12: 7 bytes of samples are no whole frames of 7,056 bytes");
    v.channels = 0, REFUSED(puigneht_wav_write(&v, frames, 7056, again, 44, &r), 12,
                            "refused 12: 0 channels: the WAV file takes one or two");
    v.channels = 258, REFUSED(puigneht_wav_write(&v, frames, 7056, again, 44, &r), 12,
                              "refused 12: 258 channels: the WAV file takes one or two");
    v.channels = 1, v.rate = 44100,
    REFUSED(puigneht_wav_write(&v, frames, 7056, again, 44, &r), 12,
            "refused 12: a rate of 44,100: a WAV file has 88,200, 176,400 or 352,800");
    REFUSED(puigneht_wav_header(88200, 258, 7056, head, &r), 12,
            "refused 12: 258 channels: the WAV file takes one or two");
    REFUSED(puigneht_wav_header(88200, 1, 3528 * UINT64_C(540001), head, &r), 12,
            "refused 12: 540,001 frames: a WAV file takes at most 540,000 (two hours)");
    EXPECT(!memcmp(wav, head, 44));
}

static void long_wavs(void) {
    static const struct {
        uint64_t rate, channels;
        const char *holds;
    } most[] = {{352800, 2, ", which are 33:48 of 2 channels at 352,800"},
                {176400, 2, ", which are 67:37 of 2 channels at 176,400"},
                {352800, 1, ", which are 67:37 of 1 channel at 352,800"},
                {88200, 2, ""},
                {176400, 1, ""},
                {88200, 1, ""}};
    for (size_t k = 0; k < sizeof most / sizeof *most; k++) {
        puigneht_refusal r;
        uint8_t head[44];
        char sentence[200] =
            "refused 12: 4,294,967,260 bytes of samples: a WAV file holds at most 4,294,967,259";
        strcat(sentence, most[k].holds);
        REFUSED(puigneht_wav_header(most[k].rate, most[k].channels, UINT64_C(4294967260), head, &r), 12, sentence);
    }
}

/* ---- sentences */

/* Any refusal has a sentence that fits, also in little room. */
static void sentences(void) {
    char text[PUIGNEHT_DESCRIPTION_ROOM], small[12], whole[PUIGNEHT_DESCRIPTION_ROOM];
    for (unsigned call = 0; call <= PUIGNEHT_CALL_ALBUM_HEADER; call++)
        for (unsigned n = 0; n < 256; n++)
            for (uint64_t place = 0; place < 93; place++) {
                puigneht_refusal r;
                memset(&r, 255, sizeof r);
                r.number = (uint8_t)n, r.call = (uint8_t)call, r.field.place = place,
                r.decibels = -1.7976931348623157e308;
                if (place % 2) r.rate = 352800, r.channels = 2, r.cutoff = 0, r.field.asked = 1;
                EXPECT(puigneht_describe(&r, text, sizeof text) == text && strlen(text) > 7 && strlen(text) < 220);
                puigneht_describe(&r, small, sizeof small);
                EXPECT(strlen(small) < sizeof small && !strncmp(small, text, strlen(small)));
                memset(whole, 1, sizeof whole), puigneht_describe(&r, whole, 0);
                EXPECT(whole[0] == 1);
            }
    EXPECT(!strcmp(puigneht_version(), PUIGNEHT_VERSION));
}

int main(void) {
    written();
    read_back();
    many_channels();
    broken_files();
    uploads();
    wavs();
    long_wavs();
    sentences();
    free(frames), free(file);
    return done();
}
