/* One-bit (DSD64) frames to 24-bit PCM: the static library libpuigneht.a. DSF albums as pieces: puigneht/album.h.
 *
 *     puigneht_settings settings = puigneht_default_settings();
 *     puigneht_converter converter;
 *     puigneht_refusal refusal;
 *     char text[PUIGNEHT_DESCRIPTION_ROOM];
 *     if (puigneht_open(&converter, &settings, &refusal)) puts(puigneht_describe(&refusal, text, sizeof text));
 *
 * People call the `static inline` calls, which take records and hand on. What is decided, and every sample, is decided
 * by the proved calls, whose names end in `_call`; a fixed list or record is one pointer there, and nothing is
 * measured.
 *
 * Answers: PUIGNEHT_ACCEPTED (0), the number of a refusal, or PUIGNEHT_NOT_UNDERSTOOD. Every other answer than 0 leaves
 * all that is lent as it was, but for `refusal`, which holds the number, its data and where it came from, and for the
 * memory of puigneht_album_piece and puigneht_album_frames. (puigneht_dsf_give_up answers no refusals: 1 and 2 are what
 * it found, and with 2 it writes `place`.) `refusal` and `stats` may be NULL.
 *
 * Lists: a pointer and its number of items; NULL with 0 items is an empty list. NULL with a number of items counts as a
 * list without items for a run's neighbours, counts and taps alone, which is then refused; puigneht_cut takes NULL
 * frames as 0 bytes; anywhere else such a pointer is the caller's mistake, and is followed. What is written overlaps
 * nothing else of the call. Records and lists stand where C puts them; only the calls in `_call` take any address.
 *
 * Threads: no call keeps a pointer, allocates memory or has a state. A converter, a run and an album are only read by
 * conversions, so threads may share them; statistics, overs and refusals are each thread's own.
 *
 * Stack: a conversion needs 50 kB, puigneht_describe 4 kB, opening and changing 3 kB, any other call 2 kB (bench/header
 * measures all but puigneht_describe).
 *
 * The rounding mode of floating point must be to nearest, as a program starts with: under another one factors and
 * samples are others, and a gain made before is refused.
 *
 * A good piece is 8 to 128 frames (128 of stereo are 1.2 MB, and up to 3.6 MB of samples). Its length makes no other
 * difference: by single frames a conversion takes a hundredth more time.
 *
 * C99 to C17, C++11 to C++20. */
#ifndef PUIGNEHT_H
#define PUIGNEHT_H

#include <stddef.h>
#include <stdint.h>
#include <string.h>

/* The version of this header; puigneht_version tells the library's. */
#define PUIGNEHT_VERSION "0.3.0"

#ifdef __cplusplus
#define PUIGNEHT_HOLDS_(fact, text) static_assert(fact, text)
#define PUIGNEHT_AS_(type, value) static_cast<type>(value)
#define PUIGNEHT_NULL_ nullptr
#else
#if defined(__STDC_VERSION__) && __STDC_VERSION__ >= 201112L
#define PUIGNEHT_HOLDS_(fact, text) _Static_assert(fact, text)
#else
#define PUIGNEHT_HOLDS_(fact, text) extern int puigneht_holds_[(fact) ? 1 : -1]
#endif
#define PUIGNEHT_AS_(type, value) ((type)(value))
#define PUIGNEHT_NULL_ NULL
#endif

/* An answer that has to be looked at. */
#if defined(__GNUC__) || defined(__clang__)
#define PUIGNEHT_LOOK_ __attribute__((warn_unused_result))
#else
#define PUIGNEHT_LOOK_
#endif

#ifdef __cplusplus
extern "C" {
#endif

/* ---- answers and refusals */

enum {
    PUIGNEHT_ACCEPTED = 0,
    PUIGNEHT_REFUSED_CHANNELS = 1,      /* data: channels, which are not 1 to 6 */
    PUIGNEHT_REFUSED_UNSUPPORTED = 2,   /* data: rate, cutoff: Wide at 88200 */
    PUIGNEHT_REFUSED_GAIN = 3,          /* decibels: not -120 to 24, or with a factor that is not theirs */
    PUIGNEHT_REFUSED_INPUT_LENGTH = 4,  /* data: bytes, kind: 0 not whole frames, 1 not one frame */
    PUIGNEHT_REFUSED_FRAMES = 5,        /* data: frames, over 540000; or the number of a frame, piece or track that is
                                           not there */
    PUIGNEHT_REFUSED_OUTPUT_LENGTH = 6, /* data: samples of room, samples needed */
    PUIGNEHT_REFUSED_OUTPUT_BYTES = 7,  /* data: bytes of room, bytes needed */
    PUIGNEHT_REFUSED_FRAME_COUNTS = 8,  /* data: counts of room, counts needed */
    PUIGNEHT_REFUSED_NOT_DSF = 9,       /* field: under 92 bytes, or a field against Sony's document */
    PUIGNEHT_REFUSED_DSF_FORMAT = 10,   /* field: another frequency than 2822400, or samples not a multiple of 8 */
    PUIGNEHT_REFUSED_DSF_LENGTH = 11,   /* field: a length that is not the file's; a window without the frame */
    PUIGNEHT_REFUSED_NOT_WAV = 12,      /* not a file that puigneht_wav_read takes, or none that it would; of an album's
                                           header data: channels, bytes, which the header asked for does not take */
    PUIGNEHT_REFUSED_BEFORE = 13,       /* data: bytes of `before`, which are not one frame */
    PUIGNEHT_REFUSED_AFTER = 14,        /* data: bytes of `after`, which are not one frame */
    PUIGNEHT_REFUSED_STORED = 15,       /* a converter's numbers are not those of its settings */
    PUIGNEHT_REFUSED_DESK = 16,         /* more than PUIGNEHT_DESK_FRAMES frames, in puigneht_convert_desk */
    PUIGNEHT_REFUSED_TAPS = 17,         /* no tap, or more than PUIGNEHT_MOST_TAPS */
    PUIGNEHT_REFUSED_TAP_SUMS = 18,     /* centre plus twice the rest is not 16777216, or absolutely over 40000000 */
    PUIGNEHT_REFUSED_SCHEDULE = 19,     /* a number of a simulation of turns outside its range */
    PUIGNEHT_REFUSED_SHEET = 20,        /* a number too wide for its column of the level sheet */
    PUIGNEHT_READ_FAILED = 254,         /* of puigneht/album.h: the caller's own `read` of a track failed */
    /* An unknown rate, cutoff, end or mark; more than 255 channels; a converter's own flag that is not 0 or 1; samples
     * that are no whole turns of the channels; statistics that nobody made; an album that was not opened, or of 0 or
     * more than 99 tracks; an unknown format of a header. */
    PUIGNEHT_NOT_UNDERSTOOD = 255
};

enum { PUIGNEHT_STANDARD = 0, PUIGNEHT_LOW = 1, PUIGNEHT_WIDE = 2 };

enum {
    PUIGNEHT_MOST_CHANNELS = 6,
    PUIGNEHT_CHANNEL_BYTES = 4704, /* of one channel in a frame; the channels' bytes take turns */
    PUIGNEHT_MOST_FRAMES = 540000, /* of a run */
    PUIGNEHT_DESK_FRAMES = 8,      /* of a run at the listening desk */
    PUIGNEHT_MOST_TAPS = 117,
    PUIGNEHT_MOST_ALBUMS = 8,  /* on one board */
    PUIGNEHT_WAV_HEADER = 44,  /* bytes of a WAV file before its samples */
    PUIGNEHT_DSF_HEADER = 92,  /* bytes of a DSF file before its samples */
    PUIGNEHT_SHEET_LINE = 43,  /* bytes of a line of the level sheet */
    PUIGNEHT_SHEET_ROOM = 302, /* of the longest sheet with a zero byte behind it */
    PUIGNEHT_LINES_ROOM = 864,     /* bytes of the level report's lines of a frame */
    PUIGNEHT_LAST_LINE_ROOM = 144, /* bytes of its last line */
    PUIGNEHT_MOST_SAMPLES = 28224, /* of a frame over all channels */
    PUIGNEHT_DESCRIPTION_ROOM = 256
};

/* The most sample bytes of a WAV file. */
#define PUIGNEHT_WAV_MOST_DATA UINT32_C(4294967259)

/* Which call refused. */
enum {
    PUIGNEHT_CALL_NONE = 0,
    PUIGNEHT_CALL_GAIN,
    PUIGNEHT_CALL_OPEN,
    PUIGNEHT_CALL_CHANGE,
    PUIGNEHT_CALL_CONVERT_RUN,
    PUIGNEHT_CALL_CONVERT_FRAME,
    PUIGNEHT_CALL_CONVERT,
    PUIGNEHT_CALL_CONVERT_DESK,
    PUIGNEHT_CALL_WAV_CONVERT,
    PUIGNEHT_CALL_LEVEL_SHEET,
    PUIGNEHT_CALL_TURNS,
    PUIGNEHT_CALL_DSF_READ,
    PUIGNEHT_CALL_DSF_FRAME,
    PUIGNEHT_CALL_DSF_WINDOW_FRAME,
    PUIGNEHT_CALL_DSF_WRITE,
    PUIGNEHT_CALL_WAV_READ,
    PUIGNEHT_CALL_WAV_WRITE,
    PUIGNEHT_CALL_ALBUM_OPEN,
    PUIGNEHT_CALL_ALBUM_PIECE,
    PUIGNEHT_CALL_ALBUM_FRAMES,
    PUIGNEHT_CALL_ALBUM_HEADER,
    PUIGNEHT_CALL_FRAME_LEVELS
};

/* Of 9, 10 and 11: the first wrong field of a DSF file. */
typedef struct puigneht_field {
    uint64_t place; /* the byte of the file at which it stands; 92 where it is the file's own length */
    uint64_t found; /* what stands there, as a number, lowest byte first */
    uint64_t asked; /* what is asked there: at 64 a multiple of it, at 48 and 60 it or another that the document has */
} puigneht_field;

/* What a call that was not accepted tells; zeros where there is nothing to tell. */
typedef struct puigneht_refusal {
    uint64_t data[2];                /* as the number says above */
    double decibels;                 /* of 3, as they came in, a NaN with its bits */
    puigneht_field field;            /* of 9, 10 and 11 */
    uint64_t rate, cutoff, channels; /* that the call was made with */
    uint64_t length;                 /* of what it was given: bytes of frames, of a file, of samples or of memory; taps;
                                        tracks */
    uint8_t call, number;
    uint8_t track; /* of an album, counted from 0: whose file it was, or whose frames are too many */
} puigneht_refusal;

/* The refusal as one plain sentence, with a zero byte behind it: PUIGNEHT_DESCRIPTION_ROOM bytes hold each. A longer
 * one than `room` is cut. Gives `text`. It has no state. */
const char *puigneht_describe(const puigneht_refusal *refusal, char *text, size_t room);

/* PUIGNEHT_VERSION, as the library was made with. */
const char *puigneht_version(void);

/* ---- the records that the proved calls read and write */

/* Decibels and the factor that they stand for. At 0 dB, 100 % modulation of the one-bit signal is full scale: bytes of
 * 0x00 give -8388608, and bytes of 0xFF one more than the largest sample, so they are clipped. */
typedef struct puigneht_gain_record {
    double decibels, factor;
} puigneht_gain_record;

typedef struct puigneht_numbers {
    uint64_t rate, cutoff, channels;
    uint64_t own;  /* 1: the low-pass is the caller's own; 0: the built-in one, and the taps are not read */
    uint64_t taps; /* how many */
    uint64_t samples_per_frame; /* of a channel */
    uint64_t reach;             /* bytes of each channel before and after a run that its samples may depend on */
    uint64_t frame_bytes;       /* of all channels */
} puigneht_numbers;

/* Written by puigneht_open and puigneht_change, and read by every conversion, which tries it by 1, 2, 3, 17, 18, 15. */
typedef struct puigneht_converter {
    puigneht_numbers numbers;
    puigneht_gain_record gain;
    int32_t taps[PUIGNEHT_MOST_TAPS]; /* from the centre outwards */
    int32_t unused;
} puigneht_converter;

/* What a conversion tells of each channel; all 0 but the mark where it has no samples. */
typedef struct puigneht_stats {
    uint64_t clipped[PUIGNEHT_MOST_CHANNELS];                                /* samples */
    int64_t lowest[PUIGNEHT_MOST_CHANNELS], highest[PUIGNEHT_MOST_CHANNELS]; /* before the clamp */
    uint64_t empty[PUIGNEHT_MOST_CHANNELS]; /* the mark: 1 where there are no samples, else 0 */
    uint64_t made; /* PUIGNEHT_MADE from puigneht_no_stats and accepted conversions. The proved calls do not know it. */
} puigneht_stats;
#define PUIGNEHT_MADE UINT64_C(0x707569676e656874)

/* What a DSF file holds. */
typedef struct puigneht_dsf {
    uint64_t channel_type, channels;
    uint64_t bits_per_sample; /* 1: lowest bit first, 8: highest */
    uint64_t samples;         /* one-bit samples of a channel */
    uint64_t frames;          /* the last perhaps short */
} puigneht_dsf;

/* A stretch of bytes. */
typedef struct puigneht_stretch {
    uint64_t begin, end;
} puigneht_stretch;

/* What a WAV file holds: `length` sample bytes from byte `begin` on. */
typedef struct puigneht_wav {
    uint64_t rate, channels, begin, length;
} puigneht_wav;

/* The overs of a channel, and what is in progress behind the samples counted: 0 no end of full scale, 1 the high, 2 the
 * low one, and how many samples stand there, at most 3. */
typedef struct puigneht_over {
    uint64_t overs, end, length;
} puigneht_over;

/* What is in progress in a channel: an end and a length as above. */
typedef struct puigneht_standing {
    uint64_t end, length;
} puigneht_standing;

/* A frame in the level report, and what is in progress behind it: all zeros before the first. */
typedef struct puigneht_levels {
    puigneht_standing standings[PUIGNEHT_MOST_CHANNELS];
    uint64_t length;  /* of the lines */
    uint64_t clipped; /* samples of all channels */
    uint8_t lines[PUIGNEHT_LINES_ROOM];
    int32_t samples[PUIGNEHT_MOST_SAMPLES]; /* the frame's, the channels in turn */
} puigneht_levels;

PUIGNEHT_HOLDS_(sizeof(double) == 8, "a double has 64 bits");
PUIGNEHT_HOLDS_(sizeof(puigneht_gain_record) == 16, "two floats");
PUIGNEHT_HOLDS_(sizeof(puigneht_numbers) == 64 && offsetof(puigneht_numbers, own) == 24 &&
                    offsetof(puigneht_numbers, frame_bytes) == 56,
                "eight numbers");
PUIGNEHT_HOLDS_(offsetof(puigneht_stats, lowest) == 48 && offsetof(puigneht_stats, highest) == 96 &&
                    offsetof(puigneht_stats, empty) == 144 && offsetof(puigneht_stats, made) == 192,
                "24 numbers, six of each kind");
PUIGNEHT_HOLDS_(offsetof(puigneht_converter, gain) == 64 && offsetof(puigneht_converter, taps) == 80, "a converter");
PUIGNEHT_HOLDS_(sizeof(puigneht_refusal) == 88 && offsetof(puigneht_refusal, decibels) == 16 &&
                    offsetof(puigneht_refusal, field) == 24 && offsetof(puigneht_refusal, rate) == 48 &&
                    offsetof(puigneht_refusal, cutoff) == 56 && offsetof(puigneht_refusal, channels) == 64 &&
                    offsetof(puigneht_refusal, length) == 72 && offsetof(puigneht_refusal, call) == 80 &&
                    offsetof(puigneht_refusal, number) == 81 && offsetof(puigneht_refusal, track) == 82,
                "a refusal, as bindings/rust has it, too");
PUIGNEHT_HOLDS_(sizeof(puigneht_dsf) == 40 && sizeof(puigneht_wav) == 32 && sizeof(puigneht_stretch) == 16 &&
                    sizeof(puigneht_over) == 24 && sizeof(puigneht_field) == 24 && sizeof(puigneht_standing) == 16,
                "as many numbers as the calls write");

/* ---- the proved calls. `presence` is 1 for a frame before + 2 for a frame after + 4 for a list of counts. */

uint8_t puigneht_gain_call(double db, puigneht_gain_record *gain, double *decibels);
uint8_t puigneht_open_call(puigneht_numbers *numbers, const puigneht_gain_record *gain,
                           const int32_t taps[PUIGNEHT_MOST_TAPS], uint64_t data[2], double *decibels);
uint8_t puigneht_change_call(puigneht_numbers *numbers, puigneht_gain_record *gain,
                             const int32_t taps[PUIGNEHT_MOST_TAPS], uint64_t rate, uint64_t cutoff,
                             const puigneht_gain_record *wanted, uint64_t data[2], double *decibels);

typedef uint8_t puigneht_samples_call_(const puigneht_numbers *numbers, const puigneht_gain_record *gain,
                                       const int32_t taps[PUIGNEHT_MOST_TAPS], uint8_t presence, const uint8_t *before,
                                       size_t before_len, const uint8_t *frames, size_t frames_len,
                                       const uint8_t *after, size_t after_len, int32_t *out, size_t out_len,
                                       puigneht_stats *stats, uint64_t data[2], double *decibels);
typedef uint8_t puigneht_bytes_call_(const puigneht_numbers *numbers, const puigneht_gain_record *gain,
                                     const int32_t taps[PUIGNEHT_MOST_TAPS], uint8_t presence, const uint8_t *before,
                                     size_t before_len, const uint8_t *frames, size_t frames_len, const uint8_t *after,
                                     size_t after_len, uint8_t *out, size_t out_len, uint64_t *counts,
                                     size_t counts_len, puigneht_stats *stats, uint64_t data[2], double *decibels);
puigneht_samples_call_ puigneht_convert_run_call, puigneht_convert_frame_call;
puigneht_bytes_call_ puigneht_convert_call, puigneht_convert_desk_call, puigneht_wav_convert_call;

void puigneht_pack_s24le_call(const int32_t *samples, size_t samples_len, uint8_t *bytes, size_t bytes_len);

uint8_t puigneht_join_stats_call(puigneht_stats *stats, const puigneht_stats *more);
uint8_t puigneht_level_sheet_call(uint8_t channels, const puigneht_stats *stats, uint8_t *out, size_t out_len,
                                  uint64_t data[2]);
uint8_t puigneht_overs_call(const int32_t *samples, size_t samples_len, size_t channels, size_t channel,
                            puigneht_over *told);
/* Of one frame; `told` is the length of its lines and its clipped samples. */
uint8_t puigneht_frame_levels_call(const puigneht_numbers *numbers, const puigneht_gain_record *gain,
                                   const int32_t taps[PUIGNEHT_MOST_TAPS], uint8_t presence, const uint8_t *before,
                                   size_t before_len, const uint8_t *frames, size_t frames_len, const uint8_t *after,
                                   size_t after_len, uint64_t frame, puigneht_standing *standings, int32_t *samples,
                                   size_t samples_len, uint8_t *lines, size_t lines_len, uint64_t told[2],
                                   uint64_t data[2], double *decibels);
size_t puigneht_last_line_call(uint64_t frames, uint64_t clipped, uint8_t line[PUIGNEHT_LAST_LINE_ROOM]);
uint8_t puigneht_turns_call(const uint64_t *frames, size_t frames_len, const uint64_t *dues, size_t dues_len,
                            uint64_t turn, uint64_t *finishes, size_t finishes_len, int32_t *late, size_t late_len);

uint8_t puigneht_dsf_read_call(const uint8_t *file, size_t file_len, puigneht_dsf *dsf, uint64_t data[2]);
uint8_t puigneht_dsf_read_header_call(const uint8_t *head, size_t head_len, uint64_t length, puigneht_dsf *dsf,
                                      uint64_t data[2]);
uint8_t puigneht_dsf_why_call(const uint8_t *head, size_t head_len, uint64_t length, puigneht_field *field);
void puigneht_dsf_window_call(uint64_t channels, uint64_t samples, uint64_t frame, puigneht_stretch *window);
uint8_t puigneht_dsf_window_frame_call(const uint8_t *head, size_t head_len, uint64_t length, uint64_t frame,
                                       const uint8_t *window, size_t window_len, uint64_t start, uint8_t *out,
                                       size_t out_len, uint64_t data[2]);
uint8_t puigneht_dsf_frame_call(const uint8_t *file, size_t file_len, uint64_t frame, uint8_t *out, size_t out_len,
                                uint64_t data[2]);
uint8_t puigneht_dsf_write_call(uint8_t channels, const uint8_t *frames, size_t frames_len, uint8_t *out,
                                size_t out_len, uint64_t data[2]);
uint8_t puigneht_dsf_head_call(uint8_t channels, size_t bytes, uint8_t head[PUIGNEHT_DSF_HEADER], uint64_t data[2]);
uint8_t puigneht_dsf_lay_out_call(uint8_t channels, const uint8_t *frames, size_t frames_len, uint8_t *out,
                                  size_t out_len, uint64_t data[2]);
uint8_t puigneht_dsf_length_call(uint8_t channels, size_t bytes, uint64_t *size, uint64_t data[2]);
uint8_t puigneht_dsf_give_up_call(const uint8_t *file, size_t file_len, uint64_t *place);
uint8_t puigneht_dsf_give_up_header_call(const uint8_t *head, size_t head_len, uint64_t length, uint64_t *place);

uint8_t puigneht_wav_read_call(const uint8_t *file, size_t file_len, puigneht_wav *wav);
uint8_t puigneht_wav_write_call(uint64_t rate, uint8_t channels, const uint8_t *bytes, size_t bytes_len, uint8_t *out,
                                size_t out_len, uint64_t data[2]);
uint8_t puigneht_wav_header_call(uint64_t rate, uint8_t channels, uint64_t bytes, uint8_t out[PUIGNEHT_WAV_HEADER]);

/* ---- what the calls below share */

#ifdef __cplusplus
#define PUIGNEHT_BYTES_(text) reinterpret_cast<uint8_t *>(text)
#else
#define PUIGNEHT_BYTES_(text) ((uint8_t *)(text))
#endif

/* Converter and run as a conversion takes them. A neighbour without a pointer has no bytes. */
#define PUIGNEHT_OF_(c, run, counts)                                                                                   \
    &(c)->numbers, &(c)->gain, (c)->taps, PUIGNEHT_AS_(uint8_t, puigneht_presence_(run) + (counts)), (run)->before,    \
        (run)->before ? (run)->before_len : 0, (run)->frames, (run)->frames_len, (run)->after,                         \
        (run)->after ? (run)->after_len : 0

/* The refusal that a call writes: the caller's, or a spare one. */
static inline puigneht_refusal *puigneht_begin_(puigneht_refusal *wanted, puigneht_refusal *spare, uint8_t call,
                                                uint64_t length) {
    puigneht_refusal *r = wanted ? wanted : spare;
    memset(r, 0, sizeof *r);
    r->call = call;
    r->length = length;
    return r;
}

/* Notes what the call was made with, and gives its answer. */
static inline uint8_t puigneht_told_(puigneht_refusal *r, uint64_t rate, uint64_t cutoff, uint64_t channels,
                                     uint8_t number) {
    r->rate = rate;
    r->cutoff = cutoff;
    r->channels = channels;
    return r->number = number;
}

/* The number of channels as the calls take it that take a byte: 255 stands for all larger ones, which are refused like
 * it. */
static inline uint8_t puigneht_channels_(uint64_t channels) {
    return channels < 255 ? PUIGNEHT_AS_(uint8_t, channels) : PUIGNEHT_AS_(uint8_t, 255);
}

/* ---- gain and converter */

/* What a converter is opened with. */
typedef struct puigneht_settings {
    uint32_t rate;       /* 88200, 176400 or 352800 */
    uint32_t cutoff;     /* PUIGNEHT_STANDARD, _LOW or _WIDE */
    uint32_t channels;   /* 1 to 6 */
    double decibels;     /* -120 to 24 */
    const int32_t *taps; /* a low-pass of the caller's own for Standard, which is copied; NULL: the built-in one */
    size_t taps_len;     /* 1 to PUIGNEHT_MOST_TAPS from the centre outwards, as from a filter whose taps sum to 2^24 */
} puigneht_settings;

/* 88200, Standard, two channels, 0 dB, the built-in low-pass. */
static inline puigneht_settings puigneht_default_settings(void) {
    puigneht_settings s;
    memset(&s, 0, sizeof s);
    s.rate = 88200;
    s.channels = 2;
    return s;
}

/* The gain of some decibels. Refused 3. */
PUIGNEHT_LOOK_ static inline uint8_t puigneht_gain(double decibels, puigneht_gain_record *gain,
                                                   puigneht_refusal *refusal) {
    puigneht_refusal spare, *r = puigneht_begin_(refusal, &spare, PUIGNEHT_CALL_GAIN, 0);
    return r->number = puigneht_gain_call(decibels, gain, &r->decibels);
}

/* The numbers and taps of some settings, without a gain. */
static inline puigneht_converter puigneht_settled_(const puigneht_settings *settings) {
    puigneht_converter c;
    size_t held =
        settings->taps_len < PUIGNEHT_MOST_TAPS ? settings->taps_len : PUIGNEHT_AS_(size_t, PUIGNEHT_MOST_TAPS);
    memset(&c, 0, sizeof c);
    c.numbers.rate = settings->rate;
    c.numbers.cutoff = settings->cutoff;
    c.numbers.channels = settings->channels;
    c.numbers.own = settings->taps || settings->taps_len ? 1 : 0;
    c.numbers.taps = settings->taps ? settings->taps_len : 0;
    if (settings->taps) memcpy(c.taps, settings->taps, held * sizeof *c.taps);
    return c;
}

/* Opens a converter: its gain is made, and then the settings are tried. Refused 3 for the gain; then 1, 2, 17, 18. A
 * filter is tried under every cutoff, also where Low and Wide do not use it. */
PUIGNEHT_LOOK_ static inline uint8_t puigneht_open(puigneht_converter *converter, const puigneht_settings *settings,
                                                   puigneht_refusal *refusal) {
    puigneht_refusal spare,
        *r = puigneht_begin_(refusal, &spare, PUIGNEHT_CALL_OPEN, settings->taps ? settings->taps_len : 0);
    puigneht_converter c = puigneht_settled_(settings);
    uint8_t number = puigneht_gain_call(settings->decibels, &c.gain, &r->decibels);
    if (number == PUIGNEHT_ACCEPTED) number = puigneht_open_call(&c.numbers, &c.gain, c.taps, r->data, &r->decibels);
    if (number == PUIGNEHT_ACCEPTED) *converter = c;
    return puigneht_told_(r, settings->rate, settings->cutoff, settings->channels, number);
}

/* Turns an open converter to another rate, cutoff and gain; its channels and filter stay. Refused 3 for the gain; then
 * the converter as it is held, as in a conversion; then 2. Refused, it is as it was. */
PUIGNEHT_LOOK_ static inline uint8_t puigneht_change(puigneht_converter *converter, uint32_t rate, uint32_t cutoff,
                                                     double decibels, puigneht_refusal *refusal) {
    puigneht_refusal spare, *r = puigneht_begin_(refusal, &spare, PUIGNEHT_CALL_CHANGE, converter->numbers.taps);
    puigneht_gain_record wanted;
    uint8_t number = puigneht_gain_call(decibels, &wanted, &r->decibels);
    if (number == PUIGNEHT_ACCEPTED)
        number = puigneht_change_call(&converter->numbers, &converter->gain, converter->taps, rate, cutoff, &wanted,
                                      r->data, &r->decibels);
    return puigneht_told_(r, rate, cutoff, converter->numbers.channels, number);
}

/* The samples over all channels that an open converter makes of some frames, and their packed bytes. */
static inline size_t puigneht_samples_of(const puigneht_converter *c, size_t frames) {
    return frames * PUIGNEHT_AS_(size_t, c->numbers.samples_per_frame * c->numbers.channels);
}
static inline size_t puigneht_bytes_of(const puigneht_converter *c, size_t frames) {
    return 3 * puigneht_samples_of(c, frames);
}

/* ---- runs */

/* Whole frames and the frames next to them; NULL with 0 bytes where there is none, which counts as a frame of 0x69.
 * puigneht_cut makes it, and nobody initializes it by hand: what it holds cannot be written afterwards, but an
 * initializer could say anything. */
typedef struct puigneht_run {
    const uint8_t *const before;
    const size_t before_len;
    const uint8_t *const frames;
    const size_t frames_len;
    const uint8_t *const after;
    const size_t after_len;
} puigneht_run;

/* `count` frames from frame `first` on, out of `bytes` bytes of frames that follow each other, with the frames next to
 * them. Here the neighbours are chosen, so no caller chooses them: `frames` is the whole stretch with the frames before
 * and after the piece (an album, or a part of one that goes a frame further on either side), and not the piece alone,
 * which would be cut as if there were nothing beside it. Frames that are not there are left out; NULL frames are 0
 * bytes. Bytes past the last whole frame go into every run, which is then refused 4. */
static inline puigneht_run puigneht_cut(const puigneht_converter *c, const uint8_t *frames, size_t bytes, size_t first,
                                        size_t count) {
    const size_t size = c->numbers.frame_bytes ? PUIGNEHT_AS_(size_t, c->numbers.frame_bytes) : 1;
    const size_t held = frames ? bytes : 0, all = held / size;
    const size_t begin = first < all ? first : all, end = count < all - begin ? begin + count : all;
    const puigneht_run run = {begin ? frames + (begin - 1) * size : PUIGNEHT_NULL_, begin ? size : 0,
                              frames ? frames + begin * size : PUIGNEHT_NULL_,      (end - begin) * size + held % size,
                              end < all ? frames + end * size : PUIGNEHT_NULL_,     end < all ? size : 0};
    return run;
}

/* How many whole frames a run has. */
static inline size_t puigneht_frames_of(const puigneht_converter *c, const puigneht_run *run) {
    return c->numbers.frame_bytes ? run->frames_len / PUIGNEHT_AS_(size_t, c->numbers.frame_bytes) : 0;
}

/* What is there beside the frames. NULL with a length is a list that is there and has no items, so it is refused. */
static inline uint8_t puigneht_presence_(const puigneht_run *run) {
    return PUIGNEHT_AS_(uint8_t, (run->before || run->before_len ? 1 : 0) + (run->after || run->after_len ? 2 : 0));
}

/* ---- statistics */

/* Those of no samples: where joining starts. */
static inline puigneht_stats puigneht_no_stats(void) {
    puigneht_stats s;
    int c;
    memset(&s, 0, sizeof s);
    for (c = 0; c < PUIGNEHT_MOST_CHANNELS; c++) s.empty[c] = 1;
    s.made = PUIGNEHT_MADE;
    return s;
}

/* Makes `stats` those of both stretches: clips added, held at 2^64 - 1; the lowest and the highest of those that have
 * samples; the mark where neither has. Joined in whatever order, the pieces of a run have the run's own statistics. Not
 * understood, and kept, where one of the two was not made by puigneht_no_stats or an accepted conversion, as records of
 * zeros are not. */
PUIGNEHT_LOOK_ static inline uint8_t puigneht_join_stats(puigneht_stats *stats, const puigneht_stats *more) {
    if (stats->made != PUIGNEHT_MADE || more->made != PUIGNEHT_MADE) return PUIGNEHT_NOT_UNDERSTOOD;
    return puigneht_join_stats_call(stats, more);
}

/* The level sheet for the sleeve, with a zero byte behind it: a line of PUIGNEHT_SHEET_LINE bytes for each of
 * `channels` channels and one more, so PUIGNEHT_SHEET_ROOM holds each. A line has the channel in 4 characters, its
 * clips in 14, and its lowest and highest sample before the clamp in 12 each, or hyphens where the mark is 1; the last
 * line has the clips of these channels summed. Refused 1; 7, of the bytes without the zero; 20. */
PUIGNEHT_LOOK_ static inline uint8_t puigneht_level_sheet(const puigneht_stats *stats, uint64_t channels, char *text,
                                                          size_t room, puigneht_refusal *refusal) {
    puigneht_refusal spare, *r = puigneht_begin_(refusal, &spare, PUIGNEHT_CALL_LEVEL_SHEET, room);
    const size_t needed =
        PUIGNEHT_AS_(size_t, PUIGNEHT_SHEET_LINE) * (PUIGNEHT_AS_(size_t, puigneht_channels_(channels)) + 1);
    const size_t length = room > needed ? needed : room ? room - 1 : 0;
    uint8_t number = PUIGNEHT_NOT_UNDERSTOOD, *out = PUIGNEHT_BYTES_(text);
    if (stats->made == PUIGNEHT_MADE)
        number = puigneht_level_sheet_call(puigneht_channels_(channels), stats, out, length, r->data);
    if (number == PUIGNEHT_ACCEPTED) text[length] = 0;
    return puigneht_told_(r, 0, 0, channels, number);
}

/* ---- conversions: a converter, a run, what is written, and what is told.
 * Refused as the converter is, by 1, 2, 3, 17, 18, 15; then for the lengths: the run's 4 and 5, `before` 13, `after`
 * 14, the output's 6 or 7, counts 8. */

/* Notes whom a conversion was for, and marks statistics that it made. */
static inline uint8_t puigneht_converted_(puigneht_refusal *r, const puigneht_converter *c, puigneht_stats *stats,
                                          uint8_t number) {
    if (number == PUIGNEHT_ACCEPTED) stats->made = PUIGNEHT_MADE;
    return puigneht_told_(r, c->numbers.rate, c->numbers.cutoff, c->numbers.channels, number);
}

/* 32-bit samples of a run, the channels in turn. `out` has a sample for each of the run. */
PUIGNEHT_LOOK_ static inline uint8_t puigneht_convert_run(const puigneht_converter *c, const puigneht_run *run,
                                                          int32_t *out, size_t out_len, puigneht_stats *stats,
                                                          puigneht_refusal *refusal) {
    puigneht_refusal spare, *r = puigneht_begin_(refusal, &spare, PUIGNEHT_CALL_CONVERT_RUN, run->frames_len);
    puigneht_stats unwanted, *s = stats ? stats : &unwanted;
    return puigneht_converted_(
        r, c, s, puigneht_convert_run_call(PUIGNEHT_OF_(c, run, 0), out, out_len, s, r->data, &r->decibels));
}

/* 32-bit samples of exactly one frame: another run is refused 4, before the other lengths. */
PUIGNEHT_LOOK_ static inline uint8_t puigneht_convert_frame(const puigneht_converter *c, const puigneht_run *run,
                                                            int32_t *out, size_t out_len, puigneht_stats *stats,
                                                            puigneht_refusal *refusal) {
    puigneht_refusal spare, *r = puigneht_begin_(refusal, &spare, PUIGNEHT_CALL_CONVERT_FRAME, run->frames_len);
    puigneht_stats unwanted, *s = stats ? stats : &unwanted;
    return puigneht_converted_(
        r, c, s, puigneht_convert_frame_call(PUIGNEHT_OF_(c, run, 0), out, out_len, s, r->data, &r->decibels));
}

/* Where packed samples go, and the clipped samples of each frame over all channels. */
typedef struct puigneht_packed {
    uint8_t *bytes;
    size_t bytes_len;
    uint64_t *counts; /* NULL: not wanted */
    size_t counts_len;
} puigneht_packed;

/* Bytes alone; bytes and counts. */
static inline puigneht_packed puigneht_counted(uint8_t *bytes, size_t bytes_len, uint64_t *counts, size_t counts_len) {
    puigneht_packed p;
    p.bytes = bytes;
    p.bytes_len = bytes_len;
    p.counts = counts;
    p.counts_len = counts_len;
    return p;
}
static inline puigneht_packed puigneht_into(uint8_t *bytes, size_t bytes_len) {
    return puigneht_counted(bytes, bytes_len, PUIGNEHT_NULL_, 0);
}

/* Whether counts are wanted. */
static inline uint8_t puigneht_counts_(const puigneht_packed *out) {
    return out->counts || out->counts_len ? 4 : 0;
}

/* One of the three conversions to bytes. */
PUIGNEHT_LOOK_ static inline uint8_t puigneht_pack_(puigneht_bytes_call_ *call, const puigneht_converter *c,
                                                    const puigneht_run *run, const puigneht_packed *out,
                                                    puigneht_stats *stats, puigneht_refusal *r) {
    puigneht_stats unwanted, *s = stats ? stats : &unwanted;
    return puigneht_converted_(r, c, s,
                               call(PUIGNEHT_OF_(c, run, puigneht_counts_(out)), out->bytes, out->bytes_len,
                                    out->counts, out->counts ? out->counts_len : 0, s, r->data, &r->decibels));
}

/* Samples of a run packed in three bytes each, least first: `out` has three bytes for each sample of the run. */
PUIGNEHT_LOOK_ static inline uint8_t puigneht_convert(const puigneht_converter *c, const puigneht_run *run,
                                                      const puigneht_packed *out, puigneht_stats *stats,
                                                      puigneht_refusal *refusal) {
    puigneht_refusal spare, *r = puigneht_begin_(refusal, &spare, PUIGNEHT_CALL_CONVERT, run->frames_len);
    return puigneht_pack_(puigneht_convert_call, c, run, out, stats, r);
}

/* For the listening desk: puigneht_convert of at most PUIGNEHT_DESK_FRAMES frames; more are refused 16, in the place
 * of 5. */
PUIGNEHT_LOOK_ static inline uint8_t puigneht_convert_desk(const puigneht_converter *c, const puigneht_run *run,
                                                           const puigneht_packed *out, puigneht_stats *stats,
                                                           puigneht_refusal *refusal) {
    puigneht_refusal spare, *r = puigneht_begin_(refusal, &spare, PUIGNEHT_CALL_CONVERT_DESK, run->frames_len);
    return puigneht_pack_(puigneht_convert_desk_call, c, run, out, stats, r);
}

/* A run as a WAV file: puigneht_convert with the header in front, so `out` has PUIGNEHT_WAV_HEADER bytes more. Refused
 * 12 after all else for more than two channels or for more than PUIGNEHT_WAV_MOST_DATA bytes. */
PUIGNEHT_LOOK_ static inline uint8_t puigneht_wav_convert(const puigneht_converter *c, const puigneht_run *run,
                                                          const puigneht_packed *out, puigneht_stats *stats,
                                                          puigneht_refusal *refusal) {
    puigneht_refusal spare, *r = puigneht_begin_(refusal, &spare, PUIGNEHT_CALL_WAV_CONVERT, run->frames_len);
    return puigneht_pack_(puigneht_wav_convert_call, c, run, out, stats, r);
}

/* 32-bit samples as three bytes each, their low 24 bits, least first: as many as there are bytes for. Later bytes are
 * kept. */
static inline void puigneht_pack_s24le(const int32_t *samples, size_t samples_len, uint8_t *bytes, size_t bytes_len) {
    puigneht_pack_s24le_call(samples, samples_len, bytes, bytes_len);
}

/* Packed samples as 32-bit ones, as many as there are whole ones and room for. */
static inline void puigneht_unpack_s24le(const uint8_t *bytes, size_t bytes_len, int32_t *samples, size_t samples_len) {
    size_t k;
    for (k = 0; k < samples_len && k < bytes_len / 3; k++) {
        const int32_t low = bytes[3 * k] + 256 * bytes[3 * k + 1], high = bytes[3 * k + 2];
        samples[k] = low + 65536 * (high < 128 ? high : high - 256);
    }
}

/* ---- overs by the studio rule */

/* The overs of each channel: all zeros at an album's start. */
typedef struct puigneht_overs {
    puigneht_over of[PUIGNEHT_MOST_CHANNELS];
} puigneht_overs;

/* Adds the overs of some samples, the channels in turn, to those of the samples before them. A run of three or more
 * samples at one end of full scale, clipped or not, as long as it can be, is one over, counted at its third sample;
 * where the samples are cut makes no difference.
 *
 * What is in progress at a place depends on the last three samples of each channel before it alone. So threads may
 * count pieces in any order: each counts those three in a record of zeros, takes the record by
 * puigneht_overs_from_here, counts its piece, and the overs are added up.
 *
 * Not understood, and kept: channels that are not 1 to 6, samples that are not whole turns of the channels, an end that
 * is not 0, 1 or 2. */
PUIGNEHT_LOOK_ static inline uint8_t puigneht_count_overs(puigneht_overs *overs, uint64_t channels,
                                                          const int32_t *samples, size_t samples_len) {
    puigneht_overs counted = *overs;
    size_t c;
    if (channels < 1 || channels > PUIGNEHT_MOST_CHANNELS || samples_len % channels) return PUIGNEHT_NOT_UNDERSTOOD;
    for (c = 0; c < channels; c++) {
        if (puigneht_overs_call(samples, samples_len, PUIGNEHT_AS_(size_t, channels), c, &counted.of[c]))
            return PUIGNEHT_NOT_UNDERSTOOD;
        counted.of[c].overs += overs->of[c].overs;
    }
    *overs = counted;
    return PUIGNEHT_ACCEPTED;
}

/* What is in progress, without the overs so far. */
static inline puigneht_overs puigneht_overs_from_here(const puigneht_overs *overs) {
    puigneht_overs from = *overs;
    int c;
    for (c = 0; c < PUIGNEHT_MOST_CHANNELS; c++) from.of[c].overs = 0;
    return from;
}

/* ---- the level report */

/* The lines of exactly one frame, under the number that it is given, from what is in progress before it: for each
 * channel `frame N channel C clipped K low L high H over O`, its clipped samples, its lowest and highest sample, and
 * the overs whose third sample falls in it. With the numbers from 0, and `levels` going from frame to frame, the lines
 * of an album's frames and the last line are its level report.
 *
 * What is in progress behind a frame depends on the frame with its neighbours, and not on what was in progress before
 * it. So whoever begins at frame N tells frame N - 1 first, from zeros, and leaves its lines.
 *
 * Refused as puigneht_convert_frame. Not understood for an end that is not 0, 1 or 2. */
PUIGNEHT_LOOK_ static inline uint8_t puigneht_frame_levels(const puigneht_converter *c, const puigneht_run *run,
                                                           uint64_t frame, puigneht_levels *levels,
                                                           puigneht_refusal *refusal) {
    puigneht_refusal spare, *r = puigneht_begin_(refusal, &spare, PUIGNEHT_CALL_FRAME_LEVELS, run->frames_len);
    uint64_t told[2] = {0, 0};
    const uint8_t number = puigneht_frame_levels_call(
        PUIGNEHT_OF_(c, run, 0), frame, levels->standings, levels->samples, puigneht_samples_of(c, 1), levels->lines,
        PUIGNEHT_LINES_ROOM, told, r->data, &r->decibels);
    if (number == PUIGNEHT_ACCEPTED) {
        levels->length = told[0];
        levels->clipped = told[1];
    }
    return puigneht_told_(r, c->numbers.rate, c->numbers.cutoff, c->numbers.channels, number);
}

/* The report's last line, `frames N clipped M`; gives its length. */
static inline size_t puigneht_last_line(uint64_t frames, uint64_t clipped, uint8_t line[PUIGNEHT_LAST_LINE_ROOM]) {
    return puigneht_last_line_call(frames, clipped, line);
}

/* ---- turns on one board */

/* Up to 8 albums of 1 to 540000 frames, due after turn 0 to 1000000. */
typedef struct puigneht_board {
    size_t albums;
    uint64_t frames[PUIGNEHT_MOST_ALBUMS], dues[PUIGNEHT_MOST_ALBUMS];
    uint64_t finishes[PUIGNEHT_MOST_ALBUMS]; /* written: the turn in which it finishes, counted from 1 */
    int32_t late[PUIGNEHT_MOST_ALBUMS];      /* written: finish minus due */
} puigneht_board;

/* Gives the board out in turns of `turn` frames (1 to 540000): each goes to the unfinished album that is due first, on
 * a tie to the lower number. Refused 19 for a number outside its range. */
PUIGNEHT_LOOK_ static inline uint8_t puigneht_turns(puigneht_board *board, uint64_t turn, puigneht_refusal *refusal) {
    puigneht_refusal spare, *r = puigneht_begin_(refusal, &spare, PUIGNEHT_CALL_TURNS, board->albums);
    const size_t n =
        board->albums <= PUIGNEHT_MOST_ALBUMS ? board->albums : 0; /* no album is refused as too many are */
    return r->number = puigneht_turns_call(board->frames, n, board->dues, n, turn, board->finishes, n, board->late, n);
}

/* ---- DSF files */

/* What is wrong with a file that was refused. */
static inline uint8_t puigneht_dsf_told_(puigneht_refusal *r, const uint8_t *head, size_t head_len, uint8_t number) {
    if (number >= PUIGNEHT_REFUSED_NOT_DSF && number <= PUIGNEHT_REFUSED_DSF_LENGTH)
        (void)puigneht_dsf_why_call(head, head_len, r->length, &r->field);
    return r->number = number;
}

/* What a file holds, from its first 92 bytes (or more) and its length. Refused 9, 10, 11; fewer than 92 bytes 9. */
PUIGNEHT_LOOK_ static inline uint8_t puigneht_dsf_read_header(const uint8_t *head, size_t head_len, uint64_t length,
                                                              puigneht_dsf *dsf, puigneht_refusal *refusal) {
    puigneht_refusal spare, *r = puigneht_begin_(refusal, &spare, PUIGNEHT_CALL_DSF_READ, length);
    return puigneht_dsf_told_(r, head, head_len, puigneht_dsf_read_header_call(head, head_len, length, dsf, r->data));
}

/* What a whole file holds. */
PUIGNEHT_LOOK_ static inline uint8_t puigneht_dsf_read(const uint8_t *file, size_t file_len, puigneht_dsf *dsf,
                                                       puigneht_refusal *refusal) {
    puigneht_refusal spare, *r = puigneht_begin_(refusal, &spare, PUIGNEHT_CALL_DSF_READ, file_len);
    return puigneht_dsf_told_(r, file, file_len, puigneht_dsf_read_call(file, file_len, dsf, r->data));
}

/* Frame number `frame` (from 0) of a whole file, in the layout of the conversions; a short last one is filled with
 * 0x69. `out` has PUIGNEHT_CHANNEL_BYTES bytes a channel. Refused 9, 10, 11; then 5; then 7. */
PUIGNEHT_LOOK_ static inline uint8_t puigneht_dsf_frame(const uint8_t *file, size_t file_len, uint64_t frame,
                                                        uint8_t *out, size_t out_len, puigneht_refusal *refusal) {
    puigneht_refusal spare, *r = puigneht_begin_(refusal, &spare, PUIGNEHT_CALL_DSF_FRAME, file_len);
    return puigneht_dsf_told_(r, file, file_len, puigneht_dsf_frame_call(file, file_len, frame, out, out_len, r->data));
}

/* What to read for a frame, from byte PUIGNEHT_DSF_HEADER of the file on, so that a file need not be held whole; 0 and
 * 0 where there is no such frame, or more than 6 channels. */
static inline puigneht_stretch puigneht_dsf_window(const puigneht_dsf *dsf, uint64_t frame) {
    puigneht_stretch s;
    puigneht_dsf_window_call(dsf->channels, dsf->samples, frame, &s);
    return s;
}

/* A part of a file: its first 92 bytes, its length, and bytes of its data from `start` on (byte 0 is byte
 * PUIGNEHT_DSF_HEADER of the file). It may serve several frames: each whose stretch lies in it. */
typedef struct puigneht_dsf_part {
    const uint8_t *head;
    size_t head_len;
    uint64_t length;
    const uint8_t *window;
    size_t window_len;
    uint64_t start;
} puigneht_dsf_part;

/* puigneht_dsf_frame out of a part. Refused 9, 10, 11; then 5; then 11 where the part does not hold the frame; then 7.
 */
PUIGNEHT_LOOK_ static inline uint8_t puigneht_dsf_window_frame(const puigneht_dsf_part *part, uint64_t frame,
                                                               uint8_t *out, size_t out_len,
                                                               puigneht_refusal *refusal) {
    puigneht_refusal spare, *r = puigneht_begin_(refusal, &spare, PUIGNEHT_CALL_DSF_WINDOW_FRAME, part->length);
    return puigneht_dsf_told_(r, part->head, part->head_len,
                              puigneht_dsf_window_frame_call(part->head, part->head_len, part->length, frame,
                                                             part->window, part->window_len, part->start, out, out_len,
                                                             r->data));
}

/* The DSF file of whole frames: lowest bit first, channel type 1, 2, 3, 4, 6 or 7, no metadata, zero bytes to the end
 * of the last blocks. `out` has the length that puigneht_dsf_length tells. Refused 1; 4 (kind 0); 5; then 7. */
PUIGNEHT_LOOK_ static inline uint8_t puigneht_dsf_write(uint64_t channels, const uint8_t *frames, size_t frames_len,
                                                        uint8_t *out, size_t out_len, puigneht_refusal *refusal) {
    puigneht_refusal spare, *r = puigneht_begin_(refusal, &spare, PUIGNEHT_CALL_DSF_WRITE, frames_len);
    return puigneht_told_(
        r, 0, 0, channels,
        puigneht_dsf_write_call(puigneht_channels_(channels), frames, frames_len, out, out_len, r->data));
}

/* The same file in parts, so that nobody holds it in memory: its first bytes, for `frames_len` bytes of frames; and the
 * data of some frames, which are PUIGNEHT_DSF_HEADER bytes fewer than puigneht_dsf_length tells of them. The header and
 * the data of stretches of PUIGNEHT_STRETCH_FRAMES frames (or a multiple; the last of as many as are left), end to end,
 * are the file. Refused as it, by 1, 4, 5; the data then 7. */
enum { PUIGNEHT_STRETCH_FRAMES = 128, PUIGNEHT_STRETCH_BYTES = 147 * 4096 /* of a channel, and of its blocks */ };
PUIGNEHT_LOOK_ static inline uint8_t puigneht_dsf_head(uint64_t channels, size_t frames_len,
                                                       uint8_t head[PUIGNEHT_DSF_HEADER], puigneht_refusal *refusal) {
    puigneht_refusal spare, *r = puigneht_begin_(refusal, &spare, PUIGNEHT_CALL_DSF_WRITE, frames_len);
    return puigneht_told_(r, 0, 0, channels,
                          puigneht_dsf_head_call(puigneht_channels_(channels), frames_len, head, r->data));
}
PUIGNEHT_LOOK_ static inline uint8_t puigneht_dsf_lay_out(uint64_t channels, const uint8_t *frames, size_t frames_len,
                                                          uint8_t *out, size_t out_len, puigneht_refusal *refusal) {
    puigneht_refusal spare, *r = puigneht_begin_(refusal, &spare, PUIGNEHT_CALL_DSF_WRITE, frames_len);
    return puigneht_told_(
        r, 0, 0, channels,
        puigneht_dsf_lay_out_call(puigneht_channels_(channels), frames, frames_len, out, out_len, r->data));
}

/* The length of that file for `frames_len` bytes of frames. Refused 1, 4, 5. */
PUIGNEHT_LOOK_ static inline uint8_t puigneht_dsf_length(uint64_t channels, size_t frames_len, uint64_t *length,
                                                         puigneht_refusal *refusal) {
    puigneht_refusal spare, *r = puigneht_begin_(refusal, &spare, PUIGNEHT_CALL_DSF_WRITE, frames_len);
    return puigneht_told_(r, 0, 0, channels,
                          puigneht_dsf_length_call(puigneht_channels_(channels), frames_len, length, r->data));
}

enum { PUIGNEHT_UPLOAD_ACCEPTED = 0, PUIGNEHT_UPLOAD_UNFINISHED = 1, PUIGNEHT_UPLOAD_GIVE_UP = 2 };

/* How early an upload can be given up: accepted; refused, but it may yet be continued to an accepted one; or to be
 * given up, and `place` is the length of its shortest beginning that no continuation makes acceptable. No answer
 * is a refusal; with the first two `place` is as it was. */
PUIGNEHT_LOOK_ static inline uint8_t puigneht_dsf_give_up(const uint8_t *file, size_t file_len, uint64_t *place) {
    return puigneht_dsf_give_up_call(file, file_len, place);
}

/* The same from the file's first 92 bytes (all, where it has fewer) and its length. Fewer bytes than 92 count as the
 * whole file, whatever the length says; where the length is less than the bytes given, bytes past it are not looked at.
 */
PUIGNEHT_LOOK_ static inline uint8_t puigneht_dsf_give_up_header(const uint8_t *head, size_t head_len, uint64_t length,
                                                                 uint64_t *place) {
    return puigneht_dsf_give_up_header_call(head, head_len, length, place);
}

/* ---- WAV files: the plain 44-byte header (format tag 1, 24 bits, one or two channels, one of the three rates), then
 * the sample bytes, 0 to 540000 whole frames and at most PUIGNEHT_WAV_MOST_DATA bytes. So stereo may last 33:48 at
 * 352800 and 67:37 at 176400, mono 67:37 at 352800; all else 120:00. */

/* Reads a whole file. Refused 12 for any other. */
PUIGNEHT_LOOK_ static inline uint8_t puigneht_wav_read(const uint8_t *file, size_t file_len, puigneht_wav *wav,
                                                       puigneht_refusal *refusal) {
    puigneht_refusal spare, *r = puigneht_begin_(refusal, &spare, PUIGNEHT_CALL_WAV_READ, file_len);
    return r->number = puigneht_wav_read_call(file, file_len, wav);
}

/* A file from sample bytes, of the rate and the channels of `like`: `out` has PUIGNEHT_WAV_HEADER bytes more. Refused
 * 12 if puigneht_wav_read takes no file with them, also for an unknown rate; then 7. */
PUIGNEHT_LOOK_ static inline uint8_t puigneht_wav_write(const puigneht_wav *like, const uint8_t *bytes,
                                                        size_t bytes_len, uint8_t *out, size_t out_len,
                                                        puigneht_refusal *refusal) {
    puigneht_refusal spare, *r = puigneht_begin_(refusal, &spare, PUIGNEHT_CALL_WAV_WRITE, bytes_len);
    const uint8_t channels = puigneht_channels_(like->channels);
    return puigneht_told_(r, like->rate, 0, like->channels,
                          puigneht_wav_write_call(like->rate, channels, bytes, bytes_len, out, out_len, r->data));
}

/* The header alone, for a stream of `bytes` sample bytes, so that nobody holds a file in memory. Refused 12. */
PUIGNEHT_LOOK_ static inline uint8_t puigneht_wav_header(uint64_t rate, uint64_t channels, uint64_t bytes,
                                                         uint8_t out[PUIGNEHT_WAV_HEADER], puigneht_refusal *refusal) {
    puigneht_refusal spare, *r = puigneht_begin_(refusal, &spare, PUIGNEHT_CALL_WAV_WRITE, bytes);
    return puigneht_told_(r, rate, 0, channels,
                          puigneht_wav_header_call(rate, puigneht_channels_(channels), bytes, out));
}

#ifdef __cplusplus
}
#endif

#endif
