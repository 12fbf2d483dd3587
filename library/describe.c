/* Refusals as sentences, and the version: the part of libpuigneht.a that is compiled C. */
#include "puigneht.h"

#include <stdio.h>
#include <stdlib.h>

enum { HERTZ = 2822400, SECOND = 75 }; /* one-bit samples, and frames */

/* A sentence that grows: what finds no room is left out. */
struct said {
    char *text;
    size_t room, length;
};

static void put(struct said *s, const char *text) {
    for (; *text && s->length + 1 < s->room; text++) s->text[s->length++] = *text;
    if (s->room) s->text[s->length] = 0;
}

/* A number with a comma between groups of three digits. */
static void put_number(struct said *s, uint64_t n) {
    char digits[27], *at = digits + sizeof digits - 1;
    *at = 0;
    for (int k = 0; n || !k; k++, n /= 10) {
        if (k && k % 3 == 0) *--at = ',';
        *--at = (char)('0' + n % 10);
    }
    put(s, at);
}

/* A text in which each # stands for the next of three numbers. */
static void put_with(struct said *s, const char *text, uint64_t one, uint64_t two, uint64_t three) {
    const uint64_t numbers[] = {one, two, three};
    char piece[] = {0, 0};
    int used = 0;
    for (; *text; text++) {
        piece[0] = *text;
        if (*text == '#' && used < 3) put_number(s, numbers[used++]);
        else put(s, piece);
    }
}

/* A number's text with a dot for whatever the locale writes between whole and part, which may be several bytes. */
static void set_dot(char *text) {
    char *to = text;
    for (; *text; text++)
        if (strchr("0123456789+-einfa", *text)) *to++ = *text;
        else if (to[-1] != '.') *to++ = '.';
    *to = 0;
}

/* Decibels with as many digits as they need. */
static void put_decibels(struct said *s, double decibels) {
    char text[40];
    for (int digits = 15; digits <= 17; digits += 2) {
        snprintf(text, sizeof text, "%.*g", digits, decibels);
        if (strtod(text, NULL) == decibels) break;
    }
    set_dot(text);
    put(s, text);
}

static int is_rate(uint64_t rate) {
    return rate == 88200 || rate == 176400 || rate == 352800;
}

/* Bytes of a frame, or 0 for channels that there are not. */
static uint64_t frame_bytes(const puigneht_refusal *r) {
    return r->channels <= PUIGNEHT_MOST_CHANNELS ? PUIGNEHT_CHANNEL_BYTES * r->channels : 0;
}

/* ---- refusals of lengths */

/* 4, 13 and 14: so many bytes that are not what is asked. */
static void say_bytes(struct said *s, const puigneht_refusal *r, const char *what) {
    put_with(s, what, r->data[0], 0, 0);
    if (frame_bytes(r))
        put_with(s, r->channels == 1 ? ": a frame of # channel has # bytes" : ": a frame of # channels has # bytes",
                 r->channels, frame_bytes(r), 0);
}

static int is_piece(const puigneht_refusal *r) {
    return r->call == PUIGNEHT_CALL_ALBUM_PIECE || r->call == PUIGNEHT_CALL_ALBUM_FRAMES;
}

static void say_frames(struct said *s, const puigneht_refusal *r) {
    if (r->call == PUIGNEHT_CALL_DSF_FRAME || r->call == PUIGNEHT_CALL_DSF_WINDOW_FRAME)
        put_with(s, "the file has no frame #: they are counted from 0", r->data[0], 0, 0);
    else if (is_piece(r)) put_with(s, "the album has no piece #: they are counted from 0", r->data[0], 0, 0);
    else if (r->call == PUIGNEHT_CALL_ALBUM_HEADER)
        put_with(s, "the album has no track #: they are counted from 0", r->data[0], 0, 0);
    else if (r->call == PUIGNEHT_CALL_DSF_WRITE)
        put_with(s, "# frames: at most 540,000 (two hours) are written", r->data[0], 0, 0);
    else if (r->call == PUIGNEHT_CALL_ALBUM_OPEN && r->track)
        put_with(s, "# frames with the tracks before it: at most 540,000 (two hours) are converted", r->data[0], 0, 0);
    else put_with(s, "# frames: at most 540,000 (two hours) are converted", r->data[0], 0, 0);
}

/* ---- refusals of DSF files */

/* What stands in a field: of a name its characters, where all can be printed, else a number. */
static void put_found(struct said *s, uint64_t value, int is_text) {
    char text[] = "'....'";
    for (int k = 0; is_text && k < 4; k++) {
        text[k + 1] = (char)(value >> 8 * k & 255);
        is_text = text[k + 1] >= 32 && text[k + 1] <= 126;
    }
    if (is_text) put(s, text);
    else put_number(s, value);
}

static const struct {
    uint64_t place;
    const char *name;
    int is_text;
} fields[] = {{0, "the name of the DSD chunk", 1},  {4, "the size of the DSD chunk", 0},
              {28, "the name of the fmt chunk", 1}, {32, "the size of the fmt chunk", 0},
              {40, "the format version", 0},        {44, "the format ID", 0},
              {60, "the bits per sample", 0},       {72, "the block size", 0},
              {76, "the reserved field", 0},        {80, "the name of the data chunk", 1}};

/* Sony's channel types. */
static const struct {
    const char *name;
    uint64_t channels;
} types[] = {{"none", 0}, {"mono", 1},       {"stereo", 2},     {"3 channels", 3},
             {"quad", 4}, {"4 channels", 4}, {"5 channels", 5}, {"5.1 channels", 6}};

/* Whether a number is a type, and above it, as they stand in a file, the channels that it has. */
static int is_type(uint64_t found) {
    const uint64_t type = found % 4294967296;
    return type >= 1 && type <= 7 && found / 4294967296 == types[type].channels;
}

static int is_other_type(const puigneht_refusal *r) {
    return r->number == PUIGNEHT_REFUSED_NOT_DSF && r->call == PUIGNEHT_CALL_ALBUM_OPEN && r->field.place == 48 &&
           is_type(r->field.found) && is_type(r->field.asked);
}

/* 9 of an album: a file that has another type than the first. */
static void say_other_type(struct said *s, const puigneht_field *f) {
    const uint64_t found = f->found % 4294967296, asked = f->asked % 4294967296;
    put_with(s, "its channel type is # (", found, 0, 0);
    put(s, types[found].name);
    put_with(s, "), and the first track's # (", asked, 0, 0);
    put(s, types[asked].name);
    put(s, ")");
}

/* 9: the first wrong field. */
static void say_not_dsf(struct said *s, const puigneht_field *f) {
    put(s, "not a DSF file as Sony's document lays it out");
    if (f->place == PUIGNEHT_DSF_HEADER) put_with(s, ": it has # bytes, and a header has #", f->found, f->asked, 0);
    if (f->place == 48)
        put_with(s, ": channel type # does not go with # channels", f->found % 4294967296, f->found / 4294967296, 0);
    for (size_t k = 0; k < sizeof fields / sizeof *fields; k++) {
        if (f->place != fields[k].place || f->found == f->asked) continue;
        put_with(s, ": ", 0, 0, 0);
        put(s, fields[k].name);
        put_with(s, " (byte #) is ", f->place, 0, 0);
        put_found(s, f->found, fields[k].is_text);
        put(s, ", and not ");
        put_found(s, f->asked, fields[k].is_text);
    }
}

static void say_format(struct said *s, const puigneht_field *f) {
    if (f->place == 64) put_with(s, "# samples of a channel, which are no whole bytes", f->found, 0, 0);
    else if (f->place == 56)
        put_with(s, "# one-bit samples a second: only # (DSD64) are converted", f->found, HERTZ, 0);
    else put(s, "a frequency other than 2,822,400 (DSD64), or samples that are no whole bytes");
}

/* 11: which length is wrong, and in which direction. */
static void say_dsf_length(struct said *s, const puigneht_field *f) {
    if (f->place == 12 && f->found > f->asked)
        put_with(s, "the file says # bytes and has #: an incomplete upload?", f->found, f->asked, 0);
    else if (f->place == 12)
        put_with(s, "the file says # bytes and has #, which are # more: something was added, or tags were taken away",
                 f->found, f->asked, f->asked - f->found);
    else if (f->place == 84)
        put_with(s, "the data chunk says # bytes, and the file's samples need #: a damaged file?", f->found, f->asked,
                 0);
    else if (f->place == 92)
        put_with(s, "the file has # bytes, and its samples need #: it ends before they do", f->found, f->asked, 0);
    else put(s, "the part of the file that was given does not hold the frame");
}

/* ---- refusals of WAV files */

/* How long an album may be, in minutes and seconds, where the file's length says it and not the number of frames. */
static void say_too_long(struct said *s, const puigneht_refusal *r, uint64_t bytes, uint64_t room) {
    const uint64_t frame = r->rate / SECOND * 3 * r->channels;
    const uint64_t most = frame ? room / frame : 0, seconds = most / SECOND;
    put_with(s, "# bytes of samples: a WAV file holds at most #", bytes, room, 0);
    if (!most || most >= PUIGNEHT_MOST_FRAMES) return;
    put_with(s, seconds % 60 < 10 ? ", which are #:0# of " : ", which are #:# of ", seconds / 60, seconds % 60, 0);
    put_with(s, r->channels == 1 ? "# channel at #" : "# channels at #", r->channels, r->rate, 0);
}

/* The most data of a file in which a zero byte follows odd ones. */
#define MOST_EVEN (PUIGNEHT_WAV_MOST_DATA - 1)

/* 12 of a call that makes a file. */
static void say_no_wav(struct said *s, const puigneht_refusal *r) {
    const uint64_t frame = r->rate / SECOND * 3 * r->channels;
    uint64_t bytes = r->length;
    if (r->call == PUIGNEHT_CALL_WAV_CONVERT && frame_bytes(r)) bytes = r->length / frame_bytes(r) * frame;
    if (!is_rate(r->rate)) put_with(s, "a rate of #: a WAV file has 88,200, 176,400 or 352,800", r->rate, 0, 0);
    else if (r->channels < 1 || r->channels > 2)
        put_with(s, "# channels: the WAV file takes one or two", r->channels, 0, 0);
    else if (r->call == PUIGNEHT_CALL_ALBUM_HEADER) say_too_long(s, r, bytes, MOST_EVEN);
    else if (bytes > PUIGNEHT_WAV_MOST_DATA) say_too_long(s, r, bytes, PUIGNEHT_WAV_MOST_DATA);
    else if (bytes % frame) put_with(s, "# bytes of samples are no whole frames of # bytes", bytes, frame, 0);
    else put_with(s, "# frames: a WAV file takes at most 540,000 (two hours)", bytes / frame, 0, 0);
}

/* ---- all numbers */

/* 1 to 8. */
static void say_of_call(struct said *s, const puigneht_refusal *r) {
    const uint64_t one = r->data[0], two = r->data[1];
    switch (r->number) {
    case PUIGNEHT_REFUSED_CHANNELS:
        put_with(s, "# channels: there may be 1 to 6", r->call ? r->channels : one, 0, 0);
        break;
    case PUIGNEHT_REFUSED_UNSUPPORTED: put(s, "wide is for 176400 and 352800"); break;
    case PUIGNEHT_REFUSED_GAIN:
        if (r->decibels >= -120 && r->decibels <= 24) put(s, "the gain's factor is not that of its decibels, ");
        else put(s, "the gain is not -120 to 24 decibels, but ");
        put_decibels(s, r->decibels);
        break;
    case PUIGNEHT_REFUSED_INPUT_LENGTH:
        say_bytes(s, r, two ? "# bytes are not one frame" : "# bytes are not whole frames");
        break;
    case PUIGNEHT_REFUSED_FRAMES: say_frames(s, r); break;
    case PUIGNEHT_REFUSED_OUTPUT_LENGTH:
        put_with(s, "room for # samples, where # are to be written", one, two, 0);
        break;
    case PUIGNEHT_REFUSED_OUTPUT_BYTES:
        put_with(s,
                 is_piece(r) ? "memory of # bytes, where # are needed" : "room for # bytes, where # are to be written",
                 one, two, 0);
        break;
    default: put_with(s, "room for the counts of # frames, where there are #", one, two, 0);
    }
}

/* 13 to 20. */
static void say_of_converter(struct said *s, const puigneht_refusal *r) {
    const int of_settings = r->call == PUIGNEHT_CALL_OPEN || r->call == PUIGNEHT_CALL_CHANGE;
    switch (r->number) {
    case PUIGNEHT_REFUSED_BEFORE: say_bytes(s, r, "the # bytes before the run are not one frame"); break;
    case PUIGNEHT_REFUSED_AFTER: say_bytes(s, r, "the # bytes after the run are not one frame"); break;
    case PUIGNEHT_REFUSED_STORED: put(s, "the converter's numbers are not those of its settings"); break;
    case PUIGNEHT_REFUSED_DESK:
        if (frame_bytes(r)) put_with(s, "# frames: at most 8 at the listening desk", r->length / frame_bytes(r), 0, 0);
        else put(s, "more than 8 frames at the listening desk");
        break;
    case PUIGNEHT_REFUSED_TAPS:
        if (of_settings) put_with(s, "a filter of # taps: it may have 1 to 117", r->length, 0, 0);
        else put(s, "a filter may have 1 to 117 taps");
        break;
    case PUIGNEHT_REFUSED_TAP_SUMS:
        put(s, "a filter's centre and twice its other taps are to sum to 16,777,216, and their sizes to at most "
               "40,000,000");
        break;
    case PUIGNEHT_REFUSED_SCHEDULE:
        put(s, "a number out of range: 1 to 8 albums of 1 to 540,000 frames, due after turn 0 to 1,000,000, in turns "
               "of 1 to 540,000 frames");
        break;
    default: put(s, "a number is too wide for its column of the level sheet");
    }
}

/* 255. */
static void say_not_understood(struct said *s, const puigneht_refusal *r) {
    const int rated = r->call != PUIGNEHT_CALL_NONE && r->call != PUIGNEHT_CALL_LEVEL_SHEET;
    put(s, "not understood");
    if (r->call == PUIGNEHT_CALL_LEVEL_SHEET) put(s, ": statistics that no conversion made");
    else if (rated && !is_rate(r->rate))
        put_with(s, ": a rate of #: there are 88,200, 176,400 and 352,800", r->rate, 0, 0);
    else if (rated && r->cutoff > PUIGNEHT_WIDE)
        put_with(s, ": cutoff #: there are 0 standard, 1 low and 2 wide", r->cutoff, 0, 0);
    else if (rated && r->channels > 255) put_with(s, ": # channels: there may be 1 to 6", r->channels, 0, 0);
    else if (r->call == PUIGNEHT_CALL_ALBUM_OPEN && (!r->length || r->length > 99))
        put_with(s, ": # tracks: an album has 1 to 99", r->length, 0, 0);
    else if (r->call == PUIGNEHT_CALL_ALBUM_HEADER && r->data[0] > 2)
        put_with(s, ": format #: there are 0 auto, 1 WAV and 2 RF64", r->data[0], 0, 0);
    else put(s, ": a converter or an album that was not opened, or was written to since");
}

static void say(struct said *s, const puigneht_refusal *r) {
    if (r->number == PUIGNEHT_ACCEPTED) put(s, "accepted");
    else if (r->number == PUIGNEHT_READ_FAILED) put(s, "the file cannot be read");
    else if (r->number > PUIGNEHT_REFUSED_SHEET) say_not_understood(s, r);
    else {
        put_with(s, "refused #: ", r->number, 0, 0);
        if (r->number < PUIGNEHT_REFUSED_NOT_DSF) say_of_call(s, r);
        else if (r->number > PUIGNEHT_REFUSED_NOT_WAV) say_of_converter(s, r);
        else if (is_other_type(r)) say_other_type(s, &r->field);
        else if (r->number == PUIGNEHT_REFUSED_NOT_DSF) say_not_dsf(s, &r->field);
        else if (r->number == PUIGNEHT_REFUSED_DSF_FORMAT) say_format(s, &r->field);
        else if (r->number == PUIGNEHT_REFUSED_DSF_LENGTH) say_dsf_length(s, &r->field);
        else if (r->call != PUIGNEHT_CALL_WAV_READ && r->call) say_no_wav(s, r);
        else
            put(s, "not a WAV file of the plain header, 24 bits, one or two channels, one of the three rates and whole "
                   "frames");
    }
}

const char *puigneht_describe(const puigneht_refusal *refusal, char *text, size_t room) {
    struct said s = {text, room, 0};
    say(&s, refusal);
    return text;
}

const char *puigneht_version(void) {
    return PUIGNEHT_VERSION;
}
