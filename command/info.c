/* What DSF files are, for people or (--json) for scripts: what their headers say, what stands behind their samples, and
 * what each rate would take on disk. What is accepted and how long it gets is decided by the proved libraries. */
#define _POSIX_C_SOURCE 200809L
#define _FILE_OFFSET_BITS 64
#include <limits.h>
#include <stdarg.h>
#include <stdio.h>
#include <string.h>
#include <unistd.h>
#include "bytes.h"
#include "ends.h"
#include "input.h"
#include "json.h"
#include "others.h"
#include "puigneht/album.h"
#include "terminal.h"

enum { HERTZ = 2822400, RATES = 3, MOST_TYPE = 7 };
static const uint32_t rates[RATES] = {88200, 176400, 352800};

/* What an album of the file takes at a rate, or why it is refused. */
struct wave {
    puigneht_wave wave;
    puigneht_refusal refusal;
};

struct file {
    struct input in;
    puigneht_dsf holds;
    puigneht_refusal refusal; /* its number is 0 where the file is accepted */
    uint64_t data;            /* bytes, from byte 92 on */
    uint64_t behind;          /* bytes behind them */
    bool is_tag;              /* which begin as an ID3 tag */
    struct wave waves[RATES];
};

/* ---- looking */

static int read_file(void *context, uint64_t place, uint8_t *bytes, size_t count) {
    const struct input *in = context;
    read_at(in->file, in->path, bytes, count, place);
    return 0;
}

static void look_behind(struct file *f) {
    uint8_t tag[3] = {0};
    f->data = (f->holds.samples / 8 + 4095) / 4096 * 4096 * f->holds.channels;
    f->behind = f->in.length - PUIGNEHT_DSF_HEADER - f->data;
    if (f->behind >= sizeof tag) read_file(&f->in, f->in.length - f->behind, tag, sizeof tag);
    f->is_tag = !memcmp(tag, "ID3", sizeof tag);
}

static void look_at_rate(struct file *f, uint32_t rate, struct wave *w) {
    puigneht_source source = {read_file, &f->in, f->in.length};
    puigneht_settings settings = puigneht_default_settings();
    puigneht_album album;
    settings.rate = rate;
    if (puigneht_album_open(&album, &source, 1, &settings, &w->refusal)) return;
    if (puigneht_album_header(&album, PUIGNEHT_FORMAT_AUTO, PUIGNEHT_ALL, &w->wave, &w->refusal)) return;
    memset(&w->refusal, 0, sizeof w->refusal);
}

static void look_at(struct file *f, const char *path) {
    uint8_t head[PUIGNEHT_DSF_HEADER];
    memset(f, 0, sizeof *f);
    open_input(&f->in, path);
    size_t known = f->in.length < sizeof head ? (size_t)f->in.length : sizeof head;
    read_file(&f->in, 0, head, known);
    if (!puigneht_dsf_read_header(head, known, f->in.length, &f->holds, &f->refusal)) {
        look_behind(f);
        for (int k = 0; k < RATES; k++) look_at_rate(f, rates[k], &f->waves[k]);
    }
    close(f->in.file);
}

/* ---- what is told */

/* The loudspeakers of Sony's channel types, in the channels' order. */
static const char *const speakers[MOST_TYPE + 1][PUIGNEHT_MOST_CHANNELS] = {
    {NULL},
    {"centre", NULL},
    {"front left", "front right", NULL},
    {"front left", "front right", "centre", NULL},
    {"front left", "front right", "back left", "back right", NULL},
    {"front left", "front right", "centre", "low frequency", NULL},
    {"front left", "front right", "centre", "back left", "back right", NULL},
    {"front left", "front right", "centre", "low frequency", "back left", "back right"}};

static const char *speaker_of(const struct file *f, uint64_t channel) {
    return f->holds.channel_type <= MOST_TYPE ? speakers[f->holds.channel_type][channel] : NULL;
}

static uint64_t milliseconds_of(const struct file *f) {
    uint64_t samples = f->holds.samples;
    return samples / HERTZ * 1000 + (samples % HERTZ * 1000 + HERTZ / 2) / HERTZ;
}

/* Bytes of each channel that fill up the last frame. */
static uint64_t filled_of(const struct file *f) {
    return f->holds.frames * PUIGNEHT_CHANNEL_BYTES - f->holds.samples / 8;
}

static const char *format_of(const puigneht_wave *w) {
    if (w->head_len == PUIGNEHT_PLAIN_HEAD) return "wav";
    if (w->head_len == PUIGNEHT_EXTENSIBLE_HEAD) return "wav-extensible";
    return w->head_len == PUIGNEHT_RF64_HEAD ? "rf64" : "rf64-extensible";
}

/* ---- for people */

/* With a comma between groups of three digits. */
static const char *grouped(uint64_t n) {
    static char texts[8][32];
    static unsigned used;
    char digits[24], *to = texts[used++ % 8], *begin = to;
    int count = snprintf(digits, sizeof digits, "%llu", (unsigned long long)n);
    for (int k = 0; k < count; k++) {
        if (k && (count - k) % 3 == 0) *to++ = ',';
        *to++ = digits[k];
    }
    *to = 0;
    return begin;
}

/* The paragraph of a file. */
struct page {
    char text[PATH_MAX + 4096];
    size_t length;
};

static void say(struct page *p, const char *format, ...) __attribute__((format(printf, 2, 3)));
static void say(struct page *p, const char *format, ...) {
    va_list arguments;
    va_start(arguments, format);
    int n = vsnprintf(p->text + p->length, sizeof p->text - p->length, format, arguments);
    va_end(arguments);
    if (n < 0 || (size_t)n >= sizeof p->text - p->length) stop(SYSTEM, "what is told of a file is too long");
    p->length += (size_t)n;
}

static void say_channels(struct page *p, const struct file *f) {
    say(p, "  channels   %s (type %s)", grouped(f->holds.channels), grouped(f->holds.channel_type));
    for (uint64_t c = 0; c < f->holds.channels && speaker_of(f, c); c++)
        say(p, "%s %s", c ? "," : ":", speaker_of(f, c));
    say(p, "\n");
}

static void say_length(struct page *p, const struct file *f) {
    uint64_t ms = milliseconds_of(f);
    say(p, "  samples    %s of each channel\n", grouped(f->holds.samples));
    say(p, "  length     %llu:%02u:%02u.%03u\n", (unsigned long long)(ms / 3600000), (unsigned)(ms / 60000 % 60),
        (unsigned)(ms / 1000 % 60), (unsigned)(ms % 1000));
    say(p, "  bit order  %s bit first\n", f->holds.bits_per_sample == 1 ? "lowest" : "highest");
    say(p, "  frames     %s", grouped(f->holds.frames));
    uint64_t filled = filled_of(f);
    if (!filled) say(p, ", all whole\n");
    else say(p, ", the last one short: %s bytes of each channel are filled up with 0x69\n", grouped(filled));
}

static void say_behind(struct page *p, const struct file *f) {
    say(p, "  data       %s bytes from byte %d on\n", grouped(f->data), PUIGNEHT_DSF_HEADER);
    if (!f->behind) say(p, "  behind it  nothing\n");
    else
        say(p, "  behind it  %s bytes, which %s\n", grouped(f->behind),
            f->is_tag ? "begin as an ID3 tag" : "do not begin as an ID3 tag");
}

static void say_wave(struct page *p, uint32_t rate, const struct wave *w) {
    char text[PUIGNEHT_DESCRIPTION_ROOM];
    if (w->refusal.number) say(p, "  at %-7s %s\n", grouped(rate), puigneht_describe(&w->refusal, text, sizeof text));
    else say(p, "  at %-7s %s bytes, %s\n", grouped(rate), grouped(w->wave.length), format_of(&w->wave));
}

static void tell_people(const struct file *f) {
    static struct page p;
    char text[PUIGNEHT_DESCRIPTION_ROOM];
    p.length = 0;
    say(&p, "%s", f->in.path);
    make_plain(p.text);
    say(&p, "\n");
    if (f->refusal.number) say(&p, "  %s\n", puigneht_describe(&f->refusal, text, sizeof text));
    else {
        say_channels(&p, f);
        say_length(&p, f);
        say_behind(&p, f);
        for (int k = 0; k < RATES; k++) say_wave(&p, rates[k], &f->waves[k]);
    }
    print(p.text);
}

/* ---- for scripts */

static void put_refusal(struct json *j, const puigneht_refusal *r) {
    char text[PUIGNEHT_DESCRIPTION_ROOM];
    json_number(j, "refused", r->number);
    if (!r->number) return;
    json_text(j, "sentence", puigneht_describe(r, text, sizeof text));
    if (r->number < PUIGNEHT_REFUSED_NOT_DSF || r->number > PUIGNEHT_REFUSED_DSF_LENGTH) return;
    json_open(j, "field", '{');
    json_number(j, "place", r->field.place);
    json_number(j, "found", r->field.found);
    json_number(j, "asked", r->field.asked);
    json_close(j, '}');
}

static void put_holds(struct json *j, const struct file *f) {
    json_number(j, "channels", f->holds.channels);
    json_number(j, "channel_type", f->holds.channel_type);
    json_open(j, "loudspeakers", '[');
    for (uint64_t c = 0; c < f->holds.channels && speaker_of(f, c); c++) json_text(j, NULL, speaker_of(f, c));
    json_close(j, ']');
    json_number(j, "samples", f->holds.samples);
    json_number(j, "milliseconds", milliseconds_of(f));
    json_text(j, "first_bit", f->holds.bits_per_sample == 1 ? "lowest" : "highest");
    json_number(j, "frames", f->holds.frames);
    json_number(j, "filled", filled_of(f));
    json_number(j, "data", f->data);
    json_number(j, "behind", f->behind);
    json_bool(j, "id3", f->is_tag);
}

static void put_waves(struct json *j, const struct file *f) {
    json_open(j, "waves", '[');
    for (int k = 0; k < RATES; k++) {
        const struct wave *w = &f->waves[k];
        json_open(j, NULL, '{');
        json_number(j, "rate", rates[k]);
        put_refusal(j, &w->refusal);
        if (!w->refusal.number) {
            json_number(j, "bytes", w->wave.length);
            json_text(j, "format", format_of(&w->wave));
        }
        json_close(j, '}');
    }
    json_close(j, ']');
}

static void tell_scripts(const struct file *f) {
    static struct json j;
    j.length = 0;
    j.first = true;
    json_open(&j, NULL, '{');
    json_text(&j, "file", f->in.path);
    json_number(&j, "bytes", f->in.length);
    put_refusal(&j, &f->refusal);
    if (!f->refusal.number) {
        put_holds(&j, f);
        put_waves(&j, f);
    }
    json_close(&j, '}');
    json_print(&j);
}

int info(const struct asked *a, const struct words *words) {
    static struct file f;
    int status = DONE;
    check_standard_output();
    for (int k = 0; k < words->count; k++) spare_named(words->at[k]);
    for (int k = 0; k < words->count; k++) {
        if (!*words->at[k]) misused(words->at[k]);
        look_at(&f, words->at[k]);
        if (f.refusal.number) status = REFUSED;
        if (a->json) tell_scripts(&f);
        else tell_people(&f);
    }
    return status;
}
