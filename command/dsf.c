/* The DSF file of raw frames, by the proved puigneht_dsf_lay_out for a stretch of them at a time and puigneht_dsf_head,
 * which decides what can be written. */
#define _POSIX_C_SOURCE 200809L
#define _FILE_OFFSET_BITS 64
#include <string.h>
#include <unistd.h>
#include "args.h"
#include "bytes.h"
#include "ends.h"
#include "input.h"
#include "others.h"
#include "puigneht.h"
#include "single.h"

/* A stretch of frames, and of the data that they are laid out as. */
static uint8_t stretch[PUIGNEHT_MOST_CHANNELS * PUIGNEHT_STRETCH_BYTES], data[sizeof stretch];
_Static_assert(PUIGNEHT_STRETCH_BYTES == PUIGNEHT_STRETCH_FRAMES * PUIGNEHT_CHANNEL_BYTES, "a stretch is whole blocks");

/* What is read and what is made of it. */
struct writing {
    const char *frames, *path;
    int from, to;
    uint64_t channels;
};

static uint64_t channels_of(const char *word) {
    int64_t n;
    if (!is_number(word, &n) || n < 1 || n > PUIGNEHT_MOST_CHANNELS) not_taken(word, "CHANNELS are 1 to 6");
    return (uint64_t)n;
}

/* The header of so many bytes of frames; what cannot be written is refused. */
static void make_head(const struct writing *w, uint64_t bytes, uint8_t *head) {
    puigneht_refusal r;
    if (puigneht_dsf_head(w->channels, (size_t)bytes, head, &r)) refuse(&r, w->frames);
}

/* Fills the stretch as far as the frames go. */
static size_t read_stretch(const struct writing *w) {
    size_t count = 0, room = (size_t)w->channels * PUIGNEHT_STRETCH_BYTES;
    for (size_t n = 1; n && count < room; count += n) n = read_some(w->from, w->frames, stretch + count, room - count);
    return count;
}

static void write_stretch(const struct writing *w, size_t count) {
    puigneht_refusal r;
    uint64_t length;
    if (puigneht_dsf_length(w->channels, count, &length, &r)) refuse(&r, w->frames);
    length -= PUIGNEHT_DSF_HEADER;
    if (puigneht_dsf_lay_out(w->channels, stretch, count, data, (size_t)length, &r)) refuse(&r, w->frames);
    write_on(w->to, w->path, data, (size_t)length);
}

/* The header is written last, as a pipe's length is known at its end alone. Its place is kept until then. */
static void write_all(const struct writing *w) {
    uint8_t head[PUIGNEHT_DSF_HEADER] = {0};
    uint64_t bytes = 0;
    write_on(w->to, w->path, head, sizeof head);
    for (size_t count; (count = read_stretch(w)); bytes += count) {
        make_head(w, bytes + count, head); /* too many are refused before their end */
        write_stretch(w, count);
    }
    make_head(w, bytes, head);
    write_at(w->to, w->path, head, sizeof head, 0);
}

int dsf(const struct asked *a, const struct words *words) {
    struct writing w = {.frames = words->at[1], .path = words->at[2], .channels = channels_of(words->at[0])};
    static struct inputs in;
    uint8_t head[PUIGNEHT_DSF_HEADER];
    (void)a;
    if (!*w.frames || !*w.path) misused("");
    if (strcmp(w.frames, "-")) {
        open_input(&in.of[0], w.frames);
        in.count = 1;
        make_head(&w, in.of[0].length, head);
        w.from = in.of[0].file;
        if (lseek(w.from, 0, SEEK_SET)) failed("read", w.frames);
    } else {
        w.frames = "standard input";
        w.from = STDIN_FILENO;
    }
    w.to = begin_single(w.path);
    write_all(&w);
    check_unchanged(&in);
    end_single();
    return DONE;
}
