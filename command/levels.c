/* The level report of an album: the lines of its frames by the proved puigneht_frame_levels, or summed up by seconds or
 * minutes; and the last line. */
#define _POSIX_C_SOURCE 200809L
#define _FILE_OFFSET_BITS 64
#include <stdio.h>
#include <stdlib.h>
#include <string.h>
#include <unistd.h>
#include "album.h"
#include "bytes.h"
#include "ends.h"
#include "jobs.h"
#include "others.h"
#include "signals.h"
#include "terminal.h"
#include "told.h"

/* ---- a process: lines of pieces */

/* What it has told; `next` is the piece that what is in progress is known for. */
static struct teller {
    puigneht_memory memory;
    puigneht_levels levels;
    uint64_t next;
    uint8_t lines[PUIGNEHT_PIECE_FRAMES * PUIGNEHT_LINES_ROOM];
} teller;
_Static_assert(sizeof teller.lines <= MOST_HANDED, "the lines of a piece are handed on whole");

static void tell_frame(const struct album *album, const puigneht_frames *frames, uint64_t k) {
    char text[PUIGNEHT_DESCRIPTION_ROOM];
    const puigneht_converter *c = &album->opened.converter;
    puigneht_refusal r;
    puigneht_run run = puigneht_cut(c, frames->bytes, frames->length, frames->before + (size_t)k, 1);
    if (puigneht_frame_levels(c, &run, frames->first + k, &teller.levels, &r))
        stop(SYSTEM, "frame %llu of %s: %s", (unsigned long long)(frames->first + k), album->asked->tracks[0],
             puigneht_describe(&r, text, sizeof text));
}

/* What is in progress behind the frame before the piece, which another process tells: it depends on that frame with its
 * neighbours alone. */
static void begin_at(const struct album *album, uint64_t piece) {
    memset(teller.levels.standings, 0, sizeof teller.levels.standings);
    if (piece == 0) return;
    puigneht_frames frames = frames_of(album, piece - 1, &teller.memory);
    tell_frame(album, &frames, frames.count - 1);
}

static struct handed lines_of(const struct album *album, uint64_t piece) {
    struct handed h = {.bytes = teller.lines};
    if (!teller.memory.bytes) teller.memory = memory_of(album);
    if (piece != teller.next) begin_at(album, piece);
    puigneht_frames frames = frames_of(album, piece, &teller.memory);
    for (uint64_t k = 0; k < frames.count; k++) {
        tell_frame(album, &frames, k);
        memcpy(teller.lines + h.length, teller.levels.lines, (size_t)teller.levels.length);
        h.length += (size_t)teller.levels.length;
        h.sum += teller.levels.clipped;
    }
    h.frames = frames.count;
    teller.next = piece + 1;
    return h;
}

/* ---- lines summed up */

enum { FRAME, CHANNEL, CLIPPED, LOW, HIGH, OVER, NUMBERS };

/* Of the stretch that is summed up: its frames, its name, its number, and for each channel the sums. */
static struct sums {
    int64_t frames;
    const char *name;
    int64_t number;
    int channels;
    int64_t of[PUIGNEHT_MOST_CHANNELS][NUMBERS];
} sums;

/* A line's numbers; gives the next line. */
static const char *read_line(const char *line, int64_t *numbers) {
    char *end = NULL;
    for (int k = 0; k < NUMBERS; k++, line = end) numbers[k] = strtoll(line + strcspn(line, "-0123456789"), &end, 10);
    return line + 1;
}

static void print_sums(void) {
    char text[PUIGNEHT_MOST_CHANNELS * PUIGNEHT_LAST_LINE_ROOM], *to = text;
    if (!sums.channels) return;
    for (int c = 0; c < sums.channels; c++)
        to += sprintf(to, "%s %lld channel %d clipped %lld low %lld high %lld over %lld\n", sums.name,
                      (long long)sums.number, c, (long long)sums.of[c][CLIPPED], (long long)sums.of[c][LOW],
                      (long long)sums.of[c][HIGH], (long long)sums.of[c][OVER]);
    sums.channels = 0;
    print(text);
}

static void add(const int64_t *line) {
    int64_t *s = sums.of[line[CHANNEL]], stretch = line[FRAME] / sums.frames;
    if (stretch != sums.number) print_sums();
    sums.number = stretch;
    if (line[CHANNEL] < sums.channels) {
        s[CLIPPED] += line[CLIPPED];
        s[OVER] += line[OVER];
        if (line[LOW] < s[LOW]) s[LOW] = line[LOW];
        if (line[HIGH] > s[HIGH]) s[HIGH] = line[HIGH];
    } else {
        memcpy(s, line, sizeof sums.of[0]);
        sums.channels++;
    }
}

/* ---- this process: lines in order */

static void write_lines(const uint8_t *lines, size_t length) {
    write_on(STDOUT_FILENO, "standard output", lines, length);
}

static void add_lines(const uint8_t *lines, size_t length) {
    static char text[MOST_HANDED + 1];
    int64_t numbers[NUMBERS];
    memcpy(text, lines, length);
    text[length] = 0;
    for (const char *line = text; *line;) {
        line = read_line(line, numbers);
        add(numbers);
    }
}

static void print_last(uint64_t frames, uint64_t clipped) {
    uint8_t line[PUIGNEHT_LAST_LINE_ROOM];
    write_lines(line, puigneht_last_line(frames, clipped, line));
}

int levels(const struct asked *a, const struct words *words) {
    static const struct sums stretches[] = {{.frames = 1}, {75, "second", 0, 0, {{0}}}, {4500, "minute", 0, 0, {{0}}}};
    struct asked asked = *a;
    struct album album;
    static struct inputs in;
    double began = seconds();
    take_tracks(&asked, words);
    check_standard_output();
    end_jobs_with_run();
    open_inputs(&in, &asked);
    spare_inputs(&in);
    open_album(&album, &asked, &in);
    tell_order(&asked);
    tell_settings(&album);
    begin_progress(album_name(&asked).name, album.opened.numbers.frames);
    sums = stretches[a->by];
    uint64_t clipped = hand_all(&album, lines_of, a->by == BY_FRAME ? write_lines : add_lines);
    print_sums();
    print_last(album.opened.numbers.frames, clipped);
    tell_speed(&album, began);
    return DONE;
}
