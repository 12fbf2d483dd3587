/* What a terminal shows. */
#define _GNU_SOURCE
#include "terminal.h"
#include <stdbool.h>
#include <stdio.h>
#include <string.h>
#include <sys/ioctl.h>
#include <time.h>
#include <unistd.h>
#include "ends.h"

enum { WIDEST = 500, USUAL = 80 };

/* ---- names */

int character(const char *text, uint32_t *code) {
    static const uint32_t least[] = {0, 0, 0x80, 0x800, 0x10000};
    const unsigned char *at = (const unsigned char *)text;
    int length = at[0] < 0x80 ? 1 : at[0] < 0xC0 ? 0 : at[0] < 0xE0 ? 2 : at[0] < 0xF0 ? 3 : at[0] < 0xF8 ? 4 : 0;
    uint32_t c = length < 2 ? at[0] : at[0] & (0x7Fu >> length);
    for (int k = 1; k < length; k++) {
        if ((at[k] & 0xC0) != 0x80) length = 0;
        c = c << 6 | (at[k] & 0x3Fu);
    }
    bool is_one = length && c >= least[length] && c <= 0x10FFFF && (c < 0xD800 || c > 0xDFFF);
    *code = is_one ? c : 0;
    return is_one ? length : 1;
}

/* What moves the cursor, or turns the direction of writing. */
static bool is_control(uint32_t c) {
    return c < 0x20 || (c >= 0x7F && c < 0xA0) || (c >= 0x200E && c <= 0x200F) || (c >= 0x2028 && c <= 0x202E) ||
           (c >= 0x2066 && c <= 0x2069);
}

void make_plain(char *text) {
    uint32_t code;
    for (int length; *text; text += length) {
        length = character(text, &code);
        if (is_control(code)) memset(text, '?', (size_t)length);
    }
}

/* Columns that a character takes. */
static int columns_of(uint32_t c) {
    static const uint32_t wide[][2] = {{0x1100, 0x115F},   {0x2E80, 0xA4CF},   {0xAC00, 0xD7A3},   {0xF900, 0xFAFF},
                                       {0xFE30, 0xFE6F},   {0xFF00, 0xFF60},   {0xFFE0, 0xFFE6},   {0x1F300, 0x1F64F},
                                       {0x1F900, 0x1F9FF}, {0x20000, 0x3FFFD}};
    for (size_t k = 0; k < sizeof wide / sizeof *wide; k++)
        if (c >= wide[k][0] && c <= wide[k][1]) return 2;
    return c >= 0x300 && c <= 0x36F ? 0 : 1;
}

/* The text's bytes that fit into so many columns, and how many columns these take. */
static int fitting(const char *text, int room, int *taken) {
    int bytes = 0;
    uint32_t code;
    *taken = 0;
    while (text[bytes]) {
        int length = character(text + bytes, &code), columns = columns_of(code);
        if (*taken + columns > room) break;
        *taken += columns;
        bytes += length;
    }
    return bytes;
}

/* ---- progress */

static struct {
    char name[WIDEST];
    uint64_t frames;
    double began, shown;
    volatile int width; /* of the line that is shown; 0: none is */
} progress;

double seconds(void) {
    struct timespec now;
    clock_gettime(CLOCK_MONOTONIC, &now);
    return (double)now.tv_sec + (double)now.tv_nsec / 1e9;
}

/* The terminal's last column stays free, so that the line never goes on in the next one. */
static int width_of_line(void) {
    struct winsize size = {.ws_col = 0};
    int width = ioctl(STDERR_FILENO, TIOCGWINSZ, &size) || !size.ws_col ? USUAL : size.ws_col;
    return width - 1 < WIDEST ? width - 1 : WIDEST;
}

void begin_progress(const char *name, uint64_t frames) {
    snprintf(progress.name, sizeof progress.name, "%s", name);
    make_plain(progress.name);
    progress.began = progress.shown = seconds();
    progress.frames = !quiet && isatty(STDERR_FILENO) ? frames : 0;
}

/* What cannot be written is not said: it tells nothing else. */
static void put(const char *text, int length) {
    if (write(STDERR_FILENO, text, (size_t)length) < 0) return;
}

static void show_line(const char *told) {
    char line[2 + 8 * WIDEST];
    int width = width_of_line(), rest, named, told_bytes = fitting(told, width, &rest);
    int name_bytes = fitting(progress.name, width - rest, &named);
    int length = snprintf(line, sizeof line, "\r%.*s%.*s%*s", name_bytes, progress.name, told_bytes, told,
                          width - rest - named, "");
    if (width < progress.width) clear_progress();
    progress.width = width;
    put(line, length);
}

/* Percent, times real time and time left, five times a second at most. A frame plays a 75th of a second. */
void show_progress(uint64_t done) {
    char told[100];
    double now = seconds(), took = now - progress.began;
    if (!progress.frames || !done || now - progress.shown < 0.2) return;
    progress.shown = now;
    unsigned long left = (unsigned long)(took * (double)(progress.frames - done) / (double)done + 0.5);
    snprintf(told, sizeof told, ": %.0f %%, %.0f times real time, %lu:%02lu left",
             100 * (double)done / (double)progress.frames, (double)done / 75 / took, left / 60, left % 60);
    show_line(told);
}

void share_progress(void) {
    progress.width = width_of_line();
}

void clear_progress(void) {
    char line[2 + WIDEST];
    int width = progress.width;
    if (!progress.frames || !width) return;
    progress.width = 0;
    memset(line, ' ', sizeof line);
    line[0] = line[width + 1] = '\r';
    put(line, width + 2);
}
