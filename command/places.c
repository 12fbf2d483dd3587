/* Where the outputs may be made. */
#define _DEFAULT_SOURCE
#define _FILE_OFFSET_BITS 64
#include "places.h"
#include <errno.h>
#include <fcntl.h>
#include <stdint.h>
#include <string.h>
#include <strings.h>
#include <unistd.h>
#include "bytes.h"
#include "ends.h"

void check_folder(const char *path) {
    struct stat is;
    if (stat(path, &is)) failed("look at the folder", path);
    if (!S_ISDIR(is.st_mode)) stop(REFUSED, "%s is no folder", path);
}

/* ---- what is no place for an output */

/* A master is never replaced: a name that ends in .dsf was meant to be an input, or to end otherwise. */
static void check_name(const char *path, const char *end) {
    size_t length = strlen(path);
    if (length < 4 || strcasecmp(path + length - 4, ".dsf")) return;
    stop(REFUSED, "%s has the name of a DSF file, and none is written: is %.*s%s meant?", path, (int)length - 4, path, end);
}

/* One that may not be read, and would not be replaced, is none. */
static bool is_dsf(const char *path, bool replaced) {
    uint8_t head[4];
    int file = open(path, O_RDONLY | O_NONBLOCK | O_CLOEXEC);
    if (file < 0 && !replaced) return false;
    if (file < 0) failed("look into", path);
    size_t count = read_some(file, path, head, sizeof head);
    close(file);
    return count == sizeof head && !memcmp(head, "DSD ", sizeof head);
}

static void check_input(const char *path, const struct inputs *in) {
    struct stat is;
    const struct input *same = stat(path, &is) ? NULL : input_of(in, &is);
    if (same) stop(REFUSED, "%s is the input, %s: the output must be another file", path, same->path);
}

/* Gives whether a file is there: a regular one that may be replaced if that is asked for. */
static bool is_taken(const char *path, const char *end, const struct asked *a, const struct inputs *in) {
    struct stat is;
    check_input(path, in);
    check_name(path, end);
    if (lstat(path, &is)) {
        if (errno != ENOENT) failed("look at", path);
        return false;
    }
    if (!S_ISREG(is.st_mode)) stop(REFUSED, "%s is there and is not a regular file", path);
    if (is_dsf(path, a->there == REPLACE))
        stop(REFUSED, "%s is a DSF file, and none is replaced: is it an input?", path);
    return true;
}

static bool is_out_taken(const struct output *o, const struct asked *a, const struct inputs *in) {
    return o->way == MADE && is_taken(o->path, ".wav", a, in);
}

static bool is_sheet_taken(const struct asked *a, const struct inputs *in) {
    return has_sheet_file(a) && is_taken(a->sheet, ".sheet", a, in);
}

/* ---- standard output */

static void check_pipe(void) {
    check_standard_output();
    if (isatty(STDOUT_FILENO)) stop(REFUSED, "- is a terminal, and no WAV file is written to one: name a file, or a pipe");
}

static void check_two(const struct output *o, const struct asked *a, const struct inputs *in) {
    bool printed = a->sheet && !has_sheet_file(a);
    if (o->way == PIPED) check_pipe();
    if (o->way == PIPED || printed) spare_inputs(in);
    if (!a->sheet) return;
    if (has_sheet_file(a) ? o->way == MADE && same_place(a->sheet, o->path) : o->way == PIPED)
        stop(REFUSED, "%s is to be the sheet and the output: they must be two files", a->sheet);
}

/* ---- what is there already */

/* Of one WAV file: where all that is asked for is there, it may be passed over. */
static void check_there(const struct output *o, const struct asked *a, bool out, bool sheet) {
    const char *path = out ? o->path : a->sheet, *other = out ? a->sheet : o->path;
    if (a->there == REPLACE || (!out && !sheet)) return;
    if (a->there == SAY) stop(THERE, "%s is there already: -f replaces it", path);
    if (has_sheet_file(a) && out != sheet)
        stop(THERE, "%s is there already, and %s is not: -f makes both", path, other);
    finish("%s is there already: it is left as it is", path);
}

/* Of tracks: each that is there is passed over, or the run ends. */
static bool is_kept(const char *path, const struct asked *a) {
    if (a->there == REPLACE) return false;
    if (a->there == SAY) stop(THERE, "%s is there already: -f replaces it, -n makes what is missing", path);
    note("%s is there already: it is left as it is", path);
    return true;
}

static void check_tracks_there(struct outputs *o, const struct asked *a, const struct inputs *in) {
    int left = 0;
    for (int k = 0; k < o->count; k++) {
        if (is_out_taken(&o->of[k], a, in) && is_kept(o->of[k].path, a)) o->of[k].way = KEPT;
        left += o->of[k].way != KEPT;
    }
    o->sheet_kept = is_sheet_taken(a, in) && is_kept(a->sheet, a);
    if (!left && (!a->sheet || o->sheet_kept)) finish("all is there already");
}

void check_places(struct outputs *o, const struct asked *a, const struct inputs *in) {
    for (int k = 0; k < o->count; k++) check_two(&o->of[k], a, in);
    if (has_tracks(a)) {
        check_tracks_there(o, a, in);
    } else {
        bool out = is_out_taken(&o->of[0], a, in), sheet = is_sheet_taken(a, in);
        check_there(&o->of[0], a, out, sheet);
    }
}

bool look_again(struct output *output, const struct asked *a, const struct inputs *in) {
    bool there = is_out_taken(output, a, in);
    if (has_tracks(a)) return !there || !is_kept(output->path, a);
    check_there(output, a, there, false);
    return true;
}

bool look_at_sheet_again(const struct outputs *o, const struct asked *a, const struct inputs *in) {
    bool there = is_sheet_taken(a, in);
    if (has_tracks(a)) return !there || !is_kept(a->sheet, a);
    check_there(&o->of[0], a, is_out_taken(&o->of[0], a, in), there);
    return true;
}
