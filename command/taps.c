/* A low-pass of a label's own. How many taps it may have, and their sums, are decided by the library. */
#include "taps.h"
#include <stdio.h>
#include <string.h>
#include "bytes.h"
#include "ends.h"

enum { LONGEST = 65536 };

/* A number past LIMIT is held there, which is more than a filter's taps may come to. */
static void take_line(struct filter *f, const char *line, const char *path) {
    int64_t tap;
    if (!is_number(line, &tap))
        stop(REFUSED, "line %zu of %s is '%.100s', and is to be a whole number", f->count + 1, path, line);
    if (f->count < PUIGNEHT_MOST_TAPS) f->taps[f->count] = (int32_t)tap;
    f->count++;
}

void read_filter(struct filter *f, const struct input *in) {
    char text[LONGEST + 1], *line = text;
    if (in->length > LONGEST) stop(REFUSED, "%s is longer than 117 taps can be", in->path);
    read_at(in->file, in->path, (uint8_t *)text, (size_t)in->length, 0);
    text[in->length] = 0;
    if (strlen(text) != in->length) stop(REFUSED, "%s is no text", in->path);
    f->count = 0;
    while (*line) {
        size_t length = strcspn(line, "\r\n");
        char *next = line + length;
        next += next[0] == '\r' && next[1] == '\n';
        next += *next != 0;
        line[length] = 0;
        take_line(f, line, in->path);
        line = next;
    }
}
