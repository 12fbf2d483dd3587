/* The files that are read, as they are opened and as they must stay. */
#ifndef INPUT_H
#define INPUT_H

#include <stdbool.h>
#include <stdint.h>
#include <sys/stat.h>
#include "args.h"

struct input {
    const char *path;
    int file;
    uint64_t length;
    struct stat is; /* as it was when it was opened */
};

/* The tracks, and the file of taps if there is one. */
struct inputs {
    int count;
    struct input of[MOST_TRACKS];
    struct input taps; /* without one its path is NULL */
};

/* Opens a file. A pipe is not waited for: it is refused. */
void open_input(struct input *in, const char *path);

/* Opens all that is read for a conversion. */
void open_inputs(struct inputs *in, const struct asked *a);

/* All are still as they were: their lengths, and the times of their last changes. Else the run ends. */
void check_unchanged(const struct inputs *in);

/* Standard output is no file that is read, which would grow by what is written: else the run ends. It is asked before
 * anything is written, of a file that is open, of all inputs, or of a name whose file is not open yet. */
void spare(const char *path, const struct stat *is);
void spare_inputs(const struct inputs *in);
void spare_named(const char *path);

/* The input that the file is, or NULL. */
const struct input *input_of(const struct inputs *in, const struct stat *is);

#endif
