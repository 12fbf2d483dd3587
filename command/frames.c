/* The raw frames of an album, which the level report and converters of raw frames read: 4,704 bytes of each channel,
 * the channels in turn, the earliest bit highest; the last frame filled up with 0x69. */
#define _POSIX_C_SOURCE 200809L
#define _FILE_OFFSET_BITS 64
#include <stdlib.h>
#include <string.h>
#include <unistd.h>
#include "album.h"
#include "bytes.h"
#include "ends.h"
#include "others.h"
#include "single.h"
#include "terminal.h"
#include "told.h"

/* All that the inputs give is read before the last piece is written: if they have changed, the frames stay short. */
static void write_frames(const struct album *album, int file, const char *path) {
    const puigneht_album *a = &album->opened;
    puigneht_memory memory = memory_of(album);
    size_t one = (size_t)a->converter.numbers.frame_bytes;
    for (uint64_t k = 0; k < a->numbers.pieces; k++) {
        puigneht_frames f = frames_of(album, k, &memory);
        if (k + 1 == a->numbers.pieces) check_unchanged(album->in);
        write_on(file, path, f.bytes + f.before * one, (size_t)f.count * one);
        show_progress(f.first + f.count);
    }
    free(memory.bytes);
}

int frames(const struct asked *a, const struct words *words) {
    struct asked asked = *a;
    struct album album;
    static struct inputs in;
    const char *path = a->folder;
    if (!path) stop(USAGE, "-o FRAMES is missing: a file, or - for standard output");
    asked.folder = NULL;
    take_tracks(&asked, words);
    bool piped = !strcmp(path, "-");
    if (piped) check_standard_output();
    open_inputs(&in, &asked);
    if (piped) spare_inputs(&in);
    open_album(&album, &asked, &in);
    int file = piped ? STDOUT_FILENO : begin_single(path);
    tell_order(&asked);
    begin_progress(album_name(&asked).name, album.opened.numbers.frames);
    write_frames(&album, file, piped ? "standard output" : path);
    clear_progress();
    if (!piped) end_single();
    tell_filled(&album);
    return DONE;
}
