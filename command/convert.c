/* DSF files into WAV files and a level sheet.
 *
 * All are made beside the places that they are for, and take their names when they are whole and on the disk, the
 * tracks are as they were, and no signal can come between. What fails before the end is taken back. */
#define _POSIX_C_SOURCE 200809L
#include "convert.h"
#include <stdlib.h>
#include <string.h>
#include <unistd.h>
#include "bytes.h"
#include "ends.h"
#include "jobs.h"
#include "names.h"
#include "places.h"
#include "signals.h"
#include "terminal.h"
#include "told.h"

static struct outputs outputs;

/* Also called where a signal is handled. */
static void clean(void) {
    clear_progress();
    end_jobs();
    unmake_all(&outputs);
}

static _Noreturn void clean_and_exit(int status) {
    hold_signals();
    clean();
    exit(status);
}

/* Two WAV files of one name are refused before anything is read. */
static void check_names(const struct asked *a) {
    if (!a->folder) return;
    check_folder(a->folder);
    check_alike(a->tracks, a->count);
}

static void open_and_check(struct album *album, const struct asked *a, struct inputs *in) {
    open_inputs(in, a);
    open_album(album, a, in);
    name_outputs(&outputs, a);
    head_outputs(&outputs, album);
    check_places(&outputs, a, in);
}

static void write_sheet(const struct album *album, const puigneht_stats *s) {
    char text[PUIGNEHT_SHEET_ROOM];
    const char *path = album->asked->sheet;
    if (!path || outputs.sheet_kept) return;
    sheet_of(album, s, text);
    if (has_sheet_file(album->asked)) {
        write_at(outputs.sheet.file, path, (const uint8_t *)text, strlen(text), 0);
        settle(&outputs.sheet);
    } else {
        print(text);
    }
}

static void write_all(const struct album *album) {
    write_heads(&outputs);
    struct gave all = convert_all(album, &outputs);
    settle_all(&outputs);
    check_unchanged(album->in);
    write_sheet(album, &all.stats);
}

int convert_album(const struct asked *a) {
    struct album album;
    struct inputs in;
    double began = seconds();
    check_names(a);
    catch_signals(clean);
    leave = clean_and_exit;
    open_and_check(&album, a, &in);
    make_all(&outputs, a);
    tell_order(a);
    tell_headers(&outputs, &album);
    tell_settings(&album);
    begin_progress(album_name(a).name, album.opened.numbers.frames);
    write_all(&album);
    hold_signals(); /* from the first name on */
    name_all(&outputs, a, &in);
    tell_filled(&album);
    tell_speed(&album, began);
    return DONE;
}

int convert(const struct asked *a, const struct words *words) {
    struct asked album = *a;
    take_files(&album, words);
    return album.each ? convert_each(&album) : convert_album(&album);
}
