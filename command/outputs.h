/* The WAV files of a conversion, and its sheet. */
#ifndef OUTPUTS_H
#define OUTPUTS_H

#include "album.h"
#include "made.h"

/* What becomes of a WAV file: it is made; it is written to standard output in order; it is compared with one that is
 * there; or it is there already and stays. */
enum way { MADE, PIPED, COMPARED, KEPT };

struct output {
    const char *path;
    enum way way;
    puigneht_wave wave;
    struct made made;
    int file;          /* of one that is compared: the file, and where its samples begin and end */
    uint64_t begin, end;
};

/* One WAV file, or one for each track. */
struct outputs {
    int count;
    struct output of[MOST_TRACKS];
    struct made sheet;
    bool sheet_kept; /* it is there already, and stays */
};

/* SHEET is a file, and no text to standard output. */
bool has_sheet_file(const struct asked *a);

/* A WAV file a track. */
bool has_tracks(const struct asked *a);

/* Their names. */
void name_outputs(struct outputs *o, const struct asked *a);

/* Their headers; what is refused ends the run. */
void head_outputs(struct outputs *o, const struct album *album);

/* The samples of piece `p` that go to an output are those of `w`: false where there are none. */
bool has_part(const struct album *album, const struct output *o, const puigneht_piece *p, puigneht_write *w);

/* A piece is written to the files that are made. */
void write_piece(const struct outputs *o, const struct album *album, const puigneht_piece *p);

/* Header and pad are written; all is on the disk then. */
void write_heads(const struct outputs *o);
void settle_all(struct outputs *o);

/* Files for those that are made, and for the sheet: beside their places. */
void make_all(struct outputs *o, const struct asked *a);

/* As before `make_all`. It may be called where a signal is handled while no name has been taken. */
void unmake_all(struct outputs *o);

/* All take their names, the sheet first; or none, and the run ends. No signal may come meanwhile. */
void name_all(struct outputs *o, const struct asked *a, const struct inputs *in);

#endif
