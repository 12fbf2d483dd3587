/* An album, and all that is asked of the proved libraries for it: what they decide is asked here and nowhere else. */
#ifndef COMMAND_ALBUM_H
#define COMMAND_ALBUM_H

#include "args.h"
#include "input.h"
#include "puigneht/album.h"

struct album {
    const struct asked *asked;
    const struct inputs *in;
    puigneht_album opened;
};

/* Pieces `next`, `next + step` and so on, all before `end`. */
struct part {
    uint64_t next, end, step;
};

/* Says a refusal and ends where the album is refused. The tracks are read through the album from then on. */
void open_album(struct album *album, const struct asked *a, const struct inputs *in);

/* Part number `part` of so many. */
struct part part_of(const struct album *album, uint64_t parts, uint64_t part);

/* The header of the WAV file of a track, or of all (PUIGNEHT_ALL), named `path`. */
void head_of(const struct album *album, uint64_t track, const char *path, puigneht_wave *wave);

/* A piece that has only its place and its length. */
puigneht_piece planned_piece(const struct album *album, uint64_t number);

/* Memory for any piece; a piece is read and converted in it. */
puigneht_memory memory_of(const struct album *album);
puigneht_piece convert_piece(const struct album *album, uint64_t number, const puigneht_memory *memory);

/* The frames of a piece, not converted. */
puigneht_frames frames_of(const struct album *album, uint64_t number, const puigneht_memory *memory);

void join(puigneht_stats *s, const puigneht_stats *more);

/* The sheet's text, which has room for PUIGNEHT_SHEET_ROOM. */
void sheet_of(const struct album *album, const puigneht_stats *s, char *text);

#endif
