/* Pieces beside WAV files that are there. */
#ifndef COMPARED_H
#define COMPARED_H

#include "outputs.h"

/* The first place of the album's samples at which the piece differs from a file; UINT64_MAX where none does. */
uint64_t compare_piece(const struct outputs *o, const struct album *album, const puigneht_piece *p);

#endif
