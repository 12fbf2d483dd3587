/* What the command does beside a conversion. Each gives the exit status. */
#ifndef OTHERS_H
#define OTHERS_H

#include "args.h"

/* An upload watched as it arrives: the file that is named, or standard input (no word, or "-"). */
int check(const struct asked *a, const struct words *words);

/* The level report of an album: a line for each channel of each frame, second or minute. */
int levels(const struct asked *a, const struct words *words);

/* What files are: for people, or for scripts. */
int info(const struct asked *a, const struct words *words);

/* The raw frames of an album, to the file that -o names, or to standard output. */
int frames(const struct asked *a, const struct words *words);

/* The DSF file of raw frames: the words CHANNELS FRAMES OUT.dsf. */
int dsf(const struct asked *a, const struct words *words);

/* Turns on one board: the words TURN FRAMES:DUE.. */
int turns(const struct asked *a, const struct words *words);

/* The factors of whole decibels. */
int gains(const struct asked *a, const struct words *words);

#endif
