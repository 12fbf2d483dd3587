/* The names of an album's files. */
#ifndef NAMES_H
#define NAMES_H

#include <stdbool.h>
#include <stddef.h>

/* The last part of a path. */
const char *base_of(const char *path);

/* The name of a folder, without its path and what stands behind it; empty where it has none, as `.` has. */
void folder_name(const char *path, char *name, size_t room);

/* The WAV file of a track in a folder: the track's name with .wav for .dsf. Gives memory that is never given back. */
char *wav_of(const char *folder, const char *track);

/* Two of the tracks would have the same WAV file, where the case of letters makes no other name: that ends the run. */
void check_alike(char *const *tracks, int count);

/* Whether a number in the second name is less than the one at its place in the first. */
bool runs_backwards(const char *first, const char *second);

#endif
