/* What is said of a conversion that goes as it should. */
#ifndef TOLD_H
#define TOLD_H

#include <limits.h>
#include "outputs.h"

/* What the album is called: its folder, its WAV file, or its first DSF file. */
struct called {
    char name[NAME_MAX + 1];
};
struct called album_name(const struct asked *a);

/* The tracks in their order, and where numbers in their names run backwards. */
void tell_order(const struct asked *a);

/* Which files do not have the plain header, where it was left to the command. */
void tell_headers(const struct outputs *o, const struct album *album);

/* An album that ends inside a frame, where its file has the fill. */
void tell_filled(const struct album *album);

/* Settings and route; how long it took. */
void tell_settings(const struct album *album);
void tell_speed(const struct album *album, double began);

#endif
