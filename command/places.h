/* Where the outputs may be made. */
#ifndef PLACES_H
#define PLACES_H

#include "outputs.h"

/* No two of the outputs are one file, none is an input or a DSF file, and none is there unless it may be replaced or
 * passed over, which is noted; else the run ends. */
void check_places(struct outputs *o, const struct asked *a, const struct inputs *in);

/* The same where something has come to an output, or to the sheet, meanwhile: whether it is to be replaced; else it is
 * passed over, or the run ends. A sheet that is named by then is this run's. */
bool look_again(struct output *output, const struct asked *a, const struct inputs *in);
bool look_at_sheet_again(const struct outputs *o, const struct asked *a, const struct inputs *in);

/* The folder is there. */
void check_folder(const char *path);

#endif
