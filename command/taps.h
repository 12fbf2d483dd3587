/* A low-pass of a label's own, out of a text. */
#ifndef TAPS_H
#define TAPS_H

#include "input.h"
#include "puigneht.h"

struct filter {
    int32_t taps[PUIGNEHT_MOST_TAPS]; /* the first ones, if there are more */
    size_t count;
};

/* Whole numbers, one a line, from the centre outwards. A line that is none ends the run. */
void read_filter(struct filter *f, const struct input *in);

#endif
