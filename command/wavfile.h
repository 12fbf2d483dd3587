/* Where the samples of a WAV file are, whoever made it. */
#ifndef WAVFILE_H
#define WAVFILE_H

#include "input.h"

struct sound {
    uint64_t rate, channels, begin, end; /* the samples are bytes `begin` to `end` of the file */
};

/* Of a file of 24 bits a sample; another one ends the run. */
struct sound read_sound(const struct input *wav);

#endif
