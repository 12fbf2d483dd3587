/* DSF files into WAV files and a level sheet, and WAV files compared with what they would be. */
#ifndef CONVERT_H
#define CONVERT_H

#include "args.h"

/* Does what is asked for; what fails or is refused ends the run. Gives the exit status. */
int convert(const struct asked *a, const struct words *words);
int verify(const struct asked *a, const struct words *words);

/* One album. */
int convert_album(const struct asked *a);

/* Each of the files by itself, in a process of its own. */
int convert_each(const struct asked *a);

#endif
