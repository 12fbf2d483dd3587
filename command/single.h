/* One file that is made, whole or not at all, where nothing is yet. */
#ifndef SINGLE_H
#define SINGLE_H

#include "input.h"

/* Begins it: what is there at the path ends the run. A signal, or what fails from then on, takes it back. Gives the
 * file. */
int begin_single(const char *path);

/* It is on the disk and has its name. Something that came there meanwhile ends the run. */
void end_single(void);

#endif
