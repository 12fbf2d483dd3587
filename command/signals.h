/* Signals that end a run. */
#ifndef SIGNALS_H
#define SIGNALS_H

#include <signal.h>

/* A pipe without a reader, and a file that may not grow, are failed writes; and processes can be waited for, also
 * where whoever started this one ignores that they end. */
void set_signals(void);

/* What is to be removed is removed by `clean` where a signal ends the run. */
void catch_signals(void (*clean)(void));

/* Signals end the process at once again. */
void release_signals(void);

/* No signal from here on. Gives the mask that was. */
sigset_t hold_signals(void);

#endif
