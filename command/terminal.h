/* What a terminal shows: names without control characters, and the progress of a conversion. */
#ifndef TERMINAL_H
#define TERMINAL_H

#include <stdint.h>

/* How many bytes the character has that begins here, and its code; 1 byte and 0 where there is no UTF-8. */
int character(const char *text, uint32_t *code);

/* Each byte of a control character, and each that is no UTF-8, becomes a question mark. */
void make_plain(char *text);

/* Progress of what has a name and plays so many frames is shown on standard error, if that is a terminal and -q is not
 * given. */
void begin_progress(const char *name, uint64_t frames);

/* So many frames are done. */
void show_progress(uint64_t done);

/* The line of the progress is blank again. It may be called where a signal is handled. */
void clear_progress(void);

/* In a process that was started by one that shows progress: its line may be there. */
void share_progress(void);

/* Seconds since some moment. */
double seconds(void);

#endif
