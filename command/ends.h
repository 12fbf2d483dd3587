/* How a run ends: exit statuses, and what is said. */
#ifndef ENDS_H
#define ENDS_H

#include <stdbool.h>
#include "puigneht.h"

/* Exit statuses: done or accepted; the system failed; usage; refused, an upload to be given up, or another WAV file;
 * the output is there already; an upload that is not finished. */
enum { DONE = 0, SYSTEM = 1, USAGE = 2, REFUSED = 3, THERE = 4, UNFINISHED = 5 };

/* What ends a run after its sentence is said; NULL: exit with the status. */
extern void (*leave)(int status);

/* What goes as it should is not said. */
extern bool quiet;

/* Says what is wrong, in one write, and ends. */
_Noreturn void stop(int status, const char *format, ...) __attribute__((format(printf, 2, 3)));

/* Says that there is nothing more to do, and ends. */
_Noreturn void finish(const char *format, ...) __attribute__((format(printf, 1, 2)));

/* The system failed: in its words. */
_Noreturn void failed(const char *what, const char *path);

/* The sentence of a refusal and the file's name. */
_Noreturn void refuse(const puigneht_refusal *refusal, const char *path);

/* A line of what is to be known though nothing failed; one of what goes as it should. */
void warn(const char *format, ...) __attribute__((format(printf, 1, 2)));
void note(const char *format, ...) __attribute__((format(printf, 1, 2)));

#endif
