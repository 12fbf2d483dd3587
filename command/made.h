/* Files that are made: beside the one whose name they take, whole or not at all. */
#ifndef MADE_H
#define MADE_H

#include <limits.h>
#include <signal.h>
#include <stdbool.h>

/* How a file took its name: nothing had it; what had it has the file's first name now; or it is gone. */
enum taken { NOT_YET, ALONE, EXCHANGED, REPLACED };

struct made {
    const char *path; /* NULL: nothing is made */
    char name[PATH_MAX];
    int file;
    volatile sig_atomic_t there; /* it has its first name, and no other */
    enum taken taken;
};

/* Whether two paths name the same entry of the same folder. */
bool same_place(const char *one, const char *other);

/* A new file beside `path`, with the mode that any new file gets there. */
void make(struct made *m, const char *path);

/* All is on the disk: a full disk that was not told before is told now. */
void settle(struct made *m);

/* The file takes the name that it is for: false where something has it, which stays so. */
bool name_new(struct made *m);

/* It takes the name from what has it: false where nothing has it any more. */
bool name_over(struct made *m);

/* The system does not name it: in its words. */
_Noreturn void name_failed(const struct made *m);

/* The folder's new entry is on the disk too, where its file system can be asked for that. */
void settle_folder(const struct made *m);

/* What was replaced is removed: from here on nothing can be taken back. */
void keep(struct made *m);

/* As before `make`: what has been named is taken back, and what cannot be is said. It may be called where a signal is
 * handled while no name has been taken. */
void unmake(struct made *m);

#endif
