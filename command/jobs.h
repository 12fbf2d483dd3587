/* The processes that share the work. */
#ifndef JOBS_H
#define JOBS_H

#include "outputs.h"

/* What all pieces gave: their statistics, and of files that are compared the first place of the album's samples that
 * differs (UINT64_MAX: none). */
struct gave {
    puigneht_stats stats;
    uint64_t differs;
};

/* All pieces are read, converted, and written or compared, by as many processes as the album has asked for (0: as many
 * as there are processors for this one). With standard output as the output they are written there in order, header and
 * pad too, the last one after a look at the inputs. A process that fails, or dies, ends the run at once. */
struct gave convert_all(const struct album *album, const struct outputs *outputs);

/* As many processes as that may be. */
uint64_t parts_of(const struct asked *a);

/* What a process hands on of a piece: bytes, at most MOST_HANDED; its frames; and a number that is summed up. */
enum { MOST_HANDED = 1 << 17 };
struct handed {
    const uint8_t *bytes;
    size_t length;
    uint64_t frames, sum;
};
typedef struct handed make_handed(const struct album *album, uint64_t piece);
typedef void take_handed(const uint8_t *bytes, size_t length);

/* What `make` hands on of all pieces, which processes take in turns, comes to `take` in order, the last after a look at
 * the inputs. Gives the sum. */
uint64_t hand_all(const struct album *album, make_handed *make, take_handed *take);

/* Ends the processes. It may be called where a signal is handled. */
void end_jobs(void);

/* From then on a signal or a failure ends them, and clears the progress: for a run that makes no files. */
void end_jobs_with_run(void);

#endif
