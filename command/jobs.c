/* The processes that share the work: each converts pieces of its own, and tells each by a message in a pipe of its own.
 * The pipe's end before its last piece is the process's death.
 *
 * A process has a part of the album, and writes each piece to its places. Where the output is a pipe the processes take
 * the pieces in turns, hand the bytes on behind their messages, and they are written in order. */
#define _GNU_SOURCE
#define _FILE_OFFSET_BITS 64
#include "jobs.h"
#include <errno.h>
#include <limits.h>
#include <poll.h>
#include <sched.h>
#include <signal.h>
#include <stdio.h>
#include <stdlib.h>
#include <sys/wait.h>
#include <unistd.h>
#include "bytes.h"
#include "compared.h"
#include "ends.h"
#include "signals.h"
#include "terminal.h"

/* What a job tells: a piece that it has written, compared or (in a pipe) hands on, or the exit status that it ends
 * with. */
struct message {
    uint64_t piece, frames, place, length, sum;
    struct gave gave;
    int status;
};
_Static_assert(sizeof(struct message) <= _POSIX_PIPE_BUF, "a message is written whole");

struct job {
    pid_t process; /* 0: none, or it has ended */
    int from;      /* its pipe; -1: it has ended */
    struct part part;
    struct gave gave;
};

/* What all of them work on. */
struct work {
    const struct album *album;
    const struct outputs *outputs;
    enum way way;
    make_handed *make; /* NULL: pieces are converted */
};

static struct job jobs[MOST_JOBS];
static int telling; /* of a job: its end of the pipe */

void end_jobs(void) {
    for (int k = 0; k < MOST_JOBS; k++)
        if (jobs[k].process) kill(jobs[k].process, SIGKILL);
}

static struct gave nothing(void) {
    return (struct gave){puigneht_no_stats(), UINT64_MAX};
}

static void join_gave(struct gave *all, const struct gave *more) {
    join(&all->stats, &more->stats);
    if (more->differs < all->differs) all->differs = more->differs;
}

static void end_work(void) {
    clear_progress();
    end_jobs();
}

static _Noreturn void end_work_and_exit(int status) {
    hold_signals();
    end_work();
    exit(status);
}

void end_jobs_with_run(void) {
    catch_signals(end_work);
    leave = end_work_and_exit;
}

/* ---- a job */

/* It says itself what failed; its parent ends the run with its status. */
static _Noreturn void tell_and_exit(int status) {
    struct message m = {.status = status};
    _exit(write(telling, &m, sizeof m) == sizeof m ? status : SYSTEM);
}

/* A piece without a sample that is still to be written is left out, unless the sheet tells of it. */
static bool is_needed(const struct work *w, const puigneht_piece *p) {
    puigneht_write part;
    if (w->way != MADE || (w->album->asked->sheet && !w->outputs->sheet_kept)) return true;
    for (int k = 0; k < w->outputs->count; k++)
        if (w->outputs->of[k].way == MADE && has_part(w->album, &w->outputs->of[k], p, &part)) return true;
    return false;
}

static void use(const struct work *w, const puigneht_piece *p, struct message *m) {
    m->gave.stats = p->stats;
    if (w->way == MADE) write_piece(w->outputs, w->album, p);
    if (w->way == COMPARED) m->gave.differs = compare_piece(w->outputs, w->album, p);
    if (w->way == PIPED) m->place = p->place, m->length = p->length;
}

static void tell(const struct message *m, const uint8_t *bytes) {
    if (write(telling, m, sizeof *m) != sizeof *m) _exit(SYSTEM);
    if (m->length) write_on(telling, "a pipe", bytes, (size_t)m->length);
}

static _Noreturn void make_and_hand(const struct work *w, struct part part) {
    for (uint64_t k = part.next; k < part.end; k += part.step) {
        struct handed h = w->make(w->album, k);
        struct message m = {.piece = k, .frames = h.frames, .length = h.length, .sum = h.sum, .gave = nothing()};
        tell(&m, h.bytes);
    }
    _exit(DONE);
}

static _Noreturn void work(const struct work *w, struct part part) {
    puigneht_memory memory = memory_of(w->album);
    for (uint64_t k = part.next; k < part.end; k += part.step) {
        puigneht_piece p = planned_piece(w->album, k);
        struct message m = {.piece = k, .frames = p.count, .gave = nothing()};
        if (is_needed(w, &p)) {
            p = convert_piece(w->album, k, &memory);
            use(w, &p, &m);
        }
        tell(&m, p.bytes);
    }
    _exit(DONE);
}

/* A job keeps no pipe of the others: with its parent gone its next message fails, and it ends. */
static void be_job(int k, const int *ends_of_pipe, const sigset_t *mask) {
    for (int other = 0; other < k; other++) close(jobs[other].from);
    close(ends_of_pipe[0]);
    telling = ends_of_pipe[1];
    leave = tell_and_exit;
    share_progress();
    release_signals();
    sigprocmask(SIG_SETMASK, mask, NULL);
}

static void start(const struct work *w, int k, struct part part) {
    struct job *j = &jobs[k];
    int ends_of_pipe[2];
    if (pipe(ends_of_pipe)) failed("make", "a pipe");
    j->part = part;
    j->gave = nothing();
    sigset_t before = hold_signals();
    pid_t process = fork();
    if (process == 0) {
        be_job(k, ends_of_pipe, &before);
        if (w->make) make_and_hand(w, part);
        work(w, part);
    }
    int error = errno;
    if (process > 0) j->process = process;
    sigprocmask(SIG_SETMASK, &before, NULL);
    errno = error;
    if (process < 0) failed("start", "a process");
    close(ends_of_pipe[1]);
    j->from = ends_of_pipe[0];
}

/* ---- the parent */

/* One message: false where the pipe ends. */
static bool hears(int from, struct message *m) {
    size_t done = 0;
    while (done < sizeof *m) {
        size_t n = read_some(from, "a pipe", (uint8_t *)m + done, sizeof *m - done);
        if (n == 0 && done) stop(SYSTEM, "a process ended inside a message");
        if (n == 0) return false;
        done += n;
    }
    return true;
}

/* A job whose pipe has ended. */
static void see_off(struct job *j) {
    int status = 0;
    sigset_t before = hold_signals();
    while (waitpid(j->process, &status, 0) < 0)
        if (errno != EINTR) failed("wait for", "a process");
    j->process = 0;
    sigprocmask(SIG_SETMASK, &before, NULL);
    close(j->from);
    j->from = -1;
    if (WIFSIGNALED(status)) stop(SYSTEM, "a process was ended by signal %d", WTERMSIG(status));
    if (status) stop(SYSTEM, "a process ended with status %d", WEXITSTATUS(status));
    if (j->part.next < j->part.end) stop(SYSTEM, "a process ended before its last piece");
}

/* What a job tells next: false where it has ended. */
static bool hear(struct job *j, struct message *m) {
    if (!hears(j->from, m)) return see_off(j), false;
    if (m->status > DONE && m->status <= UNFINISHED) leave(m->status);
    if (m->status || m->piece != j->part.next || m->piece >= j->part.end) stop(SYSTEM, "a message that is none");
    join_gave(&j->gave, &m->gave);
    j->part.next += j->part.step;
    return true;
}

/* Waits until some jobs have told something, or have ended; false where none is left. */
static bool wait_for_jobs(struct pollfd *heard, int count) {
    int left = 0;
    for (int k = 0; k < count; k++) {
        heard[k] = (struct pollfd){.fd = jobs[k].from, .events = POLLIN};
        left += jobs[k].from >= 0;
    }
    if (left && poll(heard, (nfds_t)count, -1) < 0 && errno != EINTR) failed("wait for", "a process");
    return left;
}

static uint64_t hear_some(const struct pollfd *heard, int count) {
    uint64_t done = 0;
    struct message m;
    for (int k = 0; k < count; k++)
        if (heard[k].fd >= 0 && heard[k].revents && hear(&jobs[k], &m)) done += m.frames;
    return done;
}

/* Gives the frames that are done. */
static uint64_t hear_all(int count) {
    struct pollfd heard[MOST_JOBS];
    uint64_t done = 0;
    while (wait_for_jobs(heard, count)) {
        done += hear_some(heard, count);
        show_progress(done);
    }
    return done;
}

/* ---- in order */

static void hand_on(struct job *j, uint64_t length) {
    static uint8_t bytes[1 << 16];
    while (length) {
        size_t n = read_some(j->from, "a pipe", bytes, length < sizeof bytes ? (size_t)length : sizeof bytes);
        if (n == 0) stop(SYSTEM, "a process ended inside a piece");
        write_on(STDOUT_FILENO, "standard output", bytes, n);
        length -= n;
    }
}

/* All that the inputs give is read before the last piece comes: if they have changed, the file stays short. */
static uint64_t hear_in_order(const struct work *w, int count) {
    static const uint8_t zero[1];
    const puigneht_wave *wave = &w->outputs->of[0].wave;
    uint64_t done = 0, written = 0, pieces = w->album->opened.numbers.pieces;
    struct message m;
    write_on(STDOUT_FILENO, "standard output", wave->head, wave->head_len);
    for (uint64_t k = 0; k < pieces; k++) {
        struct job *j = &jobs[k % (uint64_t)count];
        if (!hear(j, &m)) stop(SYSTEM, "a process ended before its last piece");
        if (m.place != written) stop(SYSTEM, "a piece that does not follow the one before it");
        if (k + 1 == pieces) check_unchanged(w->album->in);
        hand_on(j, m.length);
        written += m.length;
        done += m.frames;
        show_progress(done);
    }
    if (written != wave->data) stop(SYSTEM, "pieces that are not the whole album");
    write_on(STDOUT_FILENO, "standard output", zero, (size_t)wave->pad);
    return done + hear_all(count);
}

/* ---- all */

/* The processors that this process may run on. */
uint64_t parts_of(const struct asked *a) {
    static cpu_set_t sets[16];
    if (a->jobs) return a->jobs;
    long count = sched_getaffinity(0, sizeof sets, sets) ? sysconf(_SC_NPROCESSORS_ONLN) : CPU_COUNT_S(sizeof sets, sets);
    return count < 1 ? 1 : count > MOST_JOBS ? MOST_JOBS : (uint64_t)count;
}

/* The part of a job: pieces that follow each other, or in turns. */
static struct part part_for(const struct work *w, uint64_t parts, uint64_t k) {
    if (w->way != PIPED) return part_of(w->album, parts, k);
    uint64_t pieces = w->album->opened.numbers.pieces;
    return (struct part){k < pieces ? k : pieces, pieces, parts};
}

/* Gives how many jobs there are: parts without pieces have none. */
static int start_all(const struct work *w) {
    uint64_t parts = parts_of(w->album->asked);
    int count = 0;
    for (uint64_t k = 0; k < parts; k++) {
        struct part part = part_for(w, parts, k);
        if (part.next < part.end) start(w, count++, part);
    }
    return count;
}

/* Tracks that stay are among those that are made. */
static enum way way_of(const struct outputs *o) {
    enum way first = o->of[0].way;
    return first == KEPT ? MADE : first;
}

/* Statistics are joined within each part and then over the parts. */
struct gave convert_all(const struct album *album, const struct outputs *outputs) {
    struct work w = {album, outputs, way_of(outputs), NULL};
    struct gave all = nothing();
    int count = start_all(&w);
    uint64_t done = w.way == PIPED ? hear_in_order(&w, count) : hear_all(count);
    clear_progress();
    if (done != album->opened.numbers.frames)
        stop(SYSTEM, "not every frame of %s was told to be written", album->asked->tracks[0]);
    for (int k = 0; k < count; k++) join_gave(&all, &jobs[k].gave);
    return all;
}

static void read_handed(const struct job *j, uint8_t *bytes, uint64_t length) {
    if (length > MOST_HANDED) stop(SYSTEM, "a message that is none");
    for (uint64_t done = 0, n; done < length; done += n) {
        n = read_some(j->from, "a pipe", bytes + done, (size_t)(length - done));
        if (n == 0) stop(SYSTEM, "a process ended inside a piece");
    }
}

uint64_t hand_all(const struct album *album, make_handed *make, take_handed *take) {
    static uint8_t bytes[MOST_HANDED];
    struct work w = {album, NULL, PIPED, make};
    struct message m;
    uint64_t done = 0, sum = 0, pieces = album->opened.numbers.pieces;
    int count = start_all(&w);
    for (uint64_t k = 0; k < pieces; k++) {
        struct job *j = &jobs[(int)(k % (unsigned)count)];
        if (!hear(j, &m)) stop(SYSTEM, "a process ended before its last piece");
        read_handed(j, bytes, m.length);
        if (k + 1 == pieces) check_unchanged(album->in);
        take(bytes, (size_t)m.length);
        done += m.frames, sum += m.sum;
        show_progress(done);
    }
    done += hear_all(count);
    clear_progress();
    if (done != album->opened.numbers.frames) stop(SYSTEM, "not every frame of %s was told", album->asked->tracks[0]);
    return sum;
}
