/* A rack: DSF albums converted to WAV files in turns, a piece each, by some threads. Prints their sheets and overs.
 *     cc -O2 -Iinclude examples/rack.c target/staticlib/libpuigneht{_album,}.a -lpthread -o target/rack
 *     target/rack RATE CUTOFF DB THREADS {IN.dsf OUT.wav}...     (88200 0 -6 4 a.dsf a.wav; CUTOFF 1 is low, 2 wide) */
#define _POSIX_C_SOURCE 200809L
#include <err.h>
#include <fcntl.h>
#include <pthread.h>
#include <stdio.h>
#include <stdlib.h>
#include <unistd.h>
#include "puigneht/album.h"

enum { MOST = 64 };
static struct job {
    const char *in, *out;
    int from, to;
    puigneht_album album;
    puigneht_wave wave;   /* the file that it becomes */
    puigneht_stats stats; /* of the pieces that were converted */
    uint64_t next;        /* piece */
} jobs[MOST];
static size_t count, going, room; /* albums, turns given out, and the memory that each piece fits */
static pthread_mutex_t lock = PTHREAD_MUTEX_INITIALIZER;

/* The whole number that a word is. */
static long number_of(const char *word, long least, long most) {
    char *end;
    const long number = strtol(word, &end, 10);
    if (end == word || *end || number < least || number > most) errx(1, "'%s' is not %ld to %ld", word, least, most);
    return number;
}

/* Nothing if a call was accepted, else its refusal as a sentence. */
static void expect(uint8_t answer, const char *who, const puigneht_refusal *refusal) {
    char text[PUIGNEHT_DESCRIPTION_ROOM];
    if (answer) errx(1, "%s: %s", who, puigneht_describe(refusal, text, sizeof text));
}

static int read_at(void *context, uint64_t place, uint8_t *bytes, size_t length) {
    for (ssize_t n; length; place += (uint64_t)n, bytes += n, length -= (size_t)n)
        if ((n = pread(*(int *)context, bytes, length, (off_t)place)) <= 0) return 1;
    return 0;
}
static void write_at(const struct job *j, puigneht_write w) {
    for (ssize_t n; w.length; w.place += (uint64_t)n, w.bytes += n, w.length -= (size_t)n)
        if ((n = pwrite(j->to, w.bytes, w.length, (off_t)w.place)) <= 0) err(1, "%s", j->out);
}

static void open_job(struct job *j, char **names, const puigneht_settings *settings) {
    puigneht_refusal refusal;
    off_t length;
    j->in = names[0], j->out = names[1], j->stats = puigneht_no_stats();
    if ((j->from = open(j->in, O_RDONLY)) < 0 || (length = lseek(j->from, 0, SEEK_END)) < 0) err(1, "%s", j->in);
    puigneht_source source = {read_at, &j->from, (uint64_t)length};
    expect(puigneht_album_open(&j->album, &source, 1, settings, &refusal), j->in, &refusal);
    expect(puigneht_album_header(&j->album, PUIGNEHT_FORMAT_AUTO, PUIGNEHT_ALL, &j->wave, &refusal), j->in, &refusal);
    if (room < puigneht_album_memory(&j->album)) room = puigneht_album_memory(&j->album);
    if ((j->to = open(j->out, O_RDWR | O_CREAT | O_EXCL, 0666)) < 0) err(1, "%s", j->out);
    write_at(j, (puigneht_write){j->wave.head, j->wave.head_len, 0}); /* whole frames are even: there is no pad */
}

/* The next turn: an album and its piece. */
static struct job *turn(uint64_t *piece) {
    for (size_t k = 0; k < count; k++) {
        struct job *j = &jobs[going++ % count];
        if (j->next < j->album.numbers.pieces) return *piece = j->next++, j;
    }
    return NULL;
}

/* A thread takes turns until there is none. Statistics joined in any order are the album's. */
static void *work(void *unused) {
    puigneht_memory memory = {malloc(room), room}; /* some 6 MB */
    if (!memory.bytes) err(1, "a thread");
    for (uint64_t number = 0;;) {
        puigneht_refusal refusal;
        puigneht_piece piece;
        pthread_mutex_lock(&lock);
        struct job *j = turn(&number);
        pthread_mutex_unlock(&lock);
        if (!j) return free(memory.bytes), unused;
        expect(puigneht_album_piece(&j->album, number, &memory, &piece, &refusal), j->in, &refusal);
        write_at(j, puigneht_album_write(&j->album, &j->wave, &piece));
        pthread_mutex_lock(&lock);
        if (puigneht_join_stats(&j->stats, &piece.stats)) errx(1, "statistics that are none");
        pthread_mutex_unlock(&lock);
    }
}

/* The sheet, and the overs of the samples that were written. */
static void report(struct job *j) {
    static uint8_t bytes[180000]; /* whole turns of one to six channels */
    static int32_t samples[sizeof bytes / 3];
    const uint64_t channels = j->album.numbers.channels, end = j->wave.length;
    puigneht_overs overs = {{{0, 0, 0}}};
    puigneht_refusal refusal;
    char sheet[PUIGNEHT_SHEET_ROOM];
    for (uint64_t at = j->wave.head_len; at < end; at += sizeof bytes) {
        size_t n = end - at < sizeof bytes ? (size_t)(end - at) : sizeof bytes;
        if (read_at(&j->to, at, bytes, n)) err(1, "%s", j->out);
        puigneht_unpack_s24le(bytes, n, samples, n / 3);
        if (puigneht_count_overs(&overs, channels, samples, n / 3)) errx(1, "samples that are none");
    }
    expect(puigneht_level_sheet(&j->stats, channels, sheet, sizeof sheet, &refusal), j->out, &refusal);
    printf("%s\n%s", j->out, sheet);
    for (int c = 0; c < (int)channels; c++) printf("channel %d overs %u\n", c, (unsigned)overs.of[c].overs);
}

int main(int argc, char **argv) {
    pthread_t started[MOST];
    if (argc < 7 || argc % 2 == 0 || argc > 5 + 2 * MOST) errx(1, "RATE CUTOFF DB THREADS {IN.dsf OUT.wav}...");
    const uint32_t rate = (uint32_t)number_of(argv[1], 0, 999999), cutoff = (uint32_t)number_of(argv[2], 0, 9);
    const long db = number_of(argv[3], -999, 999), threads = number_of(argv[4], 1, MOST);
    const puigneht_settings s = {rate, cutoff, 0, (double)db, NULL, 0}; /* the channels are the files' */
    for (; 5 + 2 * count < (size_t)argc; count++) open_job(&jobs[count], argv + 5 + 2 * count, &s);
    for (long k = 0; k < threads; k++)
        if (pthread_create(&started[k], NULL, work, NULL)) errx(1, "no thread");
    for (long k = 0; k < threads; k++) pthread_join(started[k], NULL);
    for (size_t k = 0; k < count; k++) report(&jobs[k]);
}
