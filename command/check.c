/* An upload watched as it arrives: it is given up at the first byte after which no continuation is acceptable, or
 * its end is told. What is decided is decided by the proved puigneht_dsf_give_up_header, on the first 92 bytes and
 * the count of all. */
#define _POSIX_C_SOURCE 200809L
#define _FILE_OFFSET_BITS 64
#include <fcntl.h>
#include <stdio.h>
#include <string.h>
#include <unistd.h>
#include "bytes.h"
#include "ends.h"
#include "input.h"
#include "others.h"
#include "puigneht.h"

/* What has come so far. */
struct upload {
    uint8_t head[PUIGNEHT_DSF_HEADER];
    size_t known; /* bytes of the head */
    uint64_t total;
};

static void keep(struct upload *u, const uint8_t *bytes, size_t count) {
    size_t room = sizeof u->head - u->known, more = count < room ? count : room;
    memcpy(u->head + u->known, bytes, more);
    u->known += more;
    u->total += count;
}

static int give_up_at(uint64_t place) {
    char line[64];
    snprintf(line, sizeof line, "give up at %llu\n", (unsigned long long)place);
    print(line);
    return REFUSED;
}

static int ended(uint8_t answer) {
    bool accepted = answer == PUIGNEHT_UPLOAD_ACCEPTED;
    if (!accepted && answer != PUIGNEHT_UPLOAD_UNFINISHED) stop(SYSTEM, "the upload: refused %u", answer);
    print(accepted ? "accepted\n" : "unfinished\n");
    return accepted ? DONE : UNFINISHED;
}

static int watch(int file, const char *path) {
    struct upload u = {.known = 0};
    uint8_t bytes[4096];
    struct stat is;
    if (fstat(file, &is)) failed("look at", path);
    spare(path, &is);
    for (;;) {
        uint64_t place = 0;
        size_t count = read_some(file, path, bytes, sizeof bytes);
        keep(&u, bytes, count);
        uint8_t answer = puigneht_dsf_give_up_header(u.head, u.known, u.total, &place);
        if (answer == PUIGNEHT_UPLOAD_GIVE_UP) return give_up_at(place);
        if (count == 0) return ended(answer);
    }
}

int check(const struct asked *a, const struct words *words) {
    const char *path = words->count ? words->at[0] : NULL;
    (void)a;
    if (!path || !strcmp(path, "-")) return watch(STDIN_FILENO, "standard input");
    int file = open(path, O_RDONLY);
    if (file < 0) failed("open", path);
    return watch(file, path);
}
