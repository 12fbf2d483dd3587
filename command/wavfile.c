/* Where the samples of a WAV file are: RIFF, or RF64 with its sizes in `ds64`. Nothing is decided by it but where to
 * look for the samples that are compared. */
#include "wavfile.h"
#include <string.h>
#include "bytes.h"
#include "ends.h"

enum { HEAD = 12, CHUNK = 8, FORMAT = 40 };

static uint64_t number(const uint8_t *bytes, int count) {
    uint64_t n = 0;
    while (count--) n = n << 8 | bytes[count];
    return n;
}

/* What is known of it so far. */
struct reading {
    const struct input *wav;
    struct sound sound;
    uint64_t long_data; /* the size that `ds64` tells */
    bool found;         /* its samples */
};

/* The first bytes of a chunk; bytes that are not there are 0. */
static void peek(const struct reading *r, uint64_t place, uint64_t size, uint8_t *bytes, size_t room) {
    uint64_t left = place < r->wav->length ? r->wav->length - place : 0, count = size < room ? size : room;
    memset(bytes, 0, room);
    read_at(r->wav->file, r->wav->path, bytes, (size_t)(count < left ? count : left), place);
}

/* The code of whole numbers, as such or by name. */
static void take_format(struct reading *r, uint64_t place, uint64_t size) {
    uint8_t f[FORMAT];
    peek(r, place, size, f, sizeof f);
    uint64_t tag = number(f, 2), code = tag == 0xFFFE ? number(f + 24, 2) : tag, bits = number(f + 14, 2);
    if (code != 1 || bits != 24) stop(REFUSED, "%s is no WAV file of 24 bits", r->wav->path);
    r->sound.channels = number(f + 2, 2);
    r->sound.rate = number(f + 4, 4);
}

static void take_samples(struct reading *r, uint64_t place, uint64_t size) {
    uint64_t length = size == 0xFFFFFFFF && r->long_data ? r->long_data : size, left = r->wav->length - place;
    r->sound.begin = place;
    r->sound.end = place + (length < left ? length : left);
    r->found = true;
}

/* Gives where the next chunk begins. */
static uint64_t take_chunk(struct reading *r, uint64_t place) {
    uint8_t head[CHUNK], sizes[16];
    peek(r, place, CHUNK, head, CHUNK);
    uint64_t size = number(head + 4, 4);
    place += CHUNK;
    if (!memcmp(head, "fmt ", 4)) take_format(r, place, size);
    if (!memcmp(head, "data", 4)) take_samples(r, place, size);
    if (!memcmp(head, "ds64", 4)) {
        peek(r, place, size, sizes, sizeof sizes);
        r->long_data = number(sizes + 8, 8);
    }
    return place + size + size % 2;
}

struct sound read_sound(const struct input *wav) {
    struct reading r = {.wav = wav};
    uint8_t head[HEAD];
    peek(&r, 0, HEAD, head, HEAD);
    if (memcmp(head + 8, "WAVE", 4) || (memcmp(head, "RIFF", 4) && memcmp(head, "RF64", 4) && memcmp(head, "BW64", 4)))
        stop(REFUSED, "%s is no WAV file", wav->path);
    uint64_t place = HEAD;
    while (!r.found && place + CHUNK <= wav->length) place = take_chunk(&r, place);
    if (!r.found || !r.sound.channels) stop(REFUSED, "%s is no WAV file with samples in it", wav->path);
    return r.sound;
}
