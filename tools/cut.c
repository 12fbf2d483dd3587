/* Converts some frames of a DSF file as a rack does that has been given a piece of the album: standard, 0 dB, 88,200
 * Hz, the samples alone (three bytes each). For tools/cut-demo; the file is held in memory.
 *
 *     target/cut IN.dsf FIRST COUNT OUT.s24 */
#include <stdio.h>
#include <stdlib.h>
#include "puigneht.h"

static _Noreturn void stop(const char *what) {
    fprintf(stderr, "cut: %s\n", what);
    exit(1);
}

static void expect(uint8_t answer, const puigneht_refusal *refusal) {
    char text[PUIGNEHT_DESCRIPTION_ROOM];
    if (answer) stop(puigneht_describe(refusal, text, sizeof text));
}

static uint8_t *room(size_t bytes) {
    uint8_t *memory = malloc(bytes + 1);
    if (!memory) stop("no memory");
    return memory;
}

static uint8_t *whole(const char *path, size_t *length) {
    FILE *in = fopen(path, "rb");
    if (!in || fseek(in, 0, SEEK_END)) stop("cannot open IN");
    *length = (size_t)ftell(in);
    rewind(in);
    uint8_t *file = room(*length);
    if (fread(file, 1, *length, in) != *length) stop("cannot read IN");
    fclose(in);
    return file;
}

/* The frames of the piece and the two next to it, where there are such, and the piece of these. */
static uint8_t *converted(const uint8_t *file, size_t length, size_t first, size_t count, size_t *bytes) {
    puigneht_settings settings = puigneht_default_settings();
    puigneht_converter c;
    puigneht_dsf dsf;
    puigneht_refusal refusal;
    expect(puigneht_dsf_read(file, length, &dsf, &refusal), &refusal);
    settings.channels = (uint32_t)dsf.channels;
    expect(puigneht_open(&c, &settings, &refusal), &refusal);
    size_t before = first > 0, held = before + count + (first + count < dsf.frames),
           size = (size_t)c.numbers.frame_bytes;
    uint8_t *frames = room(held * size), *out = room(puigneht_bytes_of(&c, count));
    for (size_t k = 0; k < held; k++)
        expect(puigneht_dsf_frame(file, length, first - before + k, frames + k * size, size, &refusal), &refusal);
    puigneht_run run = puigneht_cut(&c, frames, held * size, before, count);
    puigneht_packed packed = puigneht_into(out, *bytes = puigneht_bytes_of(&c, count));
    expect(puigneht_convert(&c, &run, &packed, NULL, &refusal), &refusal);
    free(frames);
    return out;
}

int main(int argc, char **argv) {
    if (argc != 5) stop("to be called as cut IN.dsf FIRST COUNT OUT.s24");
    size_t length, bytes;
    uint8_t *file = whole(argv[1], &length);
    uint8_t *out = converted(file, length, strtoul(argv[2], NULL, 10), strtoul(argv[3], NULL, 10), &bytes);
    FILE *to = fopen(argv[4], "wb");
    if (!to || fwrite(out, 1, bytes, to) != bytes || fclose(to)) stop("cannot write OUT");
    free(file), free(out);
    return 0;
}
