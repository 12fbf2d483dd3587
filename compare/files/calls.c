/* The library's calls for DSF files, over standard input and output: compare/files/beside.py asks.
 *   calls headers        records of 92 bytes and a length; each is answered by the verdict and five numbers
 *   calls read           a file; its verdict, five numbers, and all its frames
 *   calls write CHANNELS frames; the verdict, and the file */
#include <stdio.h>
#include <stdlib.h>
#include <string.h>
#include "puigneht.h"

static uint8_t *all(size_t *n) {
    size_t room = 1 << 20, got;
    uint8_t *bytes = malloc(room);
    for (*n = 0; bytes && (got = fread(bytes + *n, 1, room - *n, stdin)) > 0;)
        if ((*n += got) == room) bytes = realloc(bytes, room *= 2);
    if (!bytes) exit(1);
    return bytes;
}

static void tell(uint8_t verdict, const puigneht_dsf *dsf) {
    fwrite(&verdict, 1, 1, stdout);
    fwrite(dsf, sizeof *dsf, 1, stdout);
}

static void headers(void) {
    uint8_t record[100];
    while (fread(record, 1, 100, stdin) == 100) {
        puigneht_dsf dsf = {0};
        uint64_t length;
        memcpy(&length, record + 92, 8);
        uint8_t verdict = puigneht_dsf_read_header(record, 92, length, &dsf, NULL);
        tell(verdict, &dsf);
    }
}

static void read_file(void) {
    size_t n;
    uint8_t *file = all(&n);
    puigneht_dsf dsf = {0};
    uint8_t verdict = puigneht_dsf_read(file, n, &dsf, NULL);
    tell(verdict, &dsf);
    size_t size = PUIGNEHT_CHANNEL_BYTES * (size_t)dsf.channels;
    uint8_t *out = malloc(size ? size : 1);
    for (uint64_t f = 0; f < dsf.frames; f++) {
        if (puigneht_dsf_frame(file, n, f, out, size, NULL) != PUIGNEHT_ACCEPTED) exit(1);
        fwrite(out, 1, size, stdout);
    }
}

static void write_file(uint8_t channels) {
    size_t n;
    uint8_t *frames = all(&n);
    uint64_t length = 0;
    if (puigneht_dsf_length(channels, n, &length, NULL) != PUIGNEHT_ACCEPTED) exit(1);
    uint8_t *file = malloc(length);
    uint8_t verdict = puigneht_dsf_write(channels, frames, n, file, length, NULL);
    fwrite(&verdict, 1, 1, stdout);
    fwrite(file, 1, length, stdout);
}

int main(int argc, char **argv) {
    if (argc > 1 && !strcmp(argv[1], "headers")) headers();
    else if (argc > 1 && !strcmp(argv[1], "read")) read_file();
    else if (argc > 2 && !strcmp(argv[1], "write")) write_file((uint8_t)atoi(argv[2]));
    else return 2;
    return 0;
}
