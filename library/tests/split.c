/* An album's tracks into WAV files, by the calls of puigneht/album.h: FOLDER/0.wav and so on, FOLDER/all.wav, and its
 * level sheet on standard output.
 *     split RATE CUTOFF DB PARTS FOLDER TRACK.dsf..      CUTOFF 0 to 2; in so many parts, the last one first */
#include <stdio.h>
#include <stdlib.h>
#include "puigneht/album.h"

static FILE *in[PUIGNEHT_MOST_TRACKS], *out[PUIGNEHT_MOST_TRACKS + 1];
static puigneht_source sources[PUIGNEHT_MOST_TRACKS];
static puigneht_wave waves[PUIGNEHT_MOST_TRACKS + 1];
static puigneht_album album;

/* Ends where a call was refused. */
static void expect(uint8_t answer, const puigneht_refusal *r) {
    char text[PUIGNEHT_DESCRIPTION_ROOM];
    if (!answer) return;
    fprintf(stderr, "split: track %d: %s\n", r->track, puigneht_describe(r, text, sizeof text));
    exit(3);
}
static void need(int is_so, const char *what) {
    if (is_so) return;
    perror(what);
    exit(1);
}

static int read_at(void *context, uint64_t place, uint8_t *bytes, size_t length) {
    FILE *file = context;
    return fseek(file, (long)place, SEEK_SET) || fread(bytes, 1, length, file) != length;
}
static void write_at(FILE *file, const uint8_t *bytes, size_t length, uint64_t place) {
    need(!fseek(file, (long)place, SEEK_SET) && fwrite(bytes, 1, length, file) == length, "write");
}

static void open_tracks(char **names, size_t count) {
    for (size_t k = 0; k < count; k++) {
        need((in[k] = fopen(names[k], "rb")) && !fseek(in[k], 0, SEEK_END), names[k]);
        sources[k] = (puigneht_source){read_at, in[k], (uint64_t)ftell(in[k])};
    }
}

static void begin_file(size_t k, uint64_t track, const char *folder) {
    puigneht_refusal r;
    char path[4096];
    snprintf(path, sizeof path, track == PUIGNEHT_ALL ? "%s/all.wav" : "%s/%u.wav", folder, (unsigned)k);
    need((out[k] = fopen(path, "w+b")) != NULL, path);
    expect(puigneht_album_header(&album, PUIGNEHT_FORMAT_AUTO, track, &waves[k], &r), &r);
    write_at(out[k], waves[k].head, waves[k].head_len, 0);
    write_at(out[k], (const uint8_t *)"", (size_t)waves[k].pad, waves[k].length - waves[k].pad);
}

static void convert(puigneht_stretch pieces, puigneht_memory memory, puigneht_stats *stats) {
    puigneht_refusal r;
    puigneht_piece piece;
    for (uint64_t p = pieces.begin; p < pieces.end; p++) {
        expect(puigneht_album_piece(&album, p, &memory, &piece, &r), &r);
        for (size_t k = 0; k <= album.tracks; k++) {
            const puigneht_write w = puigneht_album_write(&album, &waves[k], &piece);
            write_at(out[k], w.bytes, w.length, w.place);
        }
        need(!puigneht_join_stats(stats, &piece.stats), "statistics");
    }
}

int main(int argc, char **argv) {
    puigneht_settings settings = puigneht_default_settings();
    puigneht_stats stats = puigneht_no_stats();
    puigneht_refusal r;
    char sheet[PUIGNEHT_SHEET_ROOM];
    if (argc < 7 || argc > 6 + PUIGNEHT_MOST_TRACKS) return 2;
    settings.rate = (uint32_t)atol(argv[1]), settings.cutoff = (uint32_t)atol(argv[2]),
    settings.decibels = atof(argv[3]);
    open_tracks(argv + 6, (size_t)argc - 6);
    expect(puigneht_album_open(&album, sources, (size_t)argc - 6, &settings, &r), &r);
    for (size_t k = 0; k < album.tracks; k++) begin_file(k, k, argv[5]);
    begin_file(album.tracks, PUIGNEHT_ALL, argv[5]);
    puigneht_memory memory = {malloc(puigneht_album_memory(&album)), puigneht_album_memory(&album)};
    need(memory.bytes != NULL, "memory");
    const uint64_t parts = (uint64_t)atol(argv[4]);
    for (uint64_t k = parts; k--;) convert(puigneht_album_part(&album, parts, k), memory, &stats);
    for (size_t k = 0; k <= album.tracks; k++) need(!fclose(out[k]), "write");
    for (size_t k = 0; k < album.tracks; k++) fclose(in[k]);
    free(memory.bytes);
    expect(puigneht_level_sheet(&stats, album.numbers.channels, sheet, sizeof sheet, &r), &r);
    fputs(sheet, stdout);
    return 0;
}
