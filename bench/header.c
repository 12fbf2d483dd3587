/* Tries what include/puigneht.h says of addresses, of the stack and of a converter's numbers. bench/header builds and
 * runs it.
 *
 * Addresses: every call is made with each of its lists at all sixteen offsets from a multiple of 16, the others at odd
 * ones of their own; answers and written lists are those at aligned addresses, and the bytes around each list are kept.
 * Stack: each call runs in a thread whose stack is painted before, so that the deepest use of it can be read off after.
 * Numbers: with one of the three wrong by one, each call that takes a converter is refused 15 and writes nothing but
 * the refusal's data. */
#define _GNU_SOURCE
#include <pthread.h>
#include <stdio.h>
#include <stdlib.h>
#include <string.h>
#include "puigneht/album.h"

enum { FRAMES = 2, PAINT = 0xa5, EDGE = 64, STACK = 1 << 20, ROUTES = 18 };
enum {
    GAIN, WANTED, TAPS, NUMBERS, BEFORE, RUN, AFTER, MORE, /* to be read */
    OUT, BYTES, FILE_, COUNTS, STATS, DATA, DECIBELS, OPENED, MADE, SHEET, TOLD, LISTS
};

struct call {
    uint64_t channels;
    puigneht_numbers numbers;
    size_t length[LISTS]; /* in bytes */
    unsigned char *list[LISTS];
};

static unsigned char noise[(FRAMES + 2) * 6 * PUIGNEHT_CHANNEL_BYTES];
static puigneht_gain_record unity, louder;
static int32_t taps[PUIGNEHT_MOST_TAPS];
static const puigneht_stats more = {{0, 1, 17, 123456, 1, 0}, {-8388609, -3, -2, -1, 0, 0}, {8388608, 3, 2, 1, 0, 0}, {0, 0, 0, 0, 0, 1}, 0};

/* The nine routes, and again with a filter of one's own. */
static struct call of_route(int route, uint64_t channels) {
    static const uint64_t rates[] = {88200, 176400, 352800};
    struct call c = {.channels = channels,
                     .numbers = {rates[route % 3], (uint64_t)route % 9 / 3, channels, route >= 9, route >= 9 ? PUIGNEHT_MOST_TAPS : 0, 0, 0, 0}};
    size_t frame = (size_t)PUIGNEHT_CHANNEL_BYTES * channels, samples = (size_t)c.numbers.rate / 75 * channels * FRAMES;
    uint64_t data[2];
    double decibels[1];
    size_t length[LISTS] = {16, 16, sizeof taps, 64, frame, FRAMES * frame, frame, 192, 4 * samples, 3 * samples, PUIGNEHT_WAV_HEADER + 3 * samples,
                            8 * FRAMES, 192, 16, 8, 64, 16, PUIGNEHT_SHEET_LINE * (channels + 1), 24};
    memcpy(c.length, length, sizeof length);
    if (puigneht_open_call(&c.numbers, &unity, taps, data, decibels)) exit(2);
    return c;
}

/* Lists at the given offsets from a multiple of 16, with painted bytes before and after them. */
static void lend(struct call *c, const size_t *offset) {
    size_t frame = c->length[BEFORE];
    const void *from[LISTS] = {&unity, &louder, taps, &c->numbers, noise, noise + frame, noise + (1 + FRAMES) * frame, &more};
    static const uint64_t going[3] = {0, 1, 2}; /* an over at the high end */
    from[OPENED] = &c->numbers;
    from[MADE] = &unity;
    from[TOLD] = going;
    for (int k = 0; k < LISTS; k++) {
        unsigned char *memory = aligned_alloc(EDGE, (c->length[k] / EDGE + 4) * EDGE);
        if (!memory) exit(2);
        memset(memory, PAINT, (c->length[k] / EDGE + 4) * EDGE);
        c->list[k] = memory + EDGE + offset[k];
        if (from[k]) memcpy(c->list[k], from[k], c->length[k]);
    }
}

static void give_back(struct call *c, const size_t *offset) {
    for (int k = 0; k < LISTS; k++) {
        for (size_t b = 1; b <= EDGE; b++)
            if (c->list[k][-(ptrdiff_t)b] != PAINT || c->list[k][c->length[k] + b - 1] != PAINT) {
                printf("list %d: a byte beside it was written\n", k);
                exit(1);
            }
        free(c->list[k] - EDGE - offset[k]);
    }
}

/* The lists as the calls take them: a pointer, and with it the number of items. */
#define LIST(k) (void *)c->list[k]
#define ITEMS(k, type) (type *)(void *)c->list[k], c->length[k] / sizeof(type)
#define CONVERTER LIST(NUMBERS), LIST(GAIN), LIST(TAPS)
#define WHOLE ITEMS(BEFORE, uint8_t), ITEMS(RUN, uint8_t), ITEMS(AFTER, uint8_t)
#define REFUSAL LIST(DATA), LIST(DECIBELS)
#define PACKED ITEMS(BYTES, uint8_t), ITEMS(COUNTS, uint64_t), LIST(STATS), REFUSAL

/* An answer, as a thread gives it: NULL if the call was accepted. */
static void *said(int answer) { return (void *)(intptr_t)answer; }

static void *none(void *p) { return (void)p, NULL; }
static void *gain(void *p) {
    struct call *c = p;
    return said(puigneht_gain_call(6.0, LIST(MADE), LIST(DECIBELS)));
}
static void *open_(void *p) {
    struct call *c = p;
    return said(puigneht_open_call(LIST(OPENED), LIST(GAIN), LIST(TAPS), REFUSAL));
}
/* To Low at 176,400. */
static void *change(void *p) {
    struct call *c = p;
    uint64_t expected[3] = {2352, 179, c->length[BEFORE]}, numbers[8];
    int answer = puigneht_change_call(LIST(NUMBERS), LIST(MADE), LIST(TAPS), 176400, PUIGNEHT_LOW, LIST(WANTED), REFUSAL);
    memcpy(numbers, c->list[NUMBERS], sizeof numbers);
    return said(answer ? answer : memcmp(numbers + 5, expected, sizeof expected) || memcmp(c->list[MADE], &louder, 16));
}
static void *convert_run(void *p) {
    struct call *c = p;
    return said(puigneht_convert_run_call(CONVERTER, 3, WHOLE, ITEMS(OUT, int32_t), LIST(STATS), REFUSAL));
}
static void *convert_frame(void *p) {
    struct call *c = p;
    return said(puigneht_convert_frame_call(CONVERTER, 0, NULL, 0, c->list[RUN], c->length[RUN] / FRAMES, NULL, 0, LIST(OUT), c->length[OUT] / 4 / FRAMES,
                                            LIST(STATS), REFUSAL));
}
static void *convert(void *p) {
    struct call *c = p;
    return said(puigneht_convert_call(CONVERTER, 7, WHOLE, PACKED));
}
static void *convert_desk(void *p) {
    struct call *c = p;
    return said(puigneht_convert_desk_call(CONVERTER, 7, WHOLE, PACKED));
}
/* More than two channels are refused, after all else was tried. */
static void *wav_convert(void *p) {
    struct call *c = p;
    int answer = puigneht_wav_convert_call(CONVERTER, 7, WHOLE, ITEMS(FILE_, uint8_t), ITEMS(COUNTS, uint64_t), LIST(STATS), REFUSAL);
    return said(c->channels > 2 && answer == PUIGNEHT_REFUSED_NOT_WAV ? 0 : answer);
}
static void *pack(void *p) {
    struct call *c = p;
    puigneht_pack_s24le_call(ITEMS(OUT, int32_t), ITEMS(BYTES, uint8_t));
    return NULL;
}
/* Of the bytes of the run, taken as samples. */
static void *overs(void *p) {
    struct call *c = p;
    return said(puigneht_overs_call(ITEMS(RUN, int32_t), c->channels, 0, LIST(TOLD)));
}
static void *level_sheet(void *p) {
    struct call *c = p;
    return said(puigneht_level_sheet_call((uint8_t)c->channels, LIST(MORE), ITEMS(SHEET, uint8_t), LIST(DATA)));
}
/* Statistics joined with themselves. */
static void *join_stats(void *p) {
    struct call *c = p;
    memcpy(c->list[STATS], c->list[MORE], c->length[STATS]);
    return said(puigneht_join_stats_call(LIST(STATS), LIST(MORE)));
}
/* The run written as a DSF file, at the list's own offset, and its first frame taken out of it again. */
static void *dsf(void *p) {
    static uint8_t room[16 + 92 + 6 * 4096 * (FRAMES * PUIGNEHT_CHANNEL_BYTES / 4096 + 1)], frame[6 * PUIGNEHT_CHANNEL_BYTES];
    struct call *c = p;
    puigneht_dsf header;
    puigneht_field field;
    uint64_t length;
    uint8_t *file = room + (uintptr_t)c->list[RUN] % 16, channels = (uint8_t)c->channels;
    size_t one = c->length[RUN] / FRAMES;
    if (puigneht_dsf_length_call(channels, c->length[RUN], &length, LIST(DATA))) return p;
    if (puigneht_dsf_write_call(channels, ITEMS(RUN, uint8_t), file, length, LIST(DATA))) return p;
    if (puigneht_dsf_read_call(file, length, &header, LIST(DATA)) || puigneht_dsf_why_call(file, length, length, &field)) return p;
    if (puigneht_dsf_frame_call(file, length, 0, frame, one, LIST(DATA))) return p;
    return memcmp(frame, c->list[RUN], one) ? p : NULL;
}

/* The calls with records, with what they keep on the stack themselves. */
static puigneht_settings settings_of(const struct call *c) {
    const puigneht_numbers *n = &c->numbers;
    return (puigneht_settings){(uint32_t)n->rate, (uint32_t)n->cutoff, (uint32_t)n->channels, 0, n->own ? taps : NULL, n->own ? PUIGNEHT_MOST_TAPS : 0};
}
static puigneht_converter held;
static void *record_open(void *p) {
    puigneht_settings settings = settings_of(p);
    return said(puigneht_open(&held, &settings, NULL));
}
static void *record_change(void *p) {
    return (void)p, said(puigneht_change(&held, 176400, PUIGNEHT_LOW, 0, NULL));
}
static void *record_convert(void *p) {
    struct call *c = p;
    puigneht_settings settings = settings_of(c);
    if (puigneht_open(&held, &settings, NULL)) return p;
    puigneht_run run = puigneht_cut(&held, c->list[RUN], c->length[RUN], 0, FRAMES);
    puigneht_packed out = puigneht_counted(c->list[BYTES], c->length[BYTES], NULL, 0);
    return said(puigneht_convert(&held, &run, &out, NULL, NULL));
}
static void *record_sheet(void *p) {
    struct call *c = p;
    puigneht_stats s = puigneht_no_stats();
    char text[PUIGNEHT_SHEET_ROOM];
    return said(puigneht_join_stats(&s, &s) || puigneht_level_sheet(&s, c->channels, text, sizeof text, NULL));
}

/* An album of three tracks, each the run, in memory; its one piece, its frames, its header. */
static uint8_t album_file[92 + 6 * 4096 * (FRAMES * PUIGNEHT_CHANNEL_BYTES / 4096 + 1)];
static puigneht_album album;
static puigneht_source sources[3];
static puigneht_piece piece;
static puigneht_frames album_frames;
static puigneht_wave wave;
static int read_album(void *context, uint64_t place, uint8_t *bytes, size_t count) {
    (void)context;
    return place > sizeof album_file || count > sizeof album_file - place || (memcpy(bytes, album_file + place, count), 0);
}
static void *album_open(void *p) {
    struct call *c = p;
    uint64_t length;
    if (puigneht_dsf_length(c->channels, c->length[RUN], &length, NULL)) return p;
    if (puigneht_dsf_write(c->channels, c->list[RUN], c->length[RUN], album_file, length, NULL)) return p;
    puigneht_settings settings = settings_of(c);
    for (int k = 0; k < 3; k++) sources[k] = (puigneht_source){read_album, NULL, length};
    return said(puigneht_album_open(&album, sources, 3, &settings, NULL));
}
static puigneht_memory room_of_album(void) {
    static uint8_t room[1 << 24];
    return (puigneht_memory){room, sizeof room};
}
static void *album_piece(void *p) {
    puigneht_memory memory = room_of_album();
    return (void)p, said(puigneht_album_piece(&album, 0, &memory, &piece, NULL));
}
static void *album_gather(void *p) {
    puigneht_memory memory = room_of_album();
    return (void)p, said(puigneht_album_frames(&album, 0, &memory, &album_frames, NULL));
}
static void *album_header(void *p) {
    return (void)p, said(puigneht_album_header(&album, PUIGNEHT_FORMAT_AUTO, 1, &wave, NULL));
}

static const struct {
    const char *name;
    void *(*make)(void *);
    int takes; /* whether it takes a converter */
} calls[] = {{"no call", none, 0}, {"gain", gain, 0}, {"open", open_, 0}, {"change", change, 1}, {"convert_run", convert_run, 1},
             {"convert_frame", convert_frame, 1}, {"convert", convert, 1}, {"convert_desk", convert_desk, 1}, {"wav_convert", wav_convert, 1},
             {"pack_s24le", pack, 0}, {"overs", overs, 0}, {"level_sheet", level_sheet, 0}, {"join_stats", join_stats, 0}, {"dsf calls", dsf, 0},
             {"opened with records", record_open, 0}, {"changed with records", record_change, 0}, {"converted with records", record_convert, 0},
             {"sheet with records", record_sheet, 0}, {"album opened", album_open, 0}, {"album's piece", album_piece, 0},
             {"album's frames", album_gather, 0}, {"album's header", album_header, 0}};
enum { CALLS = sizeof calls / sizeof *calls };

/* The call with each list in turn at each offset; gives how many calls were compared. */
static unsigned long at_all_addresses(int route, uint64_t channels, int call) {
    unsigned long made = 0;
    for (int moved = 0; moved < LISTS; moved++)
        for (size_t offset = 0; offset < 16; offset++) {
            size_t aligned[LISTS] = {0}, odd[LISTS];
            for (int k = 0; k < LISTS; k++) odd[k] = k == moved ? offset : (size_t)(2 * (k + moved) + 1) % 16;
            struct call a = of_route(route, channels), b = of_route(route, channels);
            lend(&a, aligned);
            lend(&b, odd);
            int same = !calls[call].make(&a) && !calls[call].make(&b);
            for (int k = 0; k < LISTS; k++) same = same && !memcmp(a.list[k], b.list[k], a.length[k]);
            if (!same) {
                printf("%s differs: route %d, list %d at %zu\n", calls[call].name, route, moved, offset);
                exit(1);
            }
            give_back(&a, aligned);
            give_back(&b, odd);
            made++;
        }
    return made;
}

/* Bytes of a painted stack that the call used. */
static size_t stack_of(int route, uint64_t channels, int call, unsigned char *stack) {
    size_t aligned[LISTS] = {0}, untouched = 0;
    struct call c = of_route(route, channels);
    pthread_attr_t attributes;
    pthread_t thread;
    void *refused;
    lend(&c, aligned);
    memset(stack, PAINT, STACK);
    pthread_attr_init(&attributes);
    if (pthread_attr_setstack(&attributes, stack, STACK) || pthread_create(&thread, &attributes, calls[call].make, &c)) exit(2);
    pthread_join(thread, &refused);
    pthread_attr_destroy(&attributes);
    if (refused) exit(2);
    give_back(&c, aligned);
    while (untouched < STACK && stack[untouched] == PAINT) untouched++;
    return STACK - untouched;
}

/* The call with a wrong number, each of the three, over and under; gives how many were refused 15 with all else
 * kept. */
static unsigned long with_wrong_numbers(int route, uint64_t channels, int call) {
    size_t aligned[LISTS] = {0};
    unsigned long made = 0;
    for (int wrong = 0; wrong < 6; wrong++) {
        struct call a = of_route(route, channels), b = of_route(route, channels);
        uint64_t *number = wrong < 2 ? &a.numbers.samples_per_frame : wrong < 4 ? &a.numbers.reach : &a.numbers.frame_bytes;
        *number += wrong % 2 ? 1 : UINT64_MAX;
        b.numbers = a.numbers;
        lend(&a, aligned);
        lend(&b, aligned);
        memset(b.list[DATA], 0, b.length[DATA]);
        memset(b.list[DECIBELS], 0, b.length[DECIBELS]);
        int kept = (intptr_t)calls[call].make(&a) == PUIGNEHT_REFUSED_STORED;
        for (int k = 0; k < LISTS; k++) kept = kept && !memcmp(a.list[k], b.list[k], a.length[k]);
        if (!kept) {
            printf("%s with a wrong number: route %d, number %d\n", calls[call].name, route, wrong / 2);
            exit(1);
        }
        give_back(&a, aligned);
        give_back(&b, aligned);
        made++;
    }
    return made;
}

int main(void) {
    unsigned long made = 0, refused = 0;
    size_t deepest[CALLS] = {0};
    double decibels;
    unsigned char *stack = aligned_alloc(4096, STACK);
    uint32_t x = 1;
    for (size_t k = 0; k < sizeof noise; k++) noise[k] = (uint8_t)((x = x * 1664525u + 1013904223u) >> 24);
    taps[0] = 1 << 24;
    for (int k = 1; k < PUIGNEHT_MOST_TAPS; k++) taps[0] -= 2 * (taps[k] = (k % 3 ? 90000 : -90000) - 100 * k);
    if (!stack || puigneht_gain_call(0.0, &unity, &decibels) || puigneht_gain_call(6.0, &louder, &decibels)) return 2;
    for (int route = 0; route < ROUTES; route++)
        for (int call = 0; call < CALLS; call++) {
            if (route % 9 == 6) continue; /* wide at 88,200 */
            made += call ? at_all_addresses(route, 2, call) : 0;
            refused += calls[call].takes ? with_wrong_numbers(route, 2, call) : 0;
            for (uint64_t channels = 1; channels <= 6; channels++) {
                size_t used = stack_of(route, channels, call, stack);
                if (used > deepest[call]) deepest[call] = used;
            }
        }
    printf("%lu calls with lists at all addresses: all as at aligned ones\n", made);
    printf("%lu calls with a wrong number of the converter: refused 15, nothing else written\n", refused);
    for (int call = 0; call < CALLS; call++) printf("stack, %s: %zu bytes, the thread's own included\n", calls[call].name, deepest[call]);
    return 0;
}
