/* What include/puigneht.h says is not read is not read: a neighbour that `presence` does not name and a list of counts
 * that it does not name may be any pointer of the proved calls. Each call gets the address of a page that no program
 * may read or write, where a read would end this program with a signal. Status 0 where every call is accepted;
 * examples/faults runs it. */
#define _DEFAULT_SOURCE
#include "puigneht.h"

#include <stdio.h>
#include <stdlib.h>
#include <sys/mman.h>

enum { FRAME = 2 * PUIGNEHT_CHANNEL_BYTES, ITEMS = 2 * 1176, BYTES = 3 * ITEMS };

static uint8_t frame[FRAME], out[PUIGNEHT_WAV_HEADER + BYTES];
static int32_t samples[ITEMS];
static uint64_t data[2];
static double decibels[1];

static void accepted(const char *call, uint8_t answer) {
    if (answer != PUIGNEHT_ACCEPTED) {
        printf("%s answers %d\n", call, answer);
        exit(1);
    }
}

int main(void) {
    puigneht_settings settings = puigneht_default_settings();
    puigneht_converter c;
    puigneht_stats stats;
    void *none = mmap(NULL, 4096, PROT_NONE, MAP_PRIVATE | MAP_ANONYMOUS, -1, 0);
    if (none == MAP_FAILED) {
        perror("mmap");
        return 1;
    }
    accepted("open", puigneht_open(&c, &settings, NULL));
    accepted("convert_run", puigneht_convert_run_call(&c.numbers, &c.gain, c.taps, 0, none, FRAME, frame, FRAME, none,
                                                      FRAME, samples, ITEMS, &stats, data, decibels));
    accepted("convert_frame", puigneht_convert_frame_call(&c.numbers, &c.gain, c.taps, 0, none, FRAME, frame, FRAME,
                                                          none, FRAME, samples, ITEMS, &stats, data, decibels));
    accepted("convert", puigneht_convert_call(&c.numbers, &c.gain, c.taps, 0, none, FRAME, frame, FRAME, none, FRAME,
                                              out, BYTES, none, 1, &stats, data, decibels));
    accepted("convert_desk", puigneht_convert_desk_call(&c.numbers, &c.gain, c.taps, 0, none, FRAME, frame, FRAME, none,
                                                        FRAME, out, BYTES, none, 1, &stats, data, decibels));
    accepted("wav_convert", puigneht_wav_convert_call(&c.numbers, &c.gain, c.taps, 0, none, FRAME, frame, FRAME, none,
                                                      FRAME, out, sizeof out, none, 1, &stats, data, decibels));
    return 0;
}
