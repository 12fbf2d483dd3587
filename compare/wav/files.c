/* Files of 1 and 3 frames and of none, at every rate, mono and stereo: FOLDER/RATE-CHANNELS-FRAMES.wav by
 * puigneht_wav_convert, and .raw by puigneht_convert. The frames are chance. */
#include <stdio.h>
#include <stdlib.h>
#include "puigneht.h"

static const uint32_t rates[] = {88200, 176400, 352800};
static const size_t counts[] = {0, 1, 3};

static void put(const char *folder, uint32_t rate, int channels, size_t frames, const char *kind, const uint8_t *bytes, size_t n) {
    char path[4096];
    snprintf(path, sizeof path, "%s/%u-%d-%zu.%s", folder, rate, channels, frames, kind);
    FILE *f = fopen(path, "wb");
    if (!f || fwrite(bytes, 1, n, f) != n || fclose(f)) exit(1);
}

int main(int argc, char **argv) {
    if (argc != 2) return 2;
    static uint8_t in[3 * 2 * PUIGNEHT_CHANNEL_BYTES], raw[84672], wav[84672 + PUIGNEHT_WAV_HEADER];
    uint32_t x = 1;
    for (size_t i = 0; i < sizeof in; i++) in[i] = (uint8_t)((x = x * 1664525 + 1013904223) >> 24);
    for (int r = 0; r < 3; r++)
        for (int channels = 1; channels <= 2; channels++)
            for (int k = 0; k < 3; k++) {
                puigneht_settings settings = {rates[r], PUIGNEHT_STANDARD, (uint32_t)channels, 0, NULL, 0};
                puigneht_converter c;
                if (puigneht_open(&c, &settings, NULL)) return 1;
                puigneht_run run = puigneht_cut(&c, in, counts[k] * (size_t)c.numbers.frame_bytes, 0, counts[k]);
                size_t n = puigneht_bytes_of(&c, counts[k]);
                puigneht_packed samples = puigneht_into(raw, n), file = puigneht_into(wav, n + PUIGNEHT_WAV_HEADER);
                if (puigneht_convert(&c, &run, &samples, NULL, NULL) || puigneht_wav_convert(&c, &run, &file, NULL, NULL)) return 1;
                put(argv[1], rates[r], channels, counts[k], "raw", raw, n);
                put(argv[1], rates[r], channels, counts[k], "wav", wav, n + PUIGNEHT_WAV_HEADER);
            }
    return 0;
}
