/* The factors of whole decibels to six digits, by the proved puigneht_gain: a table to hold beside a console's. */
#include <stdio.h>
#include <stdlib.h>
#include <string.h>
#include "bytes.h"
#include "ends.h"
#include "others.h"
#include "puigneht.h"

enum { LOWEST = -120, HIGHEST = 24, LONGEST_LINE = 32 };

/* Decimals that six digits have. A factor is 10^-6 at least and below 16. */
static int decimals_of(double factor) {
    char text[32];
    snprintf(text, sizeof text, "%.5e", factor);
    return 5 - atoi(strchr(text, 'e') + 1);
}

int gains(const struct asked *a, const struct words *words) {
    char text[LONGEST_LINE * (HIGHEST - LOWEST + 1)], *to = text;
    (void)a, (void)words;
    for (int db = LOWEST; db <= HIGHEST; db++) {
        puigneht_gain_record gain = {0, 0};
        uint8_t answer = puigneht_gain(db, &gain, NULL);
        if (answer != PUIGNEHT_ACCEPTED) stop(SYSTEM, "the gain of %d decibels: refused %u", db, answer);
        to += snprintf(to, LONGEST_LINE, "%d %.*f\n", db, decimals_of(gain.factor), gain.factor);
    }
    print(text);
    return DONE;
}
