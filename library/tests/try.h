/* What the tests of the headers share. As C and as C++. */
#ifndef TRY_H
#define TRY_H

#include <stdio.h>
#include <stdlib.h>
#include <string.h>
#include "puigneht/album.h"

static unsigned long tried, wrong;

static inline void expect(int is, const char *what, int line) {
    tried++;
    if (is) return;
    wrong++;
    printf("line %d, wrong: %s\n", line, what);
}
#define EXPECT(fact) expect((fact) ? 1 : 0, #fact, __LINE__)

/* What a call answers, which is looked at, and the sentence of its refusal. */
static inline void refused(uint8_t answer, unsigned number, const puigneht_refusal *r, const char *sentence, int line) {
    char text[PUIGNEHT_DESCRIPTION_ROOM];
    puigneht_describe(r, text, sizeof text);
    expect(answer == number && r->number == number, "the answer", line);
    if (answer != number) printf("    %u, and not %u\n", answer, number);
    expect(!strcmp(text, sentence), "the sentence", line);
    if (strcmp(text, sentence)) printf("    is:    %s\n    to be: %s\n", text, sentence);
}
#define REFUSED(call, number, sentence) refused(call, number, &r, sentence, __LINE__)

static inline void *room_for(size_t bytes) {
    void *memory = calloc(bytes ? bytes : 1, 1);
    if (!memory) exit(2);
    return memory;
}

/* Bytes of chance with stretches of full scale. */
static inline uint8_t *noise(size_t bytes) {
    static uint32_t x = 1;
    uint8_t *b = (uint8_t *)room_for(bytes);
    size_t k;
    for (k = 0; k < bytes; k++) {
        x = x * 1664525u + 1013904223u;
        b[k] = (uint8_t)(k % 9000 < 2000 ? 255 : k % 9000 < 3000 ? 0 : x >> 24);
    }
    return b;
}

static inline int done(void) {
    printf("%lu tried, %lu wrong\n", tried, wrong);
    return wrong != 0;
}

#endif
