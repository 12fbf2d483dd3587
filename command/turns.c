/* Turns on one board: when each album is done, by the proved puigneht_turns. */
#include <stdio.h>
#include <string.h>
#include "args.h"
#include "bytes.h"
#include "ends.h"
#include "others.h"
#include "puigneht.h"

enum { LONGEST_LINE = 80 };

/* A number, none below 0; one that is held at LIMIT is past every range of a board. */
static bool count_of(const char *text, uint64_t *n) {
    int64_t number;
    if (!is_number(text, &number) || number < 0) return false;
    *n = (uint64_t)number;
    return true;
}

/* FRAMES:DUE. Nine albums are refused, so of those past the eighth only that they are albums is looked at. */
static void read_album(char *word, puigneht_board *b) {
    size_t at = b->albums < PUIGNEHT_MOST_ALBUMS ? b->albums : PUIGNEHT_MOST_ALBUMS - 1;
    char *colon = strchr(word, ':');
    if (!colon) misused(word);
    *colon = 0;
    bool numbers = count_of(word, &b->frames[at]) && count_of(colon + 1, &b->dues[at]);
    *colon = ':';
    if (!numbers) misused(word);
    b->albums += b->albums <= PUIGNEHT_MOST_ALBUMS;
}

static void print_lines(const puigneht_board *b) {
    char text[LONGEST_LINE * (PUIGNEHT_MOST_ALBUMS + 1)], *to = text;
    int32_t latest = b->late[0];
    for (size_t a = 0; a < b->albums; a++) {
        unsigned long long finish = b->finishes[a];
        to += snprintf(to, LONGEST_LINE, "album %zu finish %llu late %d\n", a, finish, (int)b->late[a]);
        if (latest < b->late[a]) latest = b->late[a];
    }
    snprintf(to, LONGEST_LINE, "latest %d\n", (int)latest);
    print(text);
}

int turns(const struct asked *a, const struct words *words) {
    puigneht_board b = {.albums = 0};
    uint64_t turn;
    (void)a;
    if (!count_of(words->at[0], &turn)) misused(words->at[0]);
    for (int k = 1; k < words->count; k++) read_album(words->at[k], &b);
    uint8_t answer = puigneht_turns(&b, turn, NULL);
    if (answer == PUIGNEHT_REFUSED_SCHEDULE) {
        print("refused 19\n");
        stop(REFUSED, "refused 19: TURN and FRAMES are 1 to 540,000, DUE 0 to 1,000,000, and there are 1 to 8 albums");
    }
    if (answer != PUIGNEHT_ACCEPTED) stop(SYSTEM, "the turns: refused %u", answer);
    print_lines(&b);
    return DONE;
}
