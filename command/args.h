/* The command's arguments. */
#ifndef ARGS_H
#define ARGS_H

#include <stdbool.h>
#include <stdint.h>

/* What becomes of an output that is there: it is said, replaced, or passed over. */
enum there { SAY, REPLACE, SKIP };

/* What a line of the level report is of. */
enum by { BY_FRAME, BY_SECOND, BY_MINUTE };

/* Most processes that share the work, and most tracks of an album. */
enum { MOST_JOBS = 64, MOST_TRACKS = 99 };

/* What is asked for: the options, and for a conversion its files. */
struct asked {
    uint32_t rate; /* 0: not given */
    uint32_t cutoff;
    double decibels;
    uint64_t format; /* as the library numbers them: auto, wav, rf64 */
    enum there there;
    uint64_t jobs; /* 0: not given */
    const char *sheet, *taps; /* NULL: none */
    enum by by;
    bool each, quiet, verbose, json;
    const char *all, *folder; /* the WAV file of all, or the folder of a WAV file a track; the other is NULL */
    char **tracks;            /* the DSF files */
    int count;
};

/* The words that are no options. */
struct words {
    int count;
    char **at;
};

/* A command: the word that it is, or NULL for the first one alone (a conversion); the letters of the options that it
 * takes; its words' names, of which so many are needed at least and at most; what it does, which gives the status. */
struct command {
    const char *name, *takes;
    int least, most;
    const char *names[3];
    int (*run)(const struct asked *a, const struct words *words);
};

/* The arguments of the whole line, the program's name first, for one of the commands; a line that begins with none of
 * their words is for the first one. A fault is said, with the word; --help and --version are answered: both end the
 * run. */
const struct command *understood(const struct command *commands, int count, char **line, struct asked *a,
                                 struct words *words);

/* The files of an album, out of all words: its tracks. */
void take_tracks(struct asked *a, const struct words *words);

/* The files of a conversion, out of its words and of -o and -a. */
void take_files(struct asked *a, const struct words *words);

/* The number that a text is: decimal digits, perhaps behind a minus sign, no zero in front, and nothing else. A
 * number that is below -LIMIT or above LIMIT is held there. Gives whether it is one. */
enum { LIMIT = 1000000000 };
bool is_number(const char *text, int64_t *number);

/* The word is at fault; or it is, and `taken` says what is taken in its place. */
_Noreturn void misused(const char *word);
_Noreturn void not_taken(const char *word, const char *taken);

/* What --help prints. */
extern const char help[];

#endif
