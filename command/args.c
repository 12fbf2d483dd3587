/* The command's arguments, by getopt_long. */
#define _GNU_SOURCE
#include "args.h"
#include <getopt.h>
#include <stdio.h>
#include <stdlib.h>
#include <string.h>
#include "bytes.h"
#include "ends.h"
#include "puigneht.h"

/* ---- what is said of a word */

_Noreturn void misused(const char *word) {
    stop(USAGE, "'%.1000s' is not understood at its place", word);
}

_Noreturn void not_taken(const char *word, const char *taken) {
    stop(USAGE, "'%.1000s': %s", word, taken);
}

static _Noreturn void tell(const char *text) {
    print(text);
    exit(DONE);
}

/* ---- values */

bool is_number(const char *text, int64_t *number) {
    bool below = *text == '-';
    const char *digits = text + below;
    size_t count = strspn(digits, "0123456789");
    int64_t n = 0;
    if (!count || digits[count] || (*digits == '0' && (count > 1 || below))) return false;
    for (size_t k = 0; k < count; k++) n = n >= LIMIT / 10 ? LIMIT : 10 * n + (digits[k] - '0');
    *number = below ? -n : n;
    return true;
}

/* Digits, perhaps behind a minus sign, perhaps with a dot and digits behind them; no zero in front of another digit,
 * and no minus sign in front of 0. */
static bool is_decimal(const char *text, double *number) {
    bool below = *text == '-';
    const char *digits = text + below;
    size_t whole = strspn(digits, "0123456789");
    bool dotted = digits[whole] == '.';
    size_t parts = dotted ? strspn(digits + whole + 1, "0123456789") : 0;
    if (!whole || dotted != (parts > 0) || digits[whole + dotted + parts]) return false;
    if (*digits == '0' && whole > 1) return false;
    if (below && !digits[strspn(digits, "0.")]) return false;
    *number = strtod(text, NULL);
    return true;
}

/* The number of the name that a word is. */
static uint32_t choice_of(const char *word, const char *const *names, const char *taken) {
    for (uint32_t k = 0; names[k]; k++)
        if (!strcmp(word, names[k])) return k;
    not_taken(word, taken);
}

static uint32_t rate_of(const char *word, const char *taken) {
    int64_t n;
    if (!is_number(word, &n) || (n != 88200 && n != 176400 && n != 352800)) not_taken(word, taken);
    return (uint32_t)n;
}

static double decibels_of(const char *word, const char *taken) {
    double db;
    if (!is_decimal(word, &db) || db < -120 || db > 24) not_taken(word, taken);
    return db;
}

static uint64_t jobs_of(const char *word, const char *taken) {
    int64_t n;
    if (!is_number(word, &n) || n < 1 || n > MOST_JOBS) not_taken(word, taken);
    return (uint64_t)n;
}

static const char *name_of(const char *word, const char *taken) {
    if (!*word) not_taken(word, taken);
    return word;
}

/* ---- the options */

/* The capital letters stand for options that have a long name alone. */
static const struct known {
    int letter;
    const char *name, *taken; /* the values that are taken; NULL: it has none */
} options[] = {{'r', "rate", "rates are 88200, 176400, 352800"},
               {'c', "cutoff", "cutoffs are standard, low, wide"},
               {'g', "gain", "gains are -120 to 24 decibels, as -6 or 1.5"},
               {'T', "taps", "the taps are a file of whole numbers, one a line"},
               {'F', "format", "formats are auto, wav, rf64"},
               {'s', "sheet", "the sheet is a file, or - for standard output"},
               {'j', "jobs", "jobs are 1 to 64"},
               {'o', "folder", "the WAV files go to a folder"},
               {'a', "album", "the WAV of all tracks is a file, or - for standard output"},
               {'E', "each", NULL},
               {'B', "by", "lines are by frame, second, minute"},
               {'J', "json", NULL},
               {'f', "force", NULL},
               {'n', "skip", NULL},
               {'q', "quiet", NULL},
               {'v', "verbose", NULL},
               {'h', "help", NULL},
               {'V', "version", NULL}};
enum { OPTIONS = sizeof options / sizeof *options };
static const char letters[] = ":r:c:g:s:j:o:a:fnqvhV";

static const struct known *known_of(int letter) {
    for (int k = 0; k < OPTIONS; k++)
        if (options[k].letter == letter) return &options[k];
    return NULL;
}

static const char *const cutoffs[] = {"standard", "low", "wide", NULL};
static const char *const stretches[] = {"frame", "second", "minute", NULL};
static const char *const formats[] = {"auto", "wav", "rf64", NULL};

static void take(int letter, const char *word, struct asked *a) {
    const char *taken = known_of(letter)->taken;
    switch (letter) {
    case 'r': a->rate = rate_of(word, taken); break;
    case 'c': a->cutoff = choice_of(word, cutoffs, taken); break;
    case 'g': a->decibels = decibels_of(word, taken); break;
    case 'T': a->taps = name_of(word, taken); break;
    case 'F': a->format = choice_of(word, formats, taken); break;
    case 's': a->sheet = name_of(word, taken); break;
    case 'j': a->jobs = jobs_of(word, taken); break;
    case 'o': a->folder = name_of(word, taken); break;
    case 'a': a->all = name_of(word, taken); break;
    case 'E': a->each = true; break;
    case 'B': a->by = (enum by)choice_of(word, stretches, taken); break;
    case 'J': a->json = true; break;
    case 'f': a->there = REPLACE; break;
    case 'n': a->there = SKIP; break;
    case 'q': a->quiet = true; break;
    case 'v': a->verbose = true; break;
    }
}

/* The word of an option that is none: one of several letters in a word is not the last of it. */
static const char *word_at_fault(int count, char **line) {
    const char *next = optind < count ? line[optind] : "";
    bool inside = optopt && !strchr(letters, optopt) && next[0] == '-' && next[1] != '-';
    const char *letter = inside ? strchr(next + 1, optopt) : NULL;
    return letter && letter[1] ? next : line[optind - 1];
}

static void fill(struct option *named) {
    for (int k = 0; k < OPTIONS; k++)
        named[k] = (struct option){options[k].name, options[k].taken ? required_argument : no_argument, NULL, options[k].letter};
    named[OPTIONS] = (struct option){NULL, 0, NULL, 0};
}

static void read_options(const struct command *c, int count, char **line, struct asked *a) {
    struct option named[OPTIONS + 1];
    int letter;
    fill(named);
    opterr = 0;
    while ((letter = getopt_long(count, line, letters, named, NULL)) != -1) {
        if (letter == 'h') tell(help);
        if (letter == 'V') tell("puigneht " PUIGNEHT_VERSION "\n");
        if (letter == '?') misused(word_at_fault(count, line));
        int option = letter == ':' ? optopt : letter;
        if (!strchr(c->takes, option)) stop(USAGE, "%s takes no --%s", c->name, known_of(option)->name);
        if (letter == ':') stop(USAGE, "a value is missing behind %.1000s: %s", line[count - 1], known_of(option)->taken);
        take(letter, optarg, a);
    }
}

/* ---- the words */

static const struct command *named(const struct command *commands, const char *word) {
    for (const struct command *c = commands; c->name; c++)
        if (!strcmp(word, c->name)) return c;
    return NULL;
}

/* There are so many words at least and at most; what is missing is named. */
static void few(const struct words *w, int least, int most, const char *const *names) {
    if (w->count + 1 < least) stop(USAGE, "%s and %s are missing", names[w->count], names[w->count + 1]);
    if (w->count < least) stop(USAGE, "%s is missing", names[w->count]);
    if (w->count > most) stop(USAGE, "'%.1000s' is one word too many", w->at[most]);
}

const struct command *understood(const struct command *commands, int count, char **line, struct asked *a,
                                 struct words *words) {
    *a = (struct asked){.cutoff = PUIGNEHT_STANDARD};
    const struct command *c = count > 1 ? named(commands, line[1]) : NULL;
    count -= c != NULL, line += c != NULL; /* the command's word stands where the program's name does */
    c = c ? c : commands;
    if (count > 0) read_options(c, count, line, a);
    *words = (struct words){.count = count - optind, .at = line + optind};
    few(words, c->least, c->most, c->names);
    return c;
}

/* ---- the files of a conversion */

static void check_options(const struct asked *a) {
    if (a->folder && a->all) stop(USAGE, "-o is a WAV file a track, -a one of all: both were given");
    if (a->each && !a->folder) stop(USAGE, "--each needs -o FOLDER");
    if (a->each && a->sheet) stop(USAGE, "--each has no sheet: -s is an album's");
    if (a->taps && a->cutoff != PUIGNEHT_STANDARD) stop(USAGE, "--taps is for the cutoff standard");
    if (a->quiet && a->verbose) stop(USAGE, "-q says less, -v more: both were given");
}

void take_tracks(struct asked *a, const struct words *words) {
    check_options(a);
    a->all = "-"; /* no WAV file */
    a->tracks = words->at;
    a->count = words->count;
    for (int k = 0; k < words->count; k++)
        if (!*words->at[k]) misused(words->at[k]);
    if (a->count > MOST_TRACKS)
        stop(USAGE, "'%.1000s' is track 100: an album has at most 99", a->tracks[MOST_TRACKS]);
}

void take_files(struct asked *a, const struct words *words) {
    static const char *const pair[] = {"IN.dsf", "OUT.wav"}, *const track[] = {"TRACK1.dsf"};
    bool tracks = a->folder || a->all;
    check_options(a);
    few(words, tracks ? 1 : 2, tracks ? words->count : 2, tracks ? track : pair);
    a->tracks = words->at;
    a->count = tracks ? words->count : 1;
    for (int k = 0; k < words->count; k++)
        if (!*words->at[k]) misused(words->at[k]);
    if (!tracks) a->all = words->at[1];
    if (!a->each && a->count > MOST_TRACKS)
        stop(USAGE, "'%.1000s' is track 100: an album has at most 99", a->tracks[MOST_TRACKS]);
}
