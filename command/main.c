/* The command. What is decided of albums (refusals with their numbers, the plan, every byte) is decided by the
 * proved libraries of puigneht/album.h and puigneht.h. In C are the arguments (args.c), the calls of the system, and
 * the sentences, which are the library's. */
#define _POSIX_C_SOURCE 200809L
#include <limits.h>
#include "args.h"
#include "bytes.h"
#include "convert.h"
#include "ends.h"
#include "others.h"
#include "signals.h"

/* A line for each; the first one is what a line without a command's word is for. Capital letters: args.c. */
static const struct command commands[] = {
    {"convert", "rcgTFsjoaEfnqv", 0, INT_MAX, {0}, convert},
    {"verify", "rcgTFjoaqv", 0, INT_MAX, {0}, verify},
    {"levels", "rcgTBjqv", 1, INT_MAX, {"IN.dsf"}, levels},
    {"info", "J", 1, INT_MAX, {"IN.dsf"}, info},
    {"frames", "oq", 1, INT_MAX, {"IN.dsf"}, frames},
    {"dsf", "q", 3, 3, {"CHANNELS", "FRAMES", "OUT.dsf"}, dsf},
    {"check", "", 0, 1, {0}, check},
    {"turns", "", 1, INT_MAX, {"TURN"}, turns},
    {"gains", "", 0, 0, {0}, gains},
    {0},
};

int main(int argc, char **argv) {
    struct asked asked;
    struct words words;
    fill_standard_files();
    set_signals();
    const struct command *command = understood(commands, argc, argv, &asked, &words);
    quiet = asked.quiet;
    return command->run(&asked, &words);
}
