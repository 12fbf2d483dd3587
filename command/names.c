/* The names of an album's files. */
#define _POSIX_C_SOURCE 200809L
#include "names.h"
#include <stdio.h>
#include <stdlib.h>
#include <string.h>
#include <strings.h>
#include "ends.h"

const char *base_of(const char *path) {
    const char *slash = strrchr(path, '/');
    return slash ? slash + 1 : path;
}

/* The length of a path without slashes at its end. */
static size_t length_of(const char *path) {
    size_t length = strlen(path);
    while (length > 1 && path[length - 1] == '/') length--;
    return length;
}

void folder_name(const char *path, char *name, size_t room) {
    size_t end = length_of(path), begin = end;
    while (begin && path[begin - 1] != '/') begin--;
    snprintf(name, room, "%.*s", (int)(end - begin), path + begin);
    if (!strcmp(name, ".") || !strcmp(name, "..")) *name = 0;
}

/* How many characters of a name stand before .dsf, in any case of its letters. */
static size_t stem_of(const char *name) {
    size_t length = strlen(name);
    return length > 4 && !strcasecmp(name + length - 4, ".dsf") ? length - 4 : length;
}

char *wav_of(const char *folder, const char *track) {
    const char *name = base_of(track);
    size_t stem = stem_of(name), length = length_of(folder), room = length + stem + sizeof "/.wav";
    char *path = malloc(room);
    if (!path) failed("get memory for", track);
    snprintf(path, room, "%.*s%s%.*s.wav", (int)length, folder, folder[length - 1] == '/' ? "" : "/", (int)stem, name);
    return path;
}

/* ---- alike */

struct named {
    const char *name;
    size_t stem;
    int number;
};

static int compare(const void *one, const void *other) {
    const struct named *a = one, *b = other;
    size_t least = a->stem < b->stem ? a->stem : b->stem;
    int order = strncasecmp(a->name, b->name, least);
    if (order || a->stem != b->stem) return order ? order : a->stem < b->stem ? -1 : 1;
    return a->number - b->number;
}

/* Sorted, those that are alike stand side by side. */
void check_alike(char *const *tracks, int count) {
    struct named *all = calloc((size_t)count, sizeof *all);
    if (!all) failed("get memory for", tracks[0]);
    for (int k = 0; k < count; k++) {
        const char *name = base_of(tracks[k]);
        all[k] = (struct named){name, stem_of(name), k};
    }
    qsort(all, (size_t)count, sizeof *all, compare);
    for (int k = 1; k < count; k++)
        if (all[k].stem == all[k - 1].stem && !strncasecmp(all[k].name, all[k - 1].name, all[k].stem))
            stop(REFUSED, "%s and %s would both be %.*s.wav: nothing is read", tracks[all[k - 1].number],
                 tracks[all[k].number], (int)all[k].stem, all[k].name);
    free(all);
}

/* ---- the order */

static const char digits[] = "0123456789";

/* Compares the numbers that two texts begin with. */
static int compare_numbers(const char *one, const char *other) {
    one += strspn(one, "0");
    other += strspn(other, "0");
    size_t length = strspn(one, digits), others = strspn(other, digits);
    if (length != others) return length < others ? -1 : 1;
    return strncmp(one, other, length);
}

bool runs_backwards(const char *first, const char *second) {
    while (*first && *second) {
        size_t number = strspn(first, digits), others = strspn(second, digits);
        if (number && others) {
            int order = compare_numbers(first, second);
            if (order) return order > 0;
            first += number;
            second += others;
        } else if (*first++ != *second++) {
            return false;
        }
    }
    return false;
}
