/* JSON, printed to standard output: one object a line. */
#ifndef JSON_H
#define JSON_H

#include <stdbool.h>
#include <stddef.h>
#include <stdint.h>

/* An object or a list that is open, in a text of its own; all of it is printed at the end. */
struct json {
    char text[16384];
    size_t length;
    bool first; /* nothing stands in what was opened last */
};

void json_open(struct json *j, const char *key, char bracket); /* key NULL: it has none */
void json_close(struct json *j, char bracket);
void json_text(struct json *j, const char *key, const char *value);
void json_number(struct json *j, const char *key, uint64_t value);
void json_bool(struct json *j, const char *key, bool value);
void json_print(struct json *j);

#endif
