/* JSON. */
#include "json.h"
#include <stdio.h>
#include <string.h>
#include "bytes.h"
#include "ends.h"
#include "terminal.h"

static void put(struct json *j, const char *text, size_t length) {
    if (j->length + length >= sizeof j->text) stop(SYSTEM, "a line of JSON is too long");
    memcpy(j->text + j->length, text, length);
    j->length += length;
    j->text[j->length] = 0;
}

static void put_code(struct json *j, unsigned code) {
    char text[8];
    put(j, text, (size_t)snprintf(text, sizeof text, "\\u%04x", code));
}

/* A byte that is no UTF-8 is told by itself, as Python tells it in names of files: 0xDC00 more. */
static void put_text(struct json *j, const char *text) {
    uint32_t code;
    put(j, "\"", 1);
    for (int length; *text; text += length) {
        length = character(text, &code);
        unsigned char byte = (unsigned char)*text;
        if (length == 1 && byte >= 0x80) put_code(j, 0xDC00u + byte);
        else if (byte < 0x20 || byte == '"' || byte == '\\' || byte == 0x7F) put_code(j, byte);
        else put(j, text, (size_t)length);
    }
    put(j, "\"", 1);
}

static void put_key(struct json *j, const char *key) {
    if (!j->first) put(j, ", ", 2);
    j->first = false;
    if (!key) return;
    put_text(j, key);
    put(j, ": ", 2);
}

void json_open(struct json *j, const char *key, char bracket) {
    put_key(j, key);
    put(j, &bracket, 1);
    j->first = true;
}

void json_close(struct json *j, char bracket) {
    put(j, &bracket, 1);
    j->first = false;
}

void json_text(struct json *j, const char *key, const char *value) {
    put_key(j, key);
    put_text(j, value);
}

void json_number(struct json *j, const char *key, uint64_t value) {
    char text[24];
    put_key(j, key);
    put(j, text, (size_t)snprintf(text, sizeof text, "%llu", (unsigned long long)value));
}

void json_bool(struct json *j, const char *key, bool value) {
    put_key(j, key);
    put(j, value ? "true" : "false", value ? 4 : 5);
}

void json_print(struct json *j) {
    put(j, "\n", 1);
    print(j->text);
}
