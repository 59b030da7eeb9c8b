/* RESP2, as ssikvd speaks it, and the echo of a PING. */
#include "protocol.h"
#include <stdio.h>
#include <stdlib.h>
#include <string.h>

#define PING_FRAME "*1\r\n$4\r\nPING\r\n"

static void append_text(struct bytes *out, const char *text) {
    append(out, text, strlen(text));
}

static void append_part_head(struct bytes *out, size_t length) {
    char head[32];
    append(out, head, (size_t)snprintf(head, sizeof head, "$%zu\r\n", length));
}

static void append_key(struct bytes *out, uint32_t key) {
    char text[KEY_BYTES];
    write_key(text, key);
    append_part_head(out, KEY_BYTES);
    append(out, text, KEY_BYTES);
    append_text(out, "\r\n");
}

static void append_command(struct bytes *out, const char *name, int parts) {
    char head[32];
    append(out, head, (size_t)snprintf(head, sizeof head, "*%d\r\n", parts));
    append_part_head(out, strlen(name));
    append_text(out, name);
    append_text(out, "\r\n");
}

void append_frame(struct bytes *out, struct request request, const char *begin, const char *commit) {
    switch (request.kind) {
    case PING: append_text(out, PING_FRAME); break;
    case BEGIN: append_command(out, begin, 1); break;
    case COMMIT: append_command(out, commit, 1); break;
    case GET:
        append_command(out, "GET", 2);
        append_key(out, request.key);
        break;
    case SET:
        append_command(out, "SET", 3);
        append_key(out, request.key);
        append_part_head(out, value_bytes);
        append_value(out, request.key);
        append_text(out, "\r\n");
        break;
    case RANGE:
        append_command(out, "RANGE", 4);
        append_key(out, request.key);
        append_key(out, request.key + RANGE_PAIRS);
        append_text(out, "$2\r\n64\r\n");
        break;
    }
}

static void resp_encode(struct bytes *out, struct request request) {
    append_frame(out, request, "BEGIN", "COMMIT");
}

size_t take_bulk(const char *from, size_t length, const char **text, size_t *text_length) {
    const char *end = memchr(from, '\n', length);
    if (!end) return 0;
    size_t line = (size_t)(end - from) + 1;
    long size = from[0] == '$' ? strtol(from + 1, NULL, 10) : -1;
    if (size < 0) fail("no value", from, line);
    if (length < line + (size_t)size + 2) return 0;
    *text = from + line;
    *text_length = (size_t)size;
    return line + (size_t)size + 2;
}

static int is_line(const char *from, size_t length, const char *line) {
    return length == strlen(line) && !memcmp(from, line, length);
}

static size_t take_value(const char *from, size_t length, uint32_t key, enum found *found) {
    const char *value;
    size_t value_length, used = take_bulk(from, length, &value, &value_length);
    if (used == 0) return 0;
    check_value(value, value_length, key);
    *found = ANSWERED;
    return used;
}

/* The pairs of a range, of which the first line has this length. */
static size_t take_pairs(const char *from, size_t length, size_t line, uint32_t first, enum found *found) {
    size_t at = line;
    for (int i = 0; i < RANGE_PAIRS; i++) {
        const char *key, *value;
        size_t key_length, value_length, used = take_bulk(from + at, length - at, &key, &key_length);
        if (used == 0) return 0;
        at += used;
        if ((used = take_bulk(from + at, length - at, &value, &value_length)) == 0) return 0;
        at += used;
        check_pair(key, key_length, value, value_length, first);
    }
    *found = ANSWERED;
    return at;
}

static size_t resp_take(const char *from, size_t length, struct request request, enum found *found) {
    const char *end = memchr(from, '\n', length);
    *found = PARTIAL;
    if (!end) return 0;
    size_t line = (size_t)(end - from) + 1;
    if (request.kind == GET && from[0] == '$') return take_value(from, length, request.key, found);
    if (request.kind == RANGE && is_line(from, line, "*128\r\n")) return take_pairs(from, length, line, request.key, found);
    *found = ANSWERED;
    if (request.kind == PING && is_line(from, line, "+PONG\r\n")) return line;
    if ((request.kind == BEGIN || request.kind == SET) && is_line(from, line, "+OK\r\n")) return line;
    if (request.kind == COMMIT && from[0] == ':') return line;
    *found = REFUSED;
    if (request.kind == COMMIT && line > 9 && !memcmp(from, "-CONFLICT", 9)) return line;
    fail("unexpected reply", from, line);
}

static size_t echo_take(const char *from, size_t length, struct request request, enum found *found) {
    const size_t whole = sizeof PING_FRAME - 1;
    *found = PARTIAL;
    if (length < whole) return 0;
    if (request.kind != PING || memcmp(from, PING_FRAME, whole)) fail("not an echo", from, length);
    *found = ANSWERED;
    return whole;
}

const struct protocol resp = {.name = "resp", .encode = resp_encode, .take = resp_take};
const struct protocol echo = {.name = "echo", .encode = resp_encode, .take = echo_take};
