/* Redis: a transaction is MULTI, its commands, which are queued, and EXEC, whose reply has all of theirs. */
#include "protocol.h"
#include <stdlib.h>
#include <string.h>

static void redis_encode(struct bytes *out, struct request request) {
    append_frame(out, request, "MULTI", "EXEC");
}

static int is_line(const char *from, size_t length, const char *line) {
    return length == strlen(line) && !memcmp(from, line, length);
}

/* One reply of those that EXEC gives: `+OK`, or a value, which tells its key. */
static size_t take_one(const char *from, size_t length) {
    const char *value;
    size_t value_length;
    if (length >= 5 && !memcmp(from, "+OK\r\n", 5)) return 5;
    if (length < 5) return 0;
    size_t used = take_bulk(from, length, &value, &value_length);
    if (used > 0) check_value(value, value_length, (uint32_t)strtoul(value + 1, NULL, 10));
    return used;
}

static size_t take_replies(const char *from, size_t length, size_t line, enum found *found) {
    size_t at = line;
    for (long left = strtol(from + 1, NULL, 10); left > 0; left--) {
        size_t used = take_one(from + at, length - at);
        if (used == 0) return 0;
        at += used;
    }
    *found = ANSWERED;
    return at;
}

static size_t redis_take(const char *from, size_t length, struct request request, enum found *found) {
    const char *end = memchr(from, '\n', length);
    *found = PARTIAL;
    if (!end) return 0;
    size_t line = (size_t)(end - from) + 1;
    if (request.kind == COMMIT && from[0] == '*' && from[1] != '-') return take_replies(from, length, line, found);
    *found = ANSWERED;
    if (request.kind == PING && is_line(from, line, "+PONG\r\n")) return line;
    if (request.kind == BEGIN && is_line(from, line, "+OK\r\n")) return line;
    if ((request.kind == GET || request.kind == SET) && is_line(from, line, "+QUEUED\r\n")) return line;
    fail("unexpected reply", from, line);
}

const struct protocol redis = {.name = "redis", .encode = redis_encode, .take = redis_take};
