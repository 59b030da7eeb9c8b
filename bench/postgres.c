/* PostgreSQL's protocol, version 3: statements that are prepared once, binary keys and values, one Sync for each batch. It expects a
 * user `postgres` who is trusted, and a table kv(k bytea primary key, v bytea). */
#include "protocol.h"
#include <arpa/inet.h>
#include <stdlib.h>
#include <string.h>
#include <sys/socket.h>

#define HEAD_BYTES 5

static void append_u32(struct bytes *out, uint32_t number) {
    uint32_t bytes = htonl(number);
    append(out, &bytes, sizeof bytes);
}

static void append_u16(struct bytes *out, uint16_t number) {
    uint16_t bytes = htons(number);
    append(out, &bytes, sizeof bytes);
}

/* A text and the zero that ends it. */
static void append_text(struct bytes *out, const char *text) {
    append(out, text, strlen(text) + 1);
}

/* Begins a message; returns where its length will stand. */
static size_t begin_message(struct bytes *out, char type) {
    append(out, &type, 1);
    append_u32(out, 0);
    return out->length - 4;
}

static void end_message(struct bytes *out, size_t at) {
    uint32_t bytes = htonl((uint32_t)(out->length - at));
    memcpy(out->at + at, &bytes, sizeof bytes);
}

static void append_parse(struct bytes *out, const char *name, const char *statement) {
    size_t at = begin_message(out, 'P');
    append_text(out, name);
    append_text(out, statement);
    append_u16(out, 0);
    end_message(out, at);
}

static void append_sync(struct bytes *out) {
    end_message(out, begin_message(out, 'S'));
}

static void append_startup(struct bytes *out) {
    static const char parameters[] = "user\0postgres\0database\0postgres\0";
    append_u32(out, (uint32_t)(8 + sizeof parameters));
    append_u32(out, 3 << 16);
    append(out, parameters, sizeof parameters);
}

/* Ends the program with an error's fields, which zeros part. */
static _Noreturn void fail_by_error(const char *body, size_t length) {
    char text[200];
    if (length > sizeof text) length = sizeof text;
    for (size_t at = 0; at < length; at++) text[at] = body[at] ? body[at] : ' ';
    fail("PostgreSQL", text, length);
}

static uint32_t read_u32(const char *from) {
    uint32_t bytes;
    memcpy(&bytes, from, sizeof bytes);
    return ntohl(bytes);
}

static void receive_all(int socket, char *into, size_t length) {
    if (length > 0 && recv(socket, into, length, MSG_WAITALL) != (ssize_t)length) fail("the connection was closed", "", 0);
}

/* Takes messages until the server is ready for the next batch. */
static void await_ready(int socket) {
    char head[HEAD_BYTES], body[16384];
    do {
        receive_all(socket, head, HEAD_BYTES);
        uint32_t length = read_u32(head + 1) - 4;
        if (length > sizeof body) fail("a message is too long", head, 1);
        receive_all(socket, body, length);
        if (head[0] == 'E') fail_by_error(body, length);
        if (head[0] == 'R' && read_u32(body) != 0) fail("PostgreSQL asks for a password", "", 0);
    } while (head[0] != 'Z');
}

static void postgres_greet(int socket) {
    struct bytes out = {0};
    append_startup(&out);
    send_all(socket, &out);
    await_ready(socket);
    out.length = 0;
    append_parse(&out, "begin", "BEGIN ISOLATION LEVEL SERIALIZABLE READ WRITE");
    append_parse(&out, "get", "SELECT v FROM kv WHERE k = $1");
    append_parse(&out, "set", "UPDATE kv SET v = $2 WHERE k = $1");
    append_parse(&out, "range", "SELECT k, v FROM kv WHERE k >= $1 AND k < $2 ORDER BY k");
    append_parse(&out, "commit", "COMMIT");
    append_sync(&out);
    send_all(socket, &out);
    await_ready(socket);
    free(out.at);
}

static void append_key(struct bytes *out, uint32_t key) {
    char text[KEY_BYTES];
    write_key(text, key);
    append_u32(out, KEY_BYTES);
    append(out, text, KEY_BYTES);
}

static size_t begin_bind(struct bytes *out, const char *name, uint16_t parameters) {
    size_t at = begin_message(out, 'B');
    append_text(out, "");
    append_text(out, name);
    append_u16(out, 1);
    append_u16(out, 1);
    append_u16(out, parameters);
    return at;
}

/* Ends a binding, and executes. All formats are binary. */
static void execute(struct bytes *out, size_t at) {
    append_u16(out, 1);
    append_u16(out, 1);
    end_message(out, at);
    at = begin_message(out, 'E');
    append_text(out, "");
    append_u32(out, 0);
    end_message(out, at);
}

static void postgres_encode(struct bytes *out, struct request request) {
    static const char *const names[] = {[BEGIN] = "begin", [GET] = "get", [SET] = "set", [RANGE] = "range", [COMMIT] = "commit"};
    static const uint16_t parameters[] = {[GET] = 1, [SET] = 2, [RANGE] = 2, [COMMIT] = 0};
    if (request.kind == PING) fail("no PING here", "", 0);
    size_t at = begin_bind(out, names[request.kind], parameters[request.kind]);
    if (parameters[request.kind] > 0) append_key(out, request.key);
    if (request.kind == RANGE) append_key(out, request.key + RANGE_PAIRS);
    if (request.kind == SET) {
        append_u32(out, (uint32_t)value_bytes);
        append_value(out, request.key);
    }
    execute(out, at);
}

/* A row: the number of its columns, and for each its length and its bytes. */
static void check_row(const char *body, size_t length, struct request request) {
    const size_t key_end = 6 + KEY_BYTES;
    if (request.kind == GET && length >= 6) check_value(body + 6, length - 6, request.key);
    else if (request.kind == RANGE && length >= key_end + 4) check_pair(body + 6, KEY_BYTES, body + key_end + 4, length - key_end - 4, request.key);
    else fail("an unexpected row", body, length);
}

static enum found completed(const char *tag, struct request request) {
    if (request.kind == GET && strcmp(tag, "SELECT 1")) fail("GET", tag, strlen(tag));
    if (request.kind == SET && strcmp(tag, "UPDATE 1")) fail("SET", tag, strlen(tag));
    if (request.kind == RANGE && strcmp(tag, "SELECT 64")) fail("RANGE", tag, strlen(tag));
    return request.kind == COMMIT && strcmp(tag, "COMMIT") ? REFUSED : ANSWERED;
}

/* An error is a refusal where it is a serialization failure (40001), or comes because the transaction has failed (25P02). */
static enum found refused(const char *body, size_t length) {
    for (size_t at = 0; at < length && body[at]; at += strlen(body + at) + 1)
        if (body[at] == 'C' && (!strcmp(body + at + 1, "40001") || !strcmp(body + at + 1, "25P02"))) return REFUSED;
    fail_by_error(body, length);
}

static size_t postgres_take(const char *from, size_t length, struct request request, enum found *found) {
    *found = PARTIAL;
    if (length < HEAD_BYTES) return 0;
    size_t whole = 1 + read_u32(from + 1);
    if (length < whole) return 0;
    const char *body = from + HEAD_BYTES;
    *found = SKIPPED;
    switch (from[0]) {
    case 'D': check_row(body, whole - HEAD_BYTES, request); break;
    case 'C': *found = completed(body, request); break;
    case 'E': *found = refused(body, whole - HEAD_BYTES); break;
    case 'Z': *found = ANSWERED; break;
    }
    return whole;
}

const struct protocol postgres = {
    .name = "postgres",
    .greet = postgres_greet,
    .encode = postgres_encode,
    .finish = append_sync,
    .endings = 1,
    .take = postgres_take,
};
