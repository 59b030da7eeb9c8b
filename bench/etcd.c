/* etcd by its HTTP/JSON gateway: a transaction is one POST of /v3/kv/txn, with keys and values in base64. */
#define _GNU_SOURCE
#include "protocol.h"
#include <stdio.h>
#include <stdlib.h>
#include <string.h>

#define ENCODED_MAX ((VALUE_BYTES_MAX + 2) / 3 * 4)
static const char digits[] = "ABCDEFGHIJKLMNOPQRSTUVWXYZabcdefghijklmnopqrstuvwxyz0123456789+/";

static void append_text(struct bytes *out, const char *text) {
    append(out, text, strlen(text));
}

static void append_base64(struct bytes *out, const char *from, size_t length) {
    for (size_t at = 0; at < length; at += 3) {
        size_t left = length - at;
        uint32_t three = (uint32_t)(uint8_t)from[at] << 16;
        if (left > 1) three |= (uint32_t)(uint8_t)from[at + 1] << 8;
        if (left > 2) three |= (uint8_t)from[at + 2];
        char four[4] = {digits[three >> 18], digits[three >> 12 & 63], left > 1 ? digits[three >> 6 & 63] : '=', left > 2 ? digits[three & 63] : '='};
        append(out, four, 4);
    }
}

/* How many bytes these digits are. */
static size_t decode_base64(char *to, const char *from, size_t length) {
    size_t count = 0;
    uint32_t bits = 0, held = 0;
    for (size_t i = 0; i < length && from[i] != '='; i++) {
        const char *digit = memchr(digits, from[i], 64);
        if (!digit) fail("no base64", from, length);
        bits = bits << 6 | (uint32_t)(digit - digits);
        if ((held += 6) >= 8) to[count++] = (char)(bits >> (held -= 8) & 255);
    }
    return count;
}

static void append_key(struct bytes *out, uint32_t key) {
    char text[KEY_BYTES];
    write_key(text, key);
    append_base64(out, text, KEY_BYTES);
}

static void append_operation(struct bytes *out, struct request request) {
    if (request.kind != GET && request.kind != SET) fail("etcd is asked for GET and SET alone", "", 0);
    append_text(out, request.kind == GET ? "{\"request_range\":{\"key\":\"" : "{\"request_put\":{\"key\":\"");
    append_key(out, request.key);
    if (request.kind == SET) {
        struct bytes value = {0};
        append_value(&value, request.key);
        append_text(out, "\",\"value\":\"");
        append_base64(out, value.at, value.length);
        free(value.at);
    }
    append_text(out, "\"}}");
}

/* Between the first and the last, BEGIN and COMMIT, stand those of the transaction. */
static void etcd_encode_all(struct bytes *out, const struct request *requests, int count) {
    struct bytes body = {0};
    char head[128];
    append_text(&body, "{\"success\":[");
    for (int i = 1; i < count - 1; i++) {
        if (i > 1) append_text(&body, ",");
        append_operation(&body, requests[i]);
    }
    append_text(&body, "]}");
    append(out, head, (size_t)snprintf(head, sizeof head, "POST /v3/kv/txn HTTP/1.1\r\nHost: etcd\r\nContent-Length: %zu\r\n\r\n", body.length));
    append(out, body.at, body.length);
    free(body.at);
}

static const char *find(const char *from, size_t length, const char *text) {
    return memmem(from, length, text, strlen(text));
}

/* The values are those of their keys, and there are so many. */
static void check_values(const char *from, size_t length, uint32_t wanted) {
    static const char mark[] = "\"value\":\"";
    const char *end = from + length, *at;
    uint32_t count = 0;
    for (; (at = find(from, (size_t)(end - from), mark)); count++) {
        char value[ENCODED_MAX];
        const char *first = at + sizeof mark - 1, *last = memchr(first, '"', (size_t)(end - first));
        if (!last || last - first > ENCODED_MAX) fail("no value", at, (size_t)(end - at));
        size_t size = decode_base64(value, first, (size_t)(last - first));
        check_value(value, size, size > KEY_BYTES ? (uint32_t)strtoul(value + 1, NULL, 10) : 0);
        from = last;
    }
    if (count != wanted) fail("another number of values", from, (size_t)(end - from));
}

static size_t etcd_take(const char *from, size_t length, struct request request, enum found *found) {
    static const char blank[] = "\r\n\r\n", size_mark[] = "Content-Length: ", last_chunk[] = "\r\n0\r\n\r\n";
    const char *head_end = find(from, length, blank);
    *found = PARTIAL;
    if (!head_end) return 0;
    size_t head = (size_t)(head_end - from) + sizeof blank - 1, whole;
    if (length < 12 || memcmp(from, "HTTP/1.1 200", 12)) fail("unexpected reply", from, length);
    const char *size = find(from, head, size_mark);
    if (size) whole = head + strtoul(size + sizeof size_mark - 1, NULL, 10);
    else {
        /* The replies of many writes come in chunks. */
        const char *last = find(from + head - 2, length - head + 2, last_chunk);
        if (!last) return 0;
        whole = (size_t)(last - from) + sizeof last_chunk - 1;
    }
    if (length < whole) return 0;
    if (!find(from, whole, "\"succeeded\":true")) fail("unexpected reply", from, whole);
    check_values(from + head, whole - head, request.key);
    *found = ANSWERED;
    return whole;
}

const struct protocol etcd = {.name = "etcd", .encode_all = etcd_encode_all, .take = etcd_take};
