/* How the load generator speaks to a server. */
#ifndef PROTOCOL_H
#define PROTOCOL_H

#include <stddef.h>
#include <stdint.h>

struct bytes {
    char *at;
    size_t length, room;
};
void append(struct bytes *bytes, const void *from, size_t length);

/* A key is `k` and eight digits. Its value is the key's text and then `x` up to the size of values. */
#define KEY_BYTES 9
#define VALUE_BYTES_MAX 16384
extern size_t value_bytes;
void write_key(char text[KEY_BYTES], uint32_t key);
void append_value(struct bytes *bytes, uint32_t key);
/* Ends the program where this is not the key's value. */
void check_value(const char *value, size_t length, uint32_t key);
/* Ends the program where these are not a key from this one on, below the end of a range, and its value. */
void check_pair(const char *key, size_t key_length, const char *value, size_t length, uint32_t first);

/* A RANGE is over so many keys from its first one on, all of which have values. */
#define RANGE_PAIRS 64
enum kind { PING, BEGIN, GET, SET, RANGE, COMMIT };
struct request {
    enum kind kind;
    /* Of BEGIN, how many values the transaction reads by GET. */
    uint32_t key;
};

enum found {
    PARTIAL,  /* the beginning of a message */
    SKIPPED,  /* a message that ends nothing */
    ANSWERED, /* the reply to a request, or what ends a batch */
    REFUSED   /* the same, and the transaction is refused for a conflict */
};

struct protocol {
    const char *name;
    /* What is exchanged before the first request. May be null. */
    void (*greet)(int socket);
    void (*encode)(struct bytes *out, struct request request);
    /* Instead of it, where a transaction is one message with one reply. */
    void (*encode_all)(struct bytes *out, const struct request *requests, int count);
    /* Ends a batch of requests that are sent together. May be null. */
    void (*finish)(struct bytes *out);
    /* So many messages end a batch, beside the replies. */
    int endings;
    /* Takes a message that came in while this request was waiting for its reply, and returns its length. A message that none expects
     * ends the program. */
    size_t (*take)(const char *from, size_t length, struct request request, enum found *found);
};
extern const struct protocol resp, echo, redis, postgres, etcd;

/* RESP2's frame of a request, for all that speak it. `begin` and `commit` are the names of the commands. */
void append_frame(struct bytes *out, struct request request, const char *begin, const char *commit);
/* A whole bulk string at the front: the length of all of it, 0 where it is not whole. */
size_t take_bulk(const char *from, size_t length, const char **text, size_t *text_length);

_Noreturn void fail(const char *what, const char *text, size_t length);
void send_all(int socket, const struct bytes *bytes);

#endif
