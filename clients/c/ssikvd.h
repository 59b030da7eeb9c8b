/* A client of ssikvd, an ordered key-value store with strictly serializable transactions. One header and one file, for POSIX threads.
 *
 * Reads and writes stand inside the work of ssikvd_transact or ssikvd_once alone. A work answers SSIKVD_OK, what a call of its answered, or a number
 * of its own from SSIKVD_OWN on, which aborts the transaction and is what ssikvd_transact answers then. It may run more than once, so it does
 * nothing but read and write through its transaction.
 */
#ifndef SSIKVD_H
#define SSIKVD_H

#include <stddef.h>
#include <stdint.h>

#define SSIKVD_VERSION "0.2.0"

/* What a call answers. */
enum ssikvd_status {
    SSIKVD_OK,
    SSIKVD_CONFLICT,    /* COMMIT met other commits, until the deadline; nothing was written */
    SSIKVD_FULL,        /* a limit, in `limit`; nothing was written */
    SSIKVD_STOPPED,     /* the store is stopped by a fault of its device; nothing was written */
    SSIKVD_REFUSED,     /* another refusal of the server's, in `text`: a fault of the program or of this file */
    SSIKVD_LOST,        /* COMMIT was sent, and its outcome isn't known: ssikvd_once with the same key settles it */
    SSIKVD_UNREACHABLE, /* no connection, or one that was lost before COMMIT was sent; nothing was written */
    SSIKVD_INVALID,     /* a call that breaks a limit or comes after the end; nothing was sent */
    SSIKVD_OWN = 100
};

/* Bytes; with `data` NULL none, as the value of a key that isn't there. */
struct ssikvd_bytes {
    const void *data;
    size_t size;
};

/* What is known of an error. */
struct ssikvd_error {
    int status;
    char text[1100];        /* the server's words, or ours */
    char limit[32];         /* of SSIKVD_FULL: transactions, writes, marks, log, numbers or connections */
    unsigned char key[256]; /* of SSIKVD_CONFLICT: the key that was overwritten, if key_size isn't 0 */
    size_t key_size;
    uint64_t pivot;         /* else the number of the transaction that would be a pivot, 0 for the own one */
};

/* How a store is used. Times are in seconds. */
struct ssikvd_options {
    unsigned connections;    /* the most of the pool, 1 to 64: those of all programs together should be at most 64 */
    double connect_timeout;  /* for opening one connection */
    double reply_timeout;    /* for one reply */
    double deadline;         /* no try of a transaction begins later than this after the call */
};
#define SSIKVD_OPTIONS ((struct ssikvd_options){16, 5, 10, 30})

struct ssikvd;             /* a pool of connections, which threads may share */
struct ssikvd_transaction; /* what a work reads and writes; it ends with the work */

/* A store at HOST:PORT, once the server there has answered; NULL where none does, or an option is out of bounds. Options may be NULL. */
struct ssikvd *ssikvd_connect(const char *address, const struct ssikvd_options *options, struct ssikvd_error *error);
/* Closes the connections that are idle, and each other one at the end of its transaction. Later calls are SSIKVD_INVALID. */
void ssikvd_close(struct ssikvd *store);
/* Closes the store and frees it. No call may be under way. */
void ssikvd_free(struct ssikvd *store);

typedef int ssikvd_work(struct ssikvd_transaction *transaction, void *context);
typedef int ssikvd_maker(struct ssikvd_transaction *transaction, void *context, struct ssikvd_bytes *made);

/* Runs the work and commits. Begins again at a conflict, at `FULL transactions`, and where the connection was lost before COMMIT. */
int ssikvd_transact(struct ssikvd *store, ssikvd_work *work, void *context, struct ssikvd_error *error);
/* Commits the work once for this key, however often it is called, and gives the bytes that the work made then, which the store keeps as the
 * key's value. Whoever calls frees `made->data`. The work's own bytes may stand in the transaction's memory (ssikvd_keep) or be static. */
int ssikvd_once(struct ssikvd *store, struct ssikvd_bytes key, ssikvd_maker *work, void *context, struct ssikvd_bytes *made,
                struct ssikvd_error *error);

/* The key's value, which stays until the transaction ends. */
int ssikvd_get(struct ssikvd_transaction *transaction, struct ssikvd_bytes key, struct ssikvd_bytes *value);
int ssikvd_set(struct ssikvd_transaction *transaction, struct ssikvd_bytes key, struct ssikvd_bytes value);
/* No error where the key isn't there. */
int ssikvd_delete(struct ssikvd_transaction *transaction, struct ssikvd_bytes key);
/* A copy of the bytes, and a zero behind them, which stays until the transaction ends; NULL where there is no memory. */
void *ssikvd_keep(struct ssikvd_transaction *transaction, const void *data, size_t size);

/* The pairs with lo <= key < hi by rising key, page by page, as they are needed: ssikvd_range, then ssikvd_next until the key has no data. */
struct ssikvd_range {
    struct ssikvd_transaction *transaction;
    struct ssikvd_bytes at, hi;
    size_t left, pairs, size;
    const char *page;
};
#define SSIKVD_ALL SIZE_MAX
/* An empty hi is no upper end; limit is at least 1, or SSIKVD_ALL. */
int ssikvd_range(struct ssikvd_transaction *transaction, struct ssikvd_bytes lo, struct ssikvd_bytes hi, size_t limit, struct ssikvd_range *range);
int ssikvd_next(struct ssikvd_range *range, struct ssikvd_bytes *key, struct ssikvd_bytes *value);

/* The bytes of a text. */
struct ssikvd_bytes ssikvd_text(const char *text);
/* The least key above this one, and that above all with this prefix, written to 256 bytes; its size, 0 where there is none. */
size_t ssikvd_after(struct ssikvd_bytes key, unsigned char into[256]);
size_t ssikvd_end_of_prefix(struct ssikvd_bytes prefix, unsigned char into[256]);

#endif
