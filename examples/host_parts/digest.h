/* The SHA-256 of a guest's stream, made beside its machine: by OpenSSL where the program is compiled with it, which
 * has the instructions of a processor for it, and else by the library. */
#ifndef DIGEST_H
#define DIGEST_H

#include <pthread.h>
#include <stddef.h>
#include <stdint.h>
#include "vmig.h"

enum { SHA256_LENGTH = 32 };

/* What waits for a thread that digests, at most. */
enum { DIGESTER_PIECES = 16, DIGESTER_PIECE = 65536 };

struct digest {
    vmig_digest own;   /* where OpenSSL is not there */
    void *context;     /* where it is: taken once, for all moves */
    int has_failed;
};

/* Begins that of no bytes. Returns what is wrong, or NULL. */
const char *digest_begin(struct digest *d);
void digest_add(struct digest *d, const uint8_t *bytes, size_t length);
/* The digest of all that was added. False where it could not be made. */
int digest_end(struct digest *d, uint8_t bytes[SHA256_LENGTH]);

/* A thread that digests what one other thread at a time hands it. */
struct digester {
    int is_on;                /* the thread is there */
    struct digest digest;
    pthread_t thread;
    pthread_mutex_t lock;
    pthread_cond_t has_changed;
    unsigned added, digested; /* how many pieces were */
    int ends;                 /* no more are added */
    size_t lengths[DIGESTER_PIECES];
    uint8_t pieces[DIGESTER_PIECES][DIGESTER_PIECE];
};

/* Begins it. Returns what is wrong, or NULL. */
const char *digester_begin(struct digester *d);
/* Hands it a piece of up to DIGESTER_PIECE bytes, which are copied. Waits for room. */
void digester_add(struct digester *d, const uint8_t *bytes, size_t length);
/* Ends the thread, where it is there. */
void digester_stop(struct digester *d);
/* The digest of all pieces. The thread has ended. False where it could not be made. */
int digester_end(struct digester *d, uint8_t bytes[SHA256_LENGTH]);

#endif
