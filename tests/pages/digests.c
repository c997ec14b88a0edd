/* The code of docs/hosts/digests.md, word for word: a stream arrives, and a thread digests it. What arrives is the
 * machine that was sent; of a stream that was damaged, or is cut short, there is none. The line gives bytes in pieces
 * of random sizes. */
#include <pthread.h>
#include <stddef.h>
#include <stdint.h>
#include <string.h>
#include "vmig.h"

enum { PIECE = 65536, PIECES = 8, SHA256 = 32 };

/* What your host has beside this: the next bytes of the stream, as many as have come; 0 where the line fails. */
size_t line_read(uint8_t *bytes, size_t most);

struct piece {
    uint8_t bytes[PIECE];
    size_t used;
};

/* The thread that digests. Pieces are fed and digested in turn, and at most PIECES are fed and not digested. */
struct digester {
    pthread_mutex_t lock;
    pthread_cond_t has_changed;
    struct piece pieces[PIECES];
    unsigned fed, digested;     /* how many pieces were */
    int ends;                   /* none is fed any more */
    vmig_digest digest;         /* or another SHA-256 */
    pthread_t thread;
};

static void *digest_pieces(void *at)
{
    struct digester *d = at;

    pthread_mutex_lock(&d->lock);
    for (;;) {
        const struct piece *p = &d->pieces[d->digested % PIECES];
        while (d->digested == d->fed && !d->ends) pthread_cond_wait(&d->has_changed, &d->lock);
        if (d->digested == d->fed) break;
        pthread_mutex_unlock(&d->lock);
        vmig_digest_add(&d->digest, p->bytes, p->used);
        pthread_mutex_lock(&d->lock);
        d->digested++;
        pthread_cond_signal(&d->has_changed);
    }
    pthread_mutex_unlock(&d->lock);
    return NULL;
}

static int begin_digest(struct digester *d)
{
    memset(d, 0, sizeof *d);
    pthread_mutex_init(&d->lock, NULL), pthread_cond_init(&d->has_changed, NULL);
    vmig_digest_begin(&d->digest);
    return pthread_create(&d->thread, NULL, digest_pieces, d) == 0;
}

/* A piece that the thread does not need. */
static struct piece *next_piece(struct digester *d)
{
    pthread_mutex_lock(&d->lock);
    while (d->fed - d->digested == PIECES) pthread_cond_wait(&d->has_changed, &d->lock);
    pthread_mutex_unlock(&d->lock);
    return &d->pieces[d->fed % PIECES];
}

/* The first bytes of it, as many as were taken, are digested next. */
static void hand_over(struct digester *d, struct piece *p, size_t used)
{
    pthread_mutex_lock(&d->lock);
    p->used = used;
    d->fed++;
    pthread_cond_signal(&d->has_changed);
    pthread_mutex_unlock(&d->lock);
}

/* The digest of all that was handed over. The thread ends. */
static void end_digest(struct digester *d, uint8_t digest[SHA256])
{
    pthread_mutex_lock(&d->lock);
    d->ends = 1;
    pthread_cond_signal(&d->has_changed);
    pthread_mutex_unlock(&d->lock);
    pthread_join(d->thread, NULL);
    vmig_digest_end(&d->digest, digest);
}

/* A piece arrives. Where the record that closes the stream comes in it the digest is told, and the rest is fed. */
static vmig_status feed_piece(vmig_machine *m, struct digester *d, struct piece *p, size_t len)
{
    size_t used = 0;
    vmig_status status = vmig_feed_some(m, p->bytes, len, &used);
    uint8_t digest[SHA256];

    if (vmig_refused(status) || d->ends) return status;
    hand_over(d, p, used);
    if (status != VMIG_DIGEST) return status;
    end_digest(d, digest);
    status = vmig_feed_tell(m, digest);
    return status == VMIG_OK ? vmig_feed_some(m, p->bytes + used, len - used, &used) : status;
}

/* Feeds a machine that arrives with VMIG_TOLD until its stream is whole, is refused, or comes no more. */
static vmig_status feed_stream(vmig_machine *m, struct digester *d)
{
    vmig_status status = VMIG_OK;
    uint8_t digest[SHA256];

    if (!begin_digest(d)) return VMIG_NO_MEMORY;
    while (status == VMIG_OK) {
        struct piece *p = next_piece(d);
        size_t len = line_read(p->bytes, PIECE);
        status = len == 0 ? VMIG_STREAM_TRUNCATED : feed_piece(m, d, p, len);
    }
    if (!d->ends) end_digest(d, digest);
    return status;
}

/* ---- what a host has beside it, here ---- */
#include "driver.h"

enum { PAGES = 300, STREAM_MAX = 2 << 20 };

static uint8_t stream[STREAM_MAX], saved[STREAM_MAX];
static size_t stream_len, at, most;

static uint32_t draw(uint32_t below)
{
    static uint32_t state = 2463534242;
    state ^= state << 13;
    state ^= state >> 17;
    state ^= state << 5;
    return state % below;
}

size_t line_read(uint8_t *bytes, size_t room)
{
    size_t len = 1 + draw((uint32_t)most);

    if (len > room) len = room;
    if (len > stream_len - at) len = stream_len - at;
    memcpy(bytes, stream + at, len);
    at += len;
    return len;
}

static void make_stream(void)
{
    static const vmig_shape shapes[] = {{.kind = VMIG_ENTROPY}, {.kind = VMIG_CONSOLE}};
    vmig_machine m = VMIG_NONE;

    expect("make", make_new(PAGES, shapes, 2, &m), VMIG_OK);
    for (uint32_t page = 0; page < PAGES; page += 1 + draw(3)) put(&m, page * 4096 + draw(4000), 1 + draw(255), 8);
    expect("save", vmig_save(&m, stream, sizeof stream, &stream_len), VMIG_OK);
    vmig_free(&m);
}

/* How it ends in pieces of up to `bytes` bytes. */
static vmig_status arrives(size_t bytes, vmig_machine *m)
{
    static struct digester digester;
    vmig_arrival arrival = VMIG_ARRIVAL;

    at = 0, most = bytes;
    arrival.most_pages = PAGES, arrival.flags = VMIG_TOLD;
    expect("arrive", vmig_arrive(&arrival, m), VMIG_OK);
    return feed_stream(m, &digester);
}

static void is_refused(const char *what, vmig_status wanted)
{
    vmig_machine m = VMIG_NONE;

    expect(what, arrives(1 + draw(PIECE), &m), wanted);
    expect("no machine", vmig_finish(&m) == VMIG_OK, 0);
    vmig_free(&m);
}

int main(void)
{
    static const size_t sizes[] = {7, 1000, PIECE, 4 * PIECE};

    make_stream();
    for (int i = 0; i < 4; i++) {
        vmig_machine m = VMIG_NONE;
        size_t len = 0;
        expect("whole", arrives(sizes[i], &m), VMIG_WHOLE);
        expect("finish", vmig_finish(&m), VMIG_OK);
        expect("save", vmig_save(&m, saved, sizeof saved, &len), VMIG_OK);
        expect("the same machine", len == stream_len && memcmp(saved, stream, len) == 0, 1);
        vmig_free(&m);
    }
    for (int i = 0; i < 10; i++) {
        size_t byte = stream_len - 1 - draw(32), whole = stream_len;
        uint8_t was = stream[byte];
        stream[byte] ^= (uint8_t)(1 << draw(8));
        is_refused("another digest", VMIG_STREAM_BAD_DIGEST);
        stream[byte] = was;
        stream_len -= 1 + draw(300);
        is_refused("cut short", VMIG_STREAM_TRUNCATED);
        stream_len = whole;
    }
    return ended("digests");
}
