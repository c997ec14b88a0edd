/* What the move of RAM takes of a processor, by who digests the stream: `digests MIB` moves MIB mebibytes of the
 * program's RAM, once with digests of the library's own and once with those that both hosts tell, and prints the
 * seconds of processor time for a GiB, and how many times a copy by memcpy that is: of the calls of the source,
 * of those of the target, and of the digests that are made beside them. With no word it moves 2 MiB by each, and
 * prints nothing. What arrives has to be RAM, byte for byte. With -DWITH_OPENSSL and -lcrypto the digests that
 * are told are made by OpenSSL. */
#define _POSIX_C_SOURCE 200809L
#include <stdlib.h>
#include <time.h>
#include "driver.h"
#ifdef WITH_OPENSSL
#include <openssl/evp.h>
#endif

enum { PIECE = 65536, ITEMS = 64, MIB_SHORT = 2 };

static const vmig_shape ENTROPY = {.kind = VMIG_ENTROPY};

struct seconds {
    double copy, take, stop, digest, feed, check;
};

struct digest {
    vmig_digest own;
#ifdef WITH_OPENSSL
    EVP_MD_CTX *context;
#endif
};

/* One move. The digests are those of what was taken and of what was fed, where the hosts tell them. */
struct move {
    vmig_machine source, target;
    int is_told;
    struct digest taken, fed;
    struct seconds s;
};

static double now(void)
{
    struct timespec t;
    clock_gettime(CLOCK_PROCESS_CPUTIME_ID, &t);
    return (double)t.tv_sec + (double)t.tv_nsec / 1e9;
}

#ifdef WITH_OPENSSL
static void begin(struct digest *d)
{
    d->context = EVP_MD_CTX_new();
    if (d->context == NULL || EVP_DigestInit_ex(d->context, EVP_sha256(), NULL) != 1) exit(2);
}

static void add(struct digest *d, const uint8_t *bytes, size_t len)
{
    if (EVP_DigestUpdate(d->context, bytes, len) != 1) exit(2);
}

static void end(struct digest *d, uint8_t digest[32])
{
    if (EVP_DigestFinal_ex(d->context, digest, NULL) != 1) exit(2);
    EVP_MD_CTX_free(d->context);
}
#else
static void begin(struct digest *d) { vmig_digest_begin(&d->own); }
static void add(struct digest *d, const uint8_t *bytes, size_t len) { vmig_digest_add(&d->own, bytes, len); }
static void end(struct digest *d, uint8_t digest[32]) { vmig_digest_end(&d->own, digest); }
#endif

static vmig_status feed_some(struct move *v, const uint8_t *bytes, size_t len, size_t *used)
{
    return v->is_told ? vmig_feed_some(&v->target, bytes, len, used) : vmig_feed(&v->target, bytes, len);
}

/* A piece arrives. The digest of what was fed is told where it is due. */
static void feed(struct move *v, const uint8_t *bytes, size_t len)
{
    uint8_t digest[32];
    size_t used = len;

    for (double begun = now(); len > 0; bytes += used, len -= used, begun = now()) {
        vmig_status status = feed_some(v, bytes, len, &used);
        double fed = now();
        v->s.feed += fed - begun;
        if (vmig_refused(status)) exit(1);
        if (v->is_told && status != VMIG_WHOLE) add(&v->fed, bytes, used);
        if (status == VMIG_DIGEST) end(&v->fed, digest);
        v->s.check += now() - fed;
        if (status == VMIG_DIGEST) expect("tell the target", vmig_feed_tell(&v->target, digest), VMIG_OK);
    }
}

/* What waits goes to the target, in pieces. */
static void carry(struct move *v, int is_digested)
{
    static uint8_t piece[PIECE];

    for (;;) {
        size_t got = 0;
        double begun = now(), taken;

        expect("take", vmig_send_take(&v->source, piece, sizeof piece, &got), VMIG_OK);
        taken = now();
        v->s.take += taken - begun;
        if (got == 0) return;
        if (is_digested) add(&v->taken, piece, got);
        v->s.digest += now() - taken;
        feed(v, piece, got);
    }
}

static void move(struct move *v)
{
    uint64_t pages = 0, sectors = 0;
    vmig_status status;
    double begun = now();
    uint8_t digest[32];

    expect("begin", vmig_send_begin_as(&v->source, v->is_told ? VMIG_TOLD : 0), VMIG_OK);
    v->s.copy += now() - begun;
    if (v->is_told) begin(&v->taken), begin(&v->fed);
    do {
        begun = now();
        status = vmig_send_some(&v->source, ITEMS);
        v->s.copy += now() - begun;
        carry(v, v->is_told);
    } while (status == VMIG_OK);
    expect("all was copied", status, VMIG_ROUND_DONE);
    begun = now();
    expect("stop", vmig_send_stop(&v->source, &pages, &sectors), VMIG_OK);
    v->s.stop += now() - begun;
    carry(v, v->is_told);
    if (!v->is_told) return;
    end(&v->taken, digest);
    expect("tell", vmig_send_tell(&v->source, digest), VMIG_OK);
    carry(v, 0);
}

static void print(const struct move *v, double gib, double memcpy_of)
{
    const struct seconds *s = &v->s;
    double source = s->copy + s->take + s->stop;

    printf("%s: source %.2f s a GiB, %.1f times memcpy (copied %.2f, taken %.2f, stopped %.2f), its digest %.2f\n",
           v->is_told ? "told" : "own", source / gib, source / memcpy_of, s->copy / gib, s->take / gib, s->stop / gib,
           s->digest / gib);
    printf("%s: target %.2f s a GiB, %.1f times memcpy, its digest %.2f\n", v->is_told ? "told" : "own", s->feed / gib,
           s->feed / memcpy_of, s->check / gib);
}

/* Moves `len` bytes from RAM to RAM of the program. */
static void measure(uint8_t *from, uint8_t *to, size_t len, struct move *v)
{
    vmig_setup setup = VMIG_SETUP;
    vmig_arrival arrival = VMIG_ARRIVAL;
    double begun;

    setup.shapes = &ENTROPY, setup.count = 1, setup.ram = (vmig_ram){from, len}, setup.flags = VMIG_LARGE;
    arrival.ram = (vmig_ram){to, len}, arrival.flags = VMIG_LARGE | (v->is_told ? VMIG_TOLD : 0);
    memset(to, 1, len);
    expect("make", vmig_make(&setup, &v->source), VMIG_OK);
    expect("arrive", vmig_arrive(&arrival, &v->target), VMIG_OK);
    move(v);
    begun = now();
    expect("finish", vmig_finish(&v->target), VMIG_OK);
    v->s.feed += now() - begun;
    vmig_free(&v->source);
    vmig_free(&v->target);
    expect("what arrived", (uint64_t)memcmp(from, to, len), 0);
}

int main(int argc, char **argv)
{
    int is_long = argc > 1;
    size_t mib = is_long ? strtoul(argv[1], NULL, 10) : MIB_SHORT, len = mib << 20;
    uint8_t *from = malloc(len), *to = malloc(len);
    double begun, memcpy_of, gib = (double)len / (1 << 30);

    if (len == 0 || from == NULL || to == NULL) return 2;
    for (size_t i = 0; i < len; i++) from[i] = (uint8_t)(i * 31 + i / 4096 * 7 + 1);
    memset(to, 1, len);
    begun = now();
    memcpy(to, from, len);
    memcpy_of = now() - begun;
    if (is_long) printf("memcpy: %.2f s a GiB\n", memcpy_of / gib);
    expect("what was copied", to[len / 2], from[len / 2]);
    for (int is_told = 0; is_told < 2; is_told++) {
        struct move v = {.source = VMIG_NONE, .target = VMIG_NONE, .is_told = is_told};
        measure(from, to, len, &v);
        if (is_long) print(&v, gib, memcpy_of);
    }
    free(from);
    free(to);
    return ended("digests");
}
