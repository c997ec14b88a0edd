#include <string.h>
#include "digest.h"
#include "terminal.h"

#ifdef WITH_OPENSSL
#include <openssl/evp.h>

const char *digest_begin(struct digest *d)
{
    if (d->context == NULL) d->context = EVP_MD_CTX_new();
    d->has_failed = d->context == NULL || EVP_DigestInit_ex(d->context, EVP_sha256(), NULL) != 1;
    return d->has_failed ? "the stream cannot be digested" : NULL;
}

void digest_add(struct digest *d, const uint8_t *bytes, size_t length)
{
    d->has_failed |= EVP_DigestUpdate(d->context, bytes, length) != 1;
}

int digest_end(struct digest *d, uint8_t bytes[SHA256_LENGTH])
{
    return EVP_DigestFinal_ex(d->context, bytes, NULL) == 1 && !d->has_failed;
}
#else
const char *digest_begin(struct digest *d)
{
    vmig_digest_begin(&d->own);
    return NULL;
}

void digest_add(struct digest *d, const uint8_t *bytes, size_t length)
{
    vmig_digest_add(&d->own, bytes, length);
}

int digest_end(struct digest *d, uint8_t bytes[SHA256_LENGTH])
{
    vmig_digest_end(&d->own, bytes);
    return 1;
}
#endif

static void *digest_pieces(void *of)
{
    struct digester *d = of;

    pthread_mutex_lock(&d->lock);
    for (;;) {
        unsigned next = d->digested % DIGESTER_PIECES;

        while (d->digested == d->added && !d->ends) pthread_cond_wait(&d->has_changed, &d->lock);
        if (d->digested == d->added) break;
        pthread_mutex_unlock(&d->lock);
        digest_add(&d->digest, d->pieces[next], d->lengths[next]);
        pthread_mutex_lock(&d->lock);
        d->digested++;
        pthread_cond_signal(&d->has_changed);
    }
    pthread_mutex_unlock(&d->lock);
    return NULL;
}

const char *digester_begin(struct digester *d)
{
    const char *why = digest_begin(&d->digest);

    if (why != NULL) return why;
    d->added = d->digested = 0;
    d->ends = 0;
    pthread_mutex_init(&d->lock, NULL);
    pthread_cond_init(&d->has_changed, NULL);
    d->is_on = begin_thread(&d->thread, digest_pieces, d);
    return d->is_on ? NULL : "there is no thread that digests";
}

void digester_add(struct digester *d, const uint8_t *bytes, size_t length)
{
    unsigned next = d->added % DIGESTER_PIECES;

    pthread_mutex_lock(&d->lock);
    while (d->added - d->digested == DIGESTER_PIECES) pthread_cond_wait(&d->has_changed, &d->lock);
    pthread_mutex_unlock(&d->lock);
    memcpy(d->pieces[next], bytes, length);
    d->lengths[next] = length;
    pthread_mutex_lock(&d->lock);
    d->added++;
    pthread_cond_signal(&d->has_changed);
    pthread_mutex_unlock(&d->lock);
}

void digester_stop(struct digester *d)
{
    if (!d->is_on) return;
    pthread_mutex_lock(&d->lock);
    d->ends = 1;
    pthread_cond_signal(&d->has_changed);
    pthread_mutex_unlock(&d->lock);
    pthread_join(d->thread, NULL);
    d->is_on = 0;
}

int digester_end(struct digester *d, uint8_t bytes[SHA256_LENGTH])
{
    digester_stop(d);
    return digest_end(&d->digest, bytes);
}
