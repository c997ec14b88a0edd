/* A peer that sends on after its stream was refused, at whatever place: it gets no second arrival, and no memory is taken for it. Each
 * cut and each damage is tried, within the header too, and after each the peer sends a whole stream that is right. */
#include <stdlib.h>
#include <string.h>
#include "driver.h"

enum { PAGES = 2, SECTORS = 2, HEADER = 16 + 30 + 1 };

static const vmig_shape SHAPES[] = {{.kind = VMIG_BLOCK, .sectors = SECTORS}, {.kind = VMIG_ENTROPY}};

static uint8_t stream[3 * 4096], images[SECTORS * 512], before[SECTORS * 512];
static size_t stream_len;

/* The C library's own allocator, under the names that it keeps for a program with its own malloc. */
void *__libc_malloc(size_t size);
void *__libc_calloc(size_t count, size_t size);
void *__libc_realloc(void *at, size_t size);
void __libc_free(void *at);

static uint64_t requests;   /* for memory */

void *malloc(size_t size) { requests++; return __libc_malloc(size); }
void *calloc(size_t count, size_t size) { requests++; return __libc_calloc(count, size); }
void *realloc(void *old, size_t size) { requests++; return __libc_realloc(old, size); }
void free(void *at) { __libc_free(at); }

static void let_arrive(vmig_machine *m)
{
    vmig_image image = {images, SECTORS};
    vmig_arrival arrival = VMIG_ARRIVAL;

    memset(images, 0x5a, sizeof images);
    arrival.most_pages = PAGES, arrival.images = &image, arrival.count_images = 1;
    expect("arrive", vmig_arrive(&arrival, m), VMIG_OK);
}

/* It was refused so. Whatever is fed then is looked at no more: a whole stream, at once and by bytes, no bytes, and its end. */
static void stays_refused(const char *what, vmig_machine *m, vmig_status why)
{
    uint64_t taken = requests;
    vmig_image image = VMIG_NO_IMAGE;

    memcpy(before, images, sizeof before);
    for (int again = 0; again < 2; again++) {
        expect(what, vmig_feed(m, stream, stream_len), VMIG_STREAM_FAILED);
        for (size_t at = 0; at < stream_len; at += 97) expect(what, vmig_feed(m, stream + at, 1), VMIG_STREAM_FAILED);
        expect(what, vmig_feed(m, NULL, 0), VMIG_STREAM_FAILED);
        expect(what, vmig_finish(m), VMIG_STREAM_FAILED);
        expect(what, description_of(m).state, VMIG_IS_FAILED);
        expect(what, description_of(m).fault, why);
        expect(what, vmig_send_begin(m), VMIG_NO_MACHINE);
    }
    expect("no memory was taken", requests, taken);
    expect("no sector was written", (uint64_t)memcmp(before, images, sizeof images), 0);
    expect("its image", vmig_release(m, &image, 1), VMIG_OK);
    expect("is back", image.at == images && image.sectors == SECTORS, 1);
    expect("what the peer sends then", vmig_feed(m, stream, stream_len), VMIG_NO_MACHINE);
    expect("and its end", vmig_finish(m), VMIG_NO_MACHINE);
    expect("is no arrival", m->at == NULL, 1);
}

/* The stream is cut after this number of bytes, and its end is asked for. */
static void cut_at(size_t len)
{
    vmig_machine m = VMIG_NONE;

    let_arrive(&m);
    expect("a part", vmig_feed(&m, stream, len), VMIG_OK);
    expect("is no stream", vmig_finish(&m), VMIG_STREAM_TRUNCATED);
    expect("so far", description_of(&m).fault_at, len);
    stays_refused("after a cut", &m, VMIG_STREAM_TRUNCATED);
}

/* A byte of it is another one, in pieces of this length, or as one. */
static void damage_at(size_t place, size_t piece)
{
    vmig_machine m = VMIG_NONE;
    vmig_status status = VMIG_OK;
    size_t at = 0;

    let_arrive(&m);
    stream[place] ^= 0x81;
    while (status == VMIG_OK && at < stream_len) {
        size_t more = stream_len - at < piece ? stream_len - at : piece;
        status = vmig_feed(&m, stream + at, more);
        if (!vmig_refused(status)) at += more;
    }
    if (status == VMIG_OK) status = vmig_finish(&m);
    stream[place] ^= 0x81;
    expect("a damaged stream is refused", (uint64_t)vmig_refused(status), 1);
    expect("before the piece that shows it", description_of(&m).fault_at, at);
    stays_refused("after a damage", &m, status);
}

/* A machine that is larger than what is let in. */
static void too_large(void)
{
    vmig_machine m = VMIG_NONE;
    vmig_image image = {images, SECTORS};
    vmig_arrival arrival = VMIG_ARRIVAL;

    for (size_t piece = 1; piece <= HEADER; piece += HEADER - 1) {
        image = (vmig_image){images, SECTORS};
        arrival.most_pages = PAGES - 1, arrival.images = &image, arrival.count_images = 1;
        expect("arrive", vmig_arrive(&arrival, &m), VMIG_OK);
        for (size_t at = 0; at + piece < HEADER; at += piece) expect("a piece", vmig_feed(&m, stream + at, piece), VMIG_OK);
        expect("the last piece", vmig_feed(&m, stream + (HEADER - 1) / piece * piece, piece), VMIG_STREAM_TOO_LARGE);
        stays_refused("a large one", &m, VMIG_STREAM_TOO_LARGE);
    }
}

int main(void)
{
    vmig_machine m = VMIG_NONE;

    expect("make", make_new(PAGES, SHAPES, 2, &m), VMIG_OK);
    put(&m, 5000, 0x77, 1);
    expect("save", vmig_save(&m, stream, sizeof stream, &stream_len), VMIG_OK);
    vmig_free(&m);
    for (size_t len = 0; len < HEADER + 8; len++) cut_at(len);
    for (size_t len = HEADER + 8; len < stream_len; len += 211) cut_at(len);
    cut_at(stream_len - 1);
    for (size_t place = 0; place < stream_len; place += place < HEADER + 8 ? 1 : 53)
        for (size_t piece = 1; piece <= stream_len; piece = piece < 10 ? piece * 7 : piece * 31) damage_at(place, piece);
    too_large();
    return ended("peer");
}
