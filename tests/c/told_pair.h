/* What the tests of told arrivals share: streams of machines, and two arrivals that are fed the same, one of a
 * host that tells the digest and an ordinary one. The digest is made of what was taken, and of nothing in the
 * stream. */
#ifndef TOLD_PAIR_H
#define TOLD_PAIR_H

#include <stdlib.h>
#include "driver.h"

enum { PAGE = 4096, SECTOR = 512, PAGES_MAX = 32, SECTORS_MAX = 3, RECORD = 33, COMMIT = 5, STREAM_MAX = 1 << 19 };

/* Where an arrival puts what comes: RAM and disks are the library's, or the program's. */
enum { OWN_RAM = 1, OWN_DISK = 2, MEMORIES = 4 };

/* A stream, and what its machine is. */
struct example {
    const char *name;
    const vmig_shape *shapes;
    size_t count;
    uint32_t pages, sectors, flags, frame;
    uint64_t most_outside;
    uint8_t ram[PAGES_MAX * PAGE], image[SECTORS_MAX * SECTOR];    /* as they are at its end */
    uint8_t stream[STREAM_MAX], saved[STREAM_MAX];
    size_t len, saved_len;
};

/* One that arrives. */
struct end {
    vmig_machine machine;
    int is_told, memory;
    size_t taken;               /* bytes */
    vmig_digest digest;         /* of these */
    uint8_t ram[PAGES_MAX * PAGE], image[SECTORS_MAX * SECTOR];
};

static struct end told, plain;

/* What arrivals ask for besides: VMIG_LOG, or nothing; and whether they name the devices. */
static uint32_t log_flag;
static int names_shapes;

static inline uint32_t draw(uint32_t below)
{
    static uint32_t state = 2463534242;
    state ^= state << 13;
    state ^= state >> 17;
    state ^= state << 5;
    return state % below;
}

static inline void expect_equal(const char *what, const void *one, const void *other, size_t len)
{
    expect(what, (uint64_t)(memcmp(one, other, len) != 0), 0);
}

/* ---- streams --------------------------------------------------------------------------------------------------- */

static const vmig_shape SMALL_SHAPES[] = {{.kind = VMIG_BLOCK, .sectors = 1, .id = "small"}, {.kind = VMIG_ENTROPY}};
static const vmig_shape ROUND_SHAPES[] = {{.kind = VMIG_BLOCK, .sectors = 3}, {.kind = VMIG_CONSOLE}};
enum { CARD, LONG_CARD, DISK, OUTSIDE, CONSOLE, ENTROPY };
static const vmig_shape ALL_SHAPES[] = {{.kind = VMIG_NETWORK, .mac = {2, 0, 0, 0, 0, 1}},
                                        {.kind = VMIG_NETWORK, .mac = {2, 0, 0, 0, 0, 2}, .frame = 9018},
                                        {.kind = VMIG_BLOCK, .sectors = 3},
                                        {.kind = VMIG_BLOCK_OUTSIDE, .sectors = 40, .id = "outside"},
                                        {.kind = VMIG_CONSOLE},
                                        {.kind = VMIG_ENTROPY}};

/* Saved in one, of 746 bytes; the same in version 1; sent in rounds, while its guest works; and a machine with each
 * kind of device, in version 3. */
enum { SMALL, OLD, ROUNDS, ALL_KINDS, EXAMPLES };
static struct example examples[EXAMPLES] = {
    {.name = "small", .shapes = SMALL_SHAPES, .count = 2, .pages = 1, .sectors = 1},
    {.name = "old", .shapes = SMALL_SHAPES, .count = 2, .pages = 1, .sectors = 1},
    {.name = "rounds", .shapes = ROUND_SHAPES, .count = 2, .pages = 16, .sectors = 3},
    {.name = "all kinds", .shapes = ALL_SHAPES, .count = 6, .pages = 32, .sectors = 3,
     .flags = VMIG_LARGE, .frame = 9018, .most_outside = 40},
};

/* The driver asks for a sector to be written, or of a disk outside to be read. */
static inline void request(vmig_machine *m, uint8_t dev, uint32_t count, uint32_t type, uint64_t sector)
{
    put(m, 0x7000, type, 8);
    put(m, 0x7008, sector, 8);
    put(m, 0x8000, draw(UINT32_MAX), 8);
    describe(m, 0, 0, 0x7000, 16, HAS_NEXT, 1);
    describe(m, 0, 1, 0x8000, SECTOR, HAS_NEXT | (type == 0 ? WRITABLE : 0), 2);
    describe(m, 0, 2, 0x7100, 1, WRITABLE, 0);
    make_available(m, 0, count, 0);
    write_reg_of(m, dev, 0x050, 0);
    serve(m);
}

static inline void fill(struct example *x)
{
    for (uint32_t page = 12; page < x->pages; page++)
        for (uint32_t i = 0; page % 3 != 0 && i < PAGE; i++) x->ram[page * PAGE + i] = (uint8_t)draw(256);
    for (uint32_t i = 0; x->pages > 1 && i < x->sectors * SECTOR; i++) x->image[i] = (uint8_t)draw(256);
}

static inline void give_input(vmig_machine *m, uint8_t dev, size_t len)
{
    static uint8_t bytes[9014];
    size_t kept = 0;

    for (size_t i = 0; i < len; i++) bytes[i] = (uint8_t)(3 * i + dev);
    if (len > 1500) bytes[12] = 8, bytes[13] = 0;
    expect("input", vmig_input(m, dev, bytes, len, &kept), VMIG_OK);
    expect("it is kept", kept, len);
}

static inline void take_all(vmig_machine *m, uint8_t *stream, size_t *len)
{
    size_t got = 1;

    while (got > 0) {
        got = 0;
        expect("take", vmig_send_take(m, stream + *len, STREAM_MAX - *len, &got), VMIG_OK);
        *len += got;
    }
}

/* The machine is sent in rounds, and its guest writes RAM and the disk. */
static inline void send_rounds(struct example *x, vmig_machine *m)
{
    uint64_t pages, sectors;

    set_up_device(m, 0, 0, 1, 0);
    expect("begin", vmig_send_begin(m), VMIG_OK);
    for (uint32_t round = 1; round <= 3; round++) {
        while (vmig_send_some(m, 1 + draw(9)) == VMIG_OK) put(m, 0xa000 + draw(6 * PAGE - 8), draw(UINT32_MAX), 4);
        request(m, 0, round, 1, draw(3));
        expect("a round", vmig_send_round(m), VMIG_OK);
        take_all(m, x->stream, &x->len);
    }
    expect("stop", vmig_send_stop(m, &pages, &sectors), VMIG_OK);
    take_all(m, x->stream, &x->len);
    expect("abort", vmig_send_abort(m), VMIG_OK);
}

/* Frames wait, a driver has asked for a sector of the disk outside, and nobody has answered. */
static inline void send_all_kinds(struct example *x, vmig_machine *m)
{
    uint64_t pages, sectors;

    set_up_device(m, OUTSIDE, 0, 1, 0);
    request(m, OUTSIDE, 1, 0, 7);
    give_input(m, CARD, 100);
    give_input(m, LONG_CARD, 9014);
    give_input(m, CONSOLE, 5);
    give_input(m, ENTROPY, 40);
    expect("begin", vmig_send_begin(m), VMIG_OK);
    expect("stop", vmig_send_stop(m, &pages, &sectors), VMIG_OK);
    take_all(m, x->stream, &x->len);
    expect("abort", vmig_send_abort(m), VMIG_OK);
    expect("its version", x->stream[4], 3);
}

/* How long the next record is, by the format of streams. */
static inline size_t record_length(const uint8_t *at)
{
    switch (at[0]) {
    case 1: return 5 + PAGE;
    case 2: return at[6] == 1 ? 7 + SECTOR : 7;
    case 4: return 6 + (size_t)(at[2] | at[3] << 8 | at[4] << 16);
    case COMMIT: return RECORD;
    default: return 5;
    }
}

static inline size_t row_length(const vmig_shape *shape)
{
    switch (shape->kind) {
    case VMIG_NETWORK: return shape->frame == 0 ? 7 : 9;
    case VMIG_BLOCK: case VMIG_BLOCK_OUTSIDE: return 30;
    default: return 1;
    }
}

/* Where the records begin: after the header, which has a row for each device. */
static inline size_t header_length(const struct example *x)
{
    size_t len = 16;

    for (size_t i = 0; i < x->count; i++) len += row_length(&x->shapes[i]);
    return len;
}

/* The small one in version 1, whose page of zeros is spelled out. */
static inline void spell_old(struct example *x, const struct example *small)
{
    const uint8_t *at = small->stream;
    vmig_digest digest;

    memcpy(x->saved, small->saved, x->saved_len = small->saved_len);
    memcpy(x->stream, at, x->len = header_length(x));
    x->stream[4] = 1;
    for (at += x->len; *at != COMMIT; at += record_length(at)) {
        memcpy(x->stream + x->len, at, record_length(at));
        if (*at == 6) x->stream[x->len] = 1;
        x->len += record_length(x->stream + x->len);
    }
    vmig_digest_begin(&digest);
    vmig_digest_add(&digest, x->stream, x->len);
    x->stream[x->len] = COMMIT;
    vmig_digest_end(&digest, x->stream + x->len + 1);
    x->len += RECORD;
}

static inline void make_example(struct example *x)
{
    vmig_machine m = VMIG_NONE;
    vmig_setup setup = VMIG_SETUP;
    vmig_image image = {x->image, x->sectors};

    fill(x);
    setup.shapes = x->shapes, setup.count = x->count, setup.images = &image, setup.count_images = 1;
    setup.ram = (vmig_ram){x->ram, (size_t)x->pages * PAGE}, setup.flags = x->flags;
    expect("make", vmig_make(&setup, &m), VMIG_OK);
    if (x == &examples[SMALL]) give_input(&m, 1, 3);
    if (x == &examples[ROUNDS]) send_rounds(x, &m);
    if (x == &examples[ALL_KINDS]) send_all_kinds(x, &m);
    expect("save", vmig_save(&m, x->saved, STREAM_MAX, &x->saved_len), VMIG_OK);
    if (x->len == 0) memcpy(x->stream, x->saved, x->len = x->saved_len);
    expect("release", vmig_release(&m, &image, 1), VMIG_OK);
}

static inline void make_examples(void)
{
    make_example(&examples[SMALL]);
    spell_old(&examples[OLD], &examples[SMALL]);
    make_example(&examples[ROUNDS]);
    make_example(&examples[ALL_KINDS]);
}

/* ---- two that arrive ------------------------------------------------------------------------------------------- */

static inline vmig_arrival arrival_of(struct end *e, const struct example *x, vmig_image *image)
{
    vmig_arrival arrival = VMIG_ARRIVAL;

    arrival.flags = x->flags | log_flag | (e->is_told ? VMIG_TOLD : 0);
    arrival.frame = x->frame, arrival.most_outside = x->most_outside;
    if (names_shapes) arrival.shapes = x->shapes, arrival.count = x->count;
    if (e->memory & OWN_RAM) arrival.ram = (vmig_ram){e->ram, (size_t)x->pages * PAGE};
    else arrival.most_pages = x->pages;
    *image = (vmig_image){e->image, x->sectors};
    if (e->memory & OWN_DISK) arrival.images = image, arrival.count_images = 1;
    else arrival.most_sectors = x->sectors;
    return arrival;
}

/* Nothing was taken yet, and RAM and the disk have other bytes than those that will come. */
static inline void clear(struct end *e, const struct example *x, int is_told, int memory)
{
    e->is_told = is_told, e->memory = memory, e->taken = 0;
    vmig_digest_begin(&e->digest);
    memset(e->ram, 0x77, (size_t)x->pages * PAGE);
    memset(e->image, 0x77, sizeof e->image);
}

static inline void await(struct end *e, const struct example *x, int is_told, int memory)
{
    vmig_image image;
    vmig_arrival arrival;

    clear(e, x, is_told, memory);
    arrival = arrival_of(e, x, &image);
    expect("arrive", vmig_arrive(&arrival, &e->machine), VMIG_OK);
}

static inline void await_both(const struct example *x, int memory)
{
    log_flag = draw(2) == 0 ? VMIG_LOG : 0;
    names_shapes = draw(2) == 0;
    await(&told, x, 1, memory);
    await(&plain, x, 0, memory);
}

static inline void free_both(void)
{
    vmig_free(&told.machine);
    vmig_free(&plain.machine);
}

/* A digest that is due is told, and it is told once. */
static inline void tell(struct end *e)
{
    vmig_digest copy = e->digest;
    uint8_t digest[32];

    vmig_digest_end(&copy, digest);
    expect("tell", vmig_feed_tell(&e->machine, digest), VMIG_OK);
    expect("tell twice", vmig_feed_tell(&e->machine, digest), VMIG_NOT_ASKED);
}

/* A part of a piece, as far as it is taken. */
static inline vmig_status feed_part(struct end *e, const uint8_t **bytes, size_t *len)
{
    size_t used = 77777;
    vmig_status status = vmig_feed_some(&e->machine, *bytes, *len, &used);

    if (vmig_refused(status)) {
        expect("used is as it was", used, 77777);
        return status;
    }
    expect("no more than the piece", used <= *len, 1);
    if (used > *len) exit(ended("told"));
    if (status != VMIG_DIGEST) expect("all of it", used, *len);
    vmig_digest_add(&e->digest, *bytes, used);
    e->taken += used, *bytes += used, *len -= used;
    return status;
}

/* A piece for the one whose host tells: its bytes before the record, the digest where it is due, and the rest. */
static inline vmig_status feed_told(struct end *e, const uint8_t *bytes, size_t len)
{
    vmig_status status = feed_part(e, &bytes, &len);

    if (status != VMIG_DIGEST) return status;
    expect("the record comes", len > 0 && *bytes == COMMIT, 1);
    if (draw(4) == 0) expect("it is due still", feed_part(e, &bytes, &len), VMIG_DIGEST);
    tell(e);
    status = feed_part(e, &bytes, &len);
    expect("it is due no more", status == VMIG_DIGEST, 0);
    return status;
}

/* Both are described alike, but for the flag, and for how far the one was fed whose pieces were parted. */
static inline void described_alike(void)
{
    vmig_description one = description_of(&told.machine), other = description_of(&plain.machine);

    expect("its flags", one.flags, other.flags | VMIG_TOLD);
    if (one.state == VMIG_IS_FAILED) expect("where it failed", one.fault_at, told.taken);
    if (other.state == VMIG_IS_FAILED) expect("where the other failed", other.fault_at, plain.taken);
    one.flags = other.flags, one.fault_at = other.fault_at;
    expect_equal("described alike", &one, &other, sizeof one);
}

/* Both are fed a piece, and answer alike. */
static inline vmig_status feed_both(const uint8_t *bytes, size_t len)
{
    vmig_status wanted = vmig_feed(&plain.machine, bytes, len), got = feed_told(&told, bytes, len);

    expect("the same status", got, wanted);
    if (!vmig_refused(wanted)) {
        plain.taken += len;
        expect("as many bytes", told.taken, plain.taken);
    }
    return wanted;
}

/* ---- how they end ---------------------------------------------------------------------------------------------- */

/* What was sent lies in RAM and on the disk. */
static inline void has_come(struct end *e, const struct example *x)
{
    uint8_t bytes[PAGE];

    for (uint32_t page = 0; page < x->pages; page++) {
        expect("a page", vmig_ram_read(&e->machine, (uint64_t)page * PAGE, bytes, PAGE), VMIG_OK);
        expect_equal("its bytes", bytes, x->ram + page * PAGE, PAGE);
    }
    if (e->memory & OWN_RAM) expect_equal("RAM", e->ram, x->ram, (size_t)x->pages * PAGE);
    if (e->memory & OWN_DISK) expect_equal("the disk", e->image, x->image, x->sectors * SECTOR);
}

static inline void saved_alike(struct end *e, const struct example *x)
{
    static uint8_t saved[STREAM_MAX];
    size_t len = 0;

    expect("save", vmig_save(&e->machine, saved, sizeof saved, &len), VMIG_OK);
    expect("its length", len, x->saved_len);
    expect_equal("saved as at the source", saved, x->saved, x->saved_len);
}

/* The stream is whole: both are the machine that was sent. */
static inline void finish_both(const struct example *x)
{
    struct end *const ends[] = {&told, &plain};

    for (int i = 0; i < 2; i++) {
        expect("finish", vmig_finish(&ends[i]->machine), VMIG_OK);
        expect("its flags", description_of(&ends[i]->machine).flags, x->flags | log_flag);
        expect("no digest of a machine", vmig_feed_tell(&ends[i]->machine, x->image), VMIG_IN_USE);
        has_come(ends[i], x);
        saved_alike(ends[i], x);
    }
}

/* The image comes back, and both have written the same. */
static inline void release_both(const struct example *x)
{
    vmig_image one = VMIG_NO_IMAGE, other = VMIG_NO_IMAGE;

    expect("release", vmig_release(&told.machine, &one, told.memory & OWN_DISK ? 1 : 0), VMIG_OK);
    expect("release the other", vmig_release(&plain.machine, &other, plain.memory & OWN_DISK ? 1 : 0), VMIG_OK);
    if (told.memory & OWN_DISK) expect("the image is back", one.at == told.image && other.at == plain.image, 1);
    expect_equal("the same RAM", told.ram, plain.ram, (size_t)x->pages * PAGE);
    expect_equal("the same disk", told.image, plain.image, sizeof told.image);
}

/* Both are refused, for good; what they had comes back. */
static inline void failed_both(const struct example *x)
{
    static const uint8_t any[32] = {COMMIT};
    size_t used = 77;

    described_alike();
    expect("fed after it", vmig_feed_some(&told.machine, any, 32, &used), VMIG_STREAM_FAILED);
    expect("fed nothing", vmig_feed_some(&told.machine, any, 0, &used), VMIG_STREAM_FAILED);
    expect("used is as it was", used, 77);
    expect("fed so", vmig_feed(&told.machine, any, 1), VMIG_STREAM_FAILED);
    expect("told after it", vmig_feed_tell(&told.machine, any), VMIG_STREAM_FAILED);
    expect("told the other", vmig_feed_tell(&plain.machine, any), VMIG_STREAM_FAILED);
    expect("finish", vmig_finish(&told.machine), VMIG_STREAM_FAILED);
    expect("feed the other", vmig_feed_some(&plain.machine, any, 1, &used), VMIG_STREAM_FAILED);
    expect("finish the other", vmig_finish(&plain.machine), VMIG_STREAM_FAILED);
    described_alike();
    release_both(x);
}

#endif
