/* A guest with one disk outside, and the model by which storage is judged: which request wrote a sector last of which the guest was told, and which of these
 * it may take for durable (VIRTIO 1.2, 5.2.6.2). Each sector that it writes says which request wrote it. */
#ifndef GUEST_H
#define GUEST_H

#include <stdlib.h>
#include <string.h>
#include "driver.h"

enum { SECTOR = 512, SECTORS = 4096, NEAR = 256, SLOTS = 16, MOST = 8, PAGES = 32, STREAM = PAGES * 4101 + 20000 };
enum { IN = 0, OUT = 1, FLUSH = 4, WRITE_ZEROES = 13, FLUSH_FEATURE = 1 << 9, WRITE_ZEROES_FEATURE = 1 << 14 };
enum { NOTIFY = 0x050, HEADERS = 0x6000, VERDICTS = 0x7800, BUFFERS = 0x8000, TOLD_LATER = 0xff };

struct request {
    uint64_t serial, first;             /* serial: in the order of the offers; 0: the slot is free */
    uint32_t kind, count;
};

/* Of each sector the serials of what wrote or cleared it: the last of which the guest was told that it is done, the last that it was told is durable, and the
 * last clearing that it offered. */
struct guest {
    vmig_machine m;
    uint32_t features;
    uint16_t offered;
    int is_lost;                        /* the host was told so, or would have been: reads may give what lay there before */
    struct request requests[SLOTS];
    uint64_t before[SLOTS][SECTORS];    /* `told`, when the request of this slot was offered */
    uint64_t told[SECTORS], durable[SECTORS], cleared[SECTORS];
    uint64_t serials;
};

/* What all guests saw. */
struct seen {
    uint64_t requests, flushes, failed, stale, gone, kills, saves, moves, losses;
};

static struct seen seen;
static uint64_t drawn = 88172645463325252;

static inline uint32_t draw(uint32_t below)
{
    drawn ^= drawn << 13;
    drawn ^= drawn >> 7;
    drawn ^= drawn << 17;
    return (uint32_t)(drawn >> 32) % below;
}

/* The bytes that a request writes into a sector, which no other writes. */
static inline void stamp(uint8_t bytes[SECTOR], uint64_t serial, uint64_t sector)
{
    memcpy(bytes, &serial, 8);
    memcpy(bytes + 8, &sector, 8);
    for (uint32_t k = 16; k < SECTOR; k++) bytes[k] = (uint8_t)(17 * serial + 31 * sector + k);
}

/* The serial of what wrote these bytes. Zeros are those of the last clearing that was offered, or of none. */
static inline uint64_t version_of(const struct guest *g, const uint8_t bytes[SECTOR], uint64_t sector)
{
    static const uint8_t zeros[SECTOR];
    uint8_t wanted[SECTOR];
    uint64_t serial;

    if (memcmp(bytes, zeros, SECTOR) == 0) return g->cleared[sector];
    memcpy(&serial, bytes, 8);
    stamp(wanted, serial, sector);
    expect("a sector is as some request wrote it", serial <= g->serials && memcmp(bytes, wanted, SECTOR) == 0, 1);
    return serial;
}

/* ---- what the guest asks for ----------------------------------------------------------------------------------------------------- */

static inline void write_bytes(struct guest *g, const struct request *r, uint64_t at)
{
    uint8_t sector[SECTOR];
    uint32_t range[4] = {(uint32_t)r->first, 0, r->count, 0};

    if (r->kind == WRITE_ZEROES) expect("a range", vmig_ram_write(&g->m, at, (const uint8_t *)range, sizeof range), VMIG_OK);
    for (uint32_t i = 0; r->kind == OUT && i < r->count; i++) {
        stamp(sector, r->serial, r->first + i);
        expect("the guest writes", vmig_ram_write(&g->m, at + i * SECTOR, sector, SECTOR), VMIG_OK);
    }
}

/* The descriptors of a request: its header, its bytes or the range to clear, and the place of its verdict. */
static inline void publish(struct guest *g, uint32_t slot)
{
    const struct request *r = &g->requests[slot];
    uint64_t header = HEADERS + slot * 0x40u, bytes = BUFFERS + (uint64_t)slot * MOST * SECTOR;
    uint32_t base = 3 * slot, len = r->kind == WRITE_ZEROES ? 16 : r->count * SECTOR;

    put(&g->m, header, r->kind, 8);
    put(&g->m, header + 8, r->kind == IN || r->kind == OUT ? r->first : 0, 8);
    put(&g->m, VERDICTS + slot, TOLD_LATER, 1);
    write_bytes(g, r, bytes);
    describe(&g->m, 0, base, header, 16, HAS_NEXT, r->kind == FLUSH ? base + 2 : base + 1);
    if (r->kind != FLUSH) describe(&g->m, 0, base + 1, bytes, len, HAS_NEXT | (r->kind == IN ? WRITABLE : 0), base + 2);
    describe(&g->m, 0, base + 2, VERDICTS + slot, 1, WRITABLE, 0);
    make_available(&g->m, 0, ++g->offered, base);
    write_reg(&g->m, NOTIFY, 0);
}

/* A request, if the slot is free. Half of them lie near each other, so that they meet. */
static inline void offer_something(struct guest *g)
{
    static const uint32_t kinds[] = {IN, IN, OUT, OUT, OUT, OUT, WRITE_ZEROES, FLUSH};
    uint32_t slot = draw(SLOTS), kind = kinds[draw(8)];
    struct request *r = &g->requests[slot];

    if (r->serial != 0) return;
    if (kind == FLUSH && !(g->features & FLUSH_FEATURE)) kind = OUT;
    *r = (struct request){.kind = kind, .serial = ++g->serials, .count = 1 + draw(MOST)};
    r->first = draw((draw(2) ? SECTORS : NEAR) - MOST);
    for (uint32_t i = 0; kind == WRITE_ZEROES && i < r->count; i++) g->cleared[r->first + i] = r->serial;
    memcpy(g->before[slot], g->told, sizeof g->told);
    publish(g, slot);
    seen.requests++;
}

/* ---- what it is told ------------------------------------------------------------------------------------------------------------- */

/* A read gives nothing that is older than what the guest was told of before it, unless storage was lost. */
static inline void check_read(struct guest *g, uint32_t slot, uint32_t i)
{
    const struct request *r = &g->requests[slot];
    uint8_t bytes[SECTOR];
    int is_old;

    expect("read", vmig_ram_read(&g->m, BUFFERS + ((uint64_t)slot * MOST + i) * SECTOR, bytes, SECTOR), VMIG_OK);
    is_old = version_of(g, bytes, r->first + i) < g->before[slot][r->first + i];
    if (!g->is_lost) expect("a read gives what was written before", (uint64_t)is_old, 0);
    seen.stale += (uint64_t)is_old;
}

static inline uint64_t later(uint64_t a, uint64_t b)
{
    return a > b ? a : b;
}

/* A driver without FLUSH takes what is done for durable; one with FLUSH what it was told of before it offered a flush. */
static inline void take_well(struct guest *g, uint32_t slot)
{
    const struct request *r = &g->requests[slot];

    if (r->kind == FLUSH) {
        for (uint32_t s = 0; s < SECTORS; s++) g->durable[s] = later(g->durable[s], g->before[slot][s]);
        seen.flushes++;
    }
    for (uint32_t i = 0; r->kind != FLUSH && i < r->count; i++) {
        uint64_t s = r->first + i;

        if (r->kind == IN) check_read(g, slot, i);
        if (r->kind == IN) continue;
        g->told[s] = later(g->told[s], r->serial);
        if (!(g->features & FLUSH_FEATURE)) g->durable[s] = g->told[s];
    }
}

static inline void look(struct guest *g)
{
    for (uint32_t slot = 0; slot < SLOTS; slot++) {
        uint64_t verdict = g->requests[slot].serial == 0 ? TOLD_LATER : get(&g->m, VERDICTS + slot, 1);

        if (verdict == TOLD_LATER) continue;
        if (verdict == 0) take_well(g, slot);
        else seen.failed++;
        g->requests[slot].serial = 0;
    }
}

/* A disk that no request has written yet, as a file. */
static inline void make_disk(const char *name)
{
    uint8_t bytes[SECTOR];
    FILE *file = fopen(name, "w");

    for (uint64_t s = 0; s < SECTORS && failures == 0; s++) {
        stamp(bytes, 0, s);
        expect("a disk", file != NULL && fwrite(bytes, 1, SECTOR, file) == SECTOR, 1);
    }
    if (file != NULL) fclose(file);
}

/* What the guest was told is durable is on storage, in the file of this name: it, or what was written there later. */
static inline void check_storage(const struct guest *g, const char *name)
{
    uint8_t bytes[SECTOR];
    FILE *file = fopen(name, "r");

    for (uint64_t s = 0; s < SECTORS; s++) {
        int is_there = file != NULL && fread(bytes, 1, SECTOR, file) == SECTOR;

        expect("storage has all sectors", (uint64_t)is_there, 1);
        if (!is_there) break;
        seen.gone += version_of(g, bytes, s) < g->durable[s];
    }
    if (file != NULL) fclose(file);
}

/* ---- its machine ----------------------------------------------------------------------------------------------------------------- */

static const vmig_shape DISK_OUTSIDE = {.kind = VMIG_BLOCK_OUTSIDE, .sectors = SECTORS};

/* Each machine has numbers of its own for its calls. */
static inline uint64_t first_number(void)
{
    static uint64_t machines;
    return machines++ << 40;
}

static inline void begin_guest(struct guest *g, int has_flush)
{
    vmig_setup setup = VMIG_SETUP;

    memset(g, 0, sizeof *g);
    g->features = WRITE_ZEROES_FEATURE | (has_flush ? FLUSH_FEATURE : 0);
    setup.pages = PAGES, setup.shapes = &DISK_OUTSIDE, setup.count = 1, setup.calls_from = first_number();
    expect("make", vmig_make(&setup, &g->m), VMIG_OK);
    set_up_with(&g->m, 1, g->features);
}

/* It continues from a stream, in another machine. Its host is told whether its disk is lost. */
static inline void continue_from(struct guest *g, const uint8_t *stream, size_t len, int is_told_lost)
{
    vmig_arrival arrival = VMIG_ARRIVAL;
    vmig_machine other = VMIG_NONE;

    arrival.most_pages = PAGES, arrival.most_outside = SECTORS, arrival.calls_from = first_number();
    expect("arrive", vmig_arrive(&arrival, &other), VMIG_OK);
    expect("feed", vmig_feed(&other, stream, len), VMIG_WHOLE);
    expect("finish", vmig_finish(&other), VMIG_OK);
    if (is_told_lost) expect("it is told", vmig_sync_failed(&other, 0), VMIG_OK);
    vmig_free(&g->m);
    g->m = other;
}

/* The whole stream of a machine that is sent and stopped, none of its calls being out. */
static inline size_t send_whole(vmig_machine *m, uint8_t stream[STREAM])
{
    uint64_t pages, sectors;
    size_t len = 0, got = 1;

    expect("begin", vmig_send_begin(m), VMIG_OK);
    expect("copy", vmig_send_some(m, PAGES), VMIG_ROUND_DONE);
    expect("stop", vmig_send_stop(m, &pages, &sectors), VMIG_OK);
    for (; got > 0 && failures == 0; len += got) expect("take", vmig_send_take(m, stream + len, STREAM - len, &got), VMIG_OK);
    return len;
}

/* Prints what was seen, and returns the status of the program: with `wrong` a host that does not follow the texts, of which losses have to be seen. */
static inline int told(const char *name, int wrong)
{
    printf("%s: %llu requests, %llu failed, %llu flushes done; %llu kills, %llu syncs that failed, %llu saves, %llu moves; %llu stale reads; "
           "%llu sectors told durable and gone%s\n", name, (unsigned long long)seen.requests, (unsigned long long)seen.failed,
           (unsigned long long)seen.flushes, (unsigned long long)seen.kills, (unsigned long long)seen.losses, (unsigned long long)seen.saves,
           (unsigned long long)seen.moves, (unsigned long long)seen.stale, (unsigned long long)seen.gone, wrong ? ", as they should be" : "");
    if (wrong) expect("the loss is seen", seen.gone > 0, 1);
    else expect("none is gone", seen.gone, 0);
    return ended(name);
}

#endif
