/* Random guests over disks outside, and their host's storage: requests from their offers to their ends, and calls that are done sector by sector, in
 * any order, and answered whole, in part, late, or as failed. What each request is told, and what each read is given, comes from the model that is
 * here. */
#ifndef ASKED_H
#define ASKED_H

#include <stdlib.h>
#include <string.h>
#include "driver.h"

enum { PAGES = 32, SECTORS = 48, DISKS = 2, SLOTS = 16, MOST = 4, OUT_MAX = 8 * DISKS, SECTOR = 512, STREAM = PAGES * 4101 + 20000 };
enum { CONSOLE = DISKS, POOL, DEVICES };
enum { IN = 0, OUT = 1, FLUSH = 4, GET_ID = 8, CLEAR = 13, WRITE_ZEROES = 1 << 14, FLUSH_FEATURE = 1 << 9, IOERR = 1 };
enum { STATUS = 0x070, QUEUE_READY = 0x044, NOTIFY = 0x050, MALFORMED = SIZE, TOLD_LATER = 0xff };

/* Where the guest has the header, the verdict and the bytes of a request. */
enum { HEADERS = 0x6000, VERDICTS = 0x7800, BUFFERS = 0x8000, OF_DISK = 0x8000 };

/* A request of the guest, from its offer to its end: `done` of its sectors are answered. */
struct request {
    uint32_t kind, count, done;
    uint64_t first, serial;             /* serial: in the order of the offers; 0: the slot is free */
    int has_failed;
    uint8_t given[MOST][SECTOR];        /* what a read was given */
};

/* A disk, as its host has it: for each sector which request wrote it last. */
struct disk {
    uint8_t bytes[SECTORS][SECTOR];
    uint64_t writer[SECTORS];
    struct request requests[SLOTS];
    uint16_t offered;
    int is_broken;                      /* the device asked for a reset */
    int is_lost;                        /* its storage may have lost what it answered */
    uint32_t features;
};

/* A call that is out: `landed` of its sectors are done, and nobody was told yet. */
struct out {
    vmig_call call;
    struct request *owner;              /* NULL where no request asked for it */
    uint32_t landed;
    uint8_t bytes[MOST * SECTOR];
};

/* A guest, with its machine, its disks, and the calls that are out. Its RAM lies in one room, and where it moves in the other one. */
struct guest {
    vmig_machine m;
    uint8_t rooms[2][PAGES * 4096];
    int room;
    vmig_ram ram;                       /* while it is lent */
    struct disk disks[DISKS];
    struct out outs[OUT_MAX];
    uint32_t count_out, block;
    uint64_t serials, numbers;          /* those that were given; `numbers` is the least that the next call may have */
};

static uint64_t drawn = 88172645463325252;

static inline uint32_t draw(uint32_t below)
{
    drawn ^= drawn << 13;
    drawn ^= drawn >> 7;
    drawn ^= drawn << 17;
    return (uint32_t)(drawn >> 32) % below;
}

/* The bytes that a request writes into its i-th sector, which no other has. */
static inline void stamp(uint8_t bytes[SECTOR], uint64_t serial, uint32_t i)
{
    for (uint32_t k = 0; k < SECTOR; k++) bytes[k] = (uint8_t)(serial >> 8 * (k % 4)) ^ (uint8_t)(17 * i + k / 4);
}

static inline int is_sectors(uint32_t kind) { return kind == IN || kind == OUT || kind == CLEAR; }

static inline int writes(uint32_t kind) { return kind == OUT || kind == CLEAR; }

/* What a call asks for, as a type of request. */
static inline uint32_t kind_of(const vmig_call *call)
{
    static const uint32_t kinds[] = {0, IN, OUT, CLEAR, FLUSH};
    return kinds[call->what];
}

/* That it was done says that something is durable. */
static inline int makes_durable(const vmig_call *call) { return call->what == VMIG_DISK_FLUSH || call->durable; }

static inline uint64_t place_of(uint8_t dev, uint32_t slot)
{
    return dev * OF_DISK + (uint64_t)slot * MOST * SECTOR;
}

/* ---- the guest ------------------------------------------------------------------------------------------------------------------- */

/* The descriptors of a request: its header, its bytes or the range to clear, and the place of its verdict. */
static inline void publish(struct guest *g, uint8_t dev, uint32_t slot)
{
    struct disk *d = &g->disks[dev];
    const struct request *r = &d->requests[slot];
    uint64_t header = HEADERS + dev * 0x400u + slot * 0x40u, verdict = VERDICTS + dev * 0x40u + slot, bytes = BUFFERS + place_of(dev, slot);
    uint32_t base = 3 * slot, has_bytes = r->kind != FLUSH, len = r->kind == CLEAR ? 16 : r->kind == GET_ID ? 20 : r->count * SECTOR;
    uint32_t writable = r->kind == IN || r->kind == GET_ID ? WRITABLE : 0;

    put(&g->m, header, r->kind, 4);
    put(&g->m, header + 4, 0, 4);
    put(&g->m, header + 8, r->kind == CLEAR || r->kind == FLUSH ? 0 : r->first, 8);
    put(&g->m, verdict, TOLD_LATER, 1);
    if (r->kind == CLEAR) {
        put(&g->m, bytes, r->first, 8);
        put(&g->m, bytes + 8, r->count, 4);
        put(&g->m, bytes + 12, 0, 4);
    }
    for (uint32_t i = 0; r->kind == OUT && i < r->count; i++) {
        uint8_t sector[SECTOR];
        stamp(sector, r->serial, i);
        expect("the guest writes", vmig_ram_write(&g->m, bytes + i * SECTOR, sector, SECTOR), VMIG_OK);
    }
    describe(&g->m, dev, base, header, 16, HAS_NEXT, has_bytes ? base + 1 : base + 2);
    if (has_bytes) describe(&g->m, dev, base + 1, bytes, len, HAS_NEXT | writable, base + 2);
    describe(&g->m, dev, base + 2, verdict, 1, WRITABLE, 0);
    make_available(&g->m, dev, ++d->offered, base);
    write_reg_of(&g->m, dev, NOTIFY, 0);
}

/* A request of this kind, if its slot is free: its sectors are drawn. */
static inline void offer_kind(struct guest *g, uint8_t dev, uint32_t slot, uint32_t kind)
{
    struct disk *d = &g->disks[dev];
    struct request *r = &d->requests[slot];

    if (r->serial != 0 || d->is_broken) return;
    *r = (struct request){.kind = kind, .serial = ++g->serials};
    r->count = is_sectors(kind) ? 1 + draw(MOST) : 1;
    r->first = is_sectors(kind) ? draw(SECTORS + 2) : 0;
    publish(g, dev, slot);
}

static inline void offer_something(struct guest *g, uint8_t dev)
{
    static const uint32_t kinds[] = {IN, IN, IN, OUT, OUT, OUT, CLEAR, FLUSH, GET_ID};
    uint32_t slot = draw(SLOTS);

    offer_kind(g, dev, slot, kinds[draw(9)]);
}

/* What the device answers without its disk: the id; a range past the end; a clearing of a driver that did not accept WRITE_ZEROES. */
static inline int is_refused(const struct disk *d, const struct request *r)
{
    return is_sectors(r->kind) && (r->first + r->count > SECTORS || (r->kind == CLEAR && !(d->features & WRITE_ZEROES)));
}

/* A request has ended: its verdict, and what a read was given. */
static inline void check_ended(struct guest *g, uint8_t dev, uint32_t slot, uint64_t verdict)
{
    const struct disk *d = &g->disks[dev];
    struct request *r = &g->disks[dev].requests[slot];
    uint8_t bytes[SECTOR];

    if (is_refused(d, r)) {
        expect("refused", verdict, r->first + r->count > SECTORS && (r->kind != CLEAR || d->features & WRITE_ZEROES) ? IOERR : 2);
    } else if (r->kind == GET_ID) {
        expect("the id", verdict, 0);
    } else {
        expect("its verdict", verdict, r->has_failed ? IOERR : 0);
        if (!r->has_failed) expect("all of it was done", r->done, r->count);
    }
    for (uint32_t i = 0; r->kind == IN && i < r->done; i++) {
        expect("read", vmig_ram_read(&g->m, BUFFERS + place_of(dev, slot) + i * SECTOR, bytes, SECTOR), VMIG_OK);
        expect("the bytes of its own calls", (uint64_t)memcmp(bytes, r->given[i], SECTOR), 0);
    }
    r->serial = 0;
}

/* The driver looks at what has ended. Returns how many devices asked for a reset since. */
static inline uint32_t look(struct guest *g)
{
    uint32_t broken = 0;

    for (uint8_t dev = 0; dev < DISKS; dev++) {
        int is_broken = (read_reg_of(&g->m, dev, STATUS) & 64) != 0;
        broken += is_broken && !g->disks[dev].is_broken;
        g->disks[dev].is_broken = is_broken;
        for (uint32_t slot = 0; slot < SLOTS; slot++) {
            uint64_t verdict = g->disks[dev].requests[slot].serial == 0 ? TOLD_LATER : get(&g->m, VERDICTS + dev * 0x40u + slot, 1);
            if (verdict != TOLD_LATER) check_ended(g, dev, slot, verdict);
        }
    }
    return broken;
}

/* A turn of the devices. What a driver sees ended is checked. */
static inline uint32_t work(struct guest *g)
{
    serve(&g->m);
    return look(g);
}

/* Its driver takes the device over anew. All requests of before are gone. */
static inline void take_over(struct guest *g, uint8_t dev)
{
    struct disk *d = &g->disks[dev];

    memset(d->requests, 0, sizeof d->requests);
    d->offered = 0;
    d->is_broken = 0;
    d->features = (draw(2) ? FLUSH_FEATURE : 0) | (draw(2) ? WRITE_ZEROES : 0);
    set_up_device(&g->m, dev, dev, 1, d->features);
    put(&g->m, AVAIL + dev * NEXT_QUEUE + 2, 0, 2);
}

/* A chain that is malformed: once it is looked at the device asks for a reset, and what is out is answered to nobody. */
static inline uint32_t break_device(struct guest *g, uint8_t dev)
{
    if (g->disks[dev].is_broken) return 0;
    make_available(&g->m, dev, ++g->disks[dev].offered, MALFORMED);
    write_reg_of(&g->m, dev, NOTIFY, 0);
    return work(g);
}

static inline int has_requests(const struct guest *g)
{
    for (uint8_t dev = 0; dev < DISKS; dev++)
        for (uint32_t slot = 0; slot < SLOTS; slot++)
            if (g->disks[dev].requests[slot].serial != 0) return 1;
    return 0;
}

/* ---- the calls ------------------------------------------------------------------------------------------------------------------- */

/* The request that a call is for: of those that ask for this, the one that was offered first. */
static inline struct request *asker_of(struct disk *d, const vmig_call *call)
{
    struct request *found = NULL;

    for (struct request *r = d->requests; r < d->requests + SLOTS; r++) {
        int asks = r->serial != 0 && !r->has_failed && r->done < r->count && r->kind == kind_of(call) && r->first + r->done == call->first;
        if (asks && !is_refused(d, r) && (found == NULL || r->serial < found->serial)) found = r;
    }
    return found;
}

static inline int overlap(uint32_t block, const vmig_call *a, const vmig_call *b)
{
    if (a->what == VMIG_DISK_FLUSH || b->what == VMIG_DISK_FLUSH) return a->what == b->what;
    return a->first / block <= (b->first + b->count - 1) / block && b->first / block <= (a->first + a->count - 1) / block;
}

/* No other call of its device that is out is in a block of it, and no earlier request has anything left there. */
static inline void check_apart(const struct guest *g, const struct out *o)
{
    const struct disk *d = &g->disks[o->call.dev];

    for (uint32_t i = 0; i < g->count_out; i++)
        if (&g->outs[i] != o && g->outs[i].call.dev == o->call.dev)
            expect("no two overlap", (uint64_t)overlap(g->block, &g->outs[i].call, &o->call), 0);
    for (const struct request *r = d->requests; r < d->requests + SLOTS; r++) {
        vmig_call left = {.first = r->first + r->done, .count = r->count - r->done, .what = r->kind == FLUSH ? VMIG_DISK_FLUSH : VMIG_DISK_READ};
        int waits = r->serial != 0 && r->serial < o->owner->serial && !r->has_failed && r->done < r->count && r->kind != GET_ID && !is_refused(d, r);
        if (waits) expect("nothing earlier is left", (uint64_t)overlap(g->block, &left, &o->call), 0);
    }
}

/* What a call says of itself. A write has the bytes of its request. */
static inline void check_call(struct guest *g, const struct out *o, size_t size)
{
    const vmig_call *c = &o->call;
    const struct disk *d = &g->disks[c->dev];
    uint8_t sector[SECTOR];

    expect("a new number", c->number >= g->numbers, 1);
    g->numbers = c->number + 1;
    expect("an asker", o->owner != NULL, 1);
    if (o->owner == NULL) return;
    expect("durable", c->durable, writes(kind_of(c)) && !(d->features & FLUSH_FEATURE));
    if (c->what == VMIG_DISK_FLUSH) return;
    expect("within the disk", c->count >= 1 && c->first + c->count <= SECTORS && c->count * SECTOR <= size, 1);
    expect("no more than is left", c->count <= o->owner->count - o->owner->done, 1);
    for (uint32_t i = 0; c->what == VMIG_DISK_WRITE && i < c->count; i++) {
        stamp(sector, o->owner->serial, o->owner->done + i);
        expect("the bytes of its write", (uint64_t)memcmp(o->bytes + i * SECTOR, sector, SECTOR), 0);
    }
    check_apart(g, o);
}

/* vmig_next names what vmig_disk_call hands out now, where no step has work, with a buffer for a whole request. With less room there is a call too,
 * and perhaps a part of one that has to wait as a whole. */
static inline void check_named(vmig_status next, uint8_t dev, vmig_status status, const vmig_call *call, int is_whole)
{
    if (next == VMIG_CALL) expect("one is handed out", status, VMIG_CALL);
    if (next == VMIG_CALL && is_whole) expect("of the device that is named", call->dev, dev);
    if (next == VMIG_IDLE && is_whole) expect("none is handed out", status, VMIG_IDLE);
}

/* The host asks for a call, with a buffer of any size. Whether there was one. */
static inline int ask_for_a_call(struct guest *g)
{
    struct out *o = &g->outs[g->count_out];
    size_t size = SECTOR * (1 + draw(MOST)) + draw(2);
    vmig_status status, next;
    uint8_t dev = 77, pick = 77;

    if (g->count_out == OUT_MAX) return 0;
    *o = (struct out){.landed = 0};
    next = vmig_next(&g->m, &dev, &pick);
    expect("a buffer of 511 bytes", vmig_disk_call(&g->m, &o->call, o->bytes, 511), VMIG_TOO_SMALL);
    status = vmig_disk_call(&g->m, &o->call, o->bytes, size < sizeof o->bytes ? size : sizeof o->bytes);
    check_named(next, dev, status, &o->call, size >= MOST * SECTOR);
    if (status == VMIG_IDLE) return 0;
    expect("a call", status, VMIG_CALL);
    o->owner = asker_of(&g->disks[o->call.dev], &o->call);
    g->count_out++;
    check_call(g, o, size);
    return 1;
}

/* The host does one more sector of a call, at a time of its own. */
static inline void land(struct guest *g, struct out *o)
{
    struct disk *d = &g->disks[o->call.dev];
    uint64_t sector = o->call.first + o->landed;

    if (o->call.what == VMIG_DISK_FLUSH) {
        o->landed = 1;
        return;
    }
    if (o->landed == o->call.count) return;
    if (o->owner != NULL) expect("no later request was here before", d->writer[sector] <= o->owner->serial, 1);
    if (o->call.what == VMIG_DISK_READ) {
        memcpy(o->bytes + o->landed * SECTOR, d->bytes[sector], SECTOR);
    } else {
        if (o->call.what == VMIG_DISK_WRITE) memcpy(d->bytes[sector], o->bytes + o->landed * SECTOR, SECTOR);
        else memset(d->bytes[sector], 0, SECTOR);
        if (o->owner != NULL) d->writer[sector] = o->owner->serial;
    }
    o->landed++;
}

static inline void land_all(struct guest *g, struct out *o)
{
    for (uint32_t i = 0; i < MOST; i++) land(g, o);
}

static inline void forget(struct guest *g, struct out *o)
{
    uint64_t number = o->call.number;

    *o = g->outs[--g->count_out];
    expect("answered twice", vmig_disk_failed(&g->m, number), VMIG_NOT_OUT);
}

/* Answers that are none, after which the call is out as before. */
static inline void answer_wrongly(struct guest *g, const struct out *o)
{
    static uint8_t bytes[(MOST + 1) * SECTOR];
    uint32_t count = o->call.what == VMIG_DISK_FLUSH ? 1 : o->call.count + 1;
    size_t len = o->call.what == VMIG_DISK_READ ? SECTOR : 0;

    expect("one sector more", vmig_refused(vmig_disk_done(&g->m, o->call.number, count, bytes, len * count)), 1);
    if (o->call.what != VMIG_DISK_FLUSH) {
        expect("no sector", vmig_refused(vmig_disk_done(&g->m, o->call.number, 0, bytes, 0)), 1);
        expect("bytes that do not fit", vmig_refused(vmig_disk_done(&g->m, o->call.number, 1, bytes, len == 0 ? SECTOR : SECTOR - 1)), 1);
    }
    expect("never given", vmig_disk_done(&g->m, g->numbers, 1, bytes, SECTOR), VMIG_NOT_OUT);
}

/* What the request that asked is told. A device that asked for a reset tells its requests nothing any more, and of a disk that is lost nothing counts
 * as done that says that something is durable. */
static inline void tell(struct guest *g, struct out *o, int fails)
{
    const struct disk *d = &g->disks[o->call.dev];
    struct request *r = o->owner;

    if (r == NULL || d->is_broken) return;
    if (fails || (d->is_lost && makes_durable(&o->call))) {
        r->has_failed = 1;
        return;
    }
    for (uint32_t i = 0; o->call.what == VMIG_DISK_READ && i < o->landed; i++) memcpy(r->given[r->done + i], o->bytes + i * SECTOR, SECTOR);
    r->done += o->landed;
}

static inline vmig_status answer_status(struct guest *g, const struct out *o, int fails)
{
    int is_read = o->call.what == VMIG_DISK_READ;
    uint32_t count = o->call.what == VMIG_DISK_FLUSH ? 0 : o->landed;

    if (fails) return vmig_disk_failed(&g->m, o->call.number);
    return vmig_disk_done(&g->m, o->call.number, count, is_read ? o->bytes : NULL, is_read ? count * SECTOR : 0);
}

static inline void answer(struct guest *g, struct out *o, int fails)
{
    if (draw(8) == 0) answer_wrongly(g, o);
    expect("answered", answer_status(g, o, fails), VMIG_OK);
    tell(g, o, fails);
    forget(g, o);
}

static inline int is_out_of(const struct guest *g, uint8_t dev)
{
    for (uint32_t i = 0; i < g->count_out; i++)
        if (g->outs[i].call.dev == dev) return 1;
    return 0;
}

static inline void answer_all(struct guest *g)
{
    while (g->count_out > 0) {
        for (uint32_t i = draw(MOST); i < MOST; i++) land(g, &g->outs[0]);
        answer(g, &g->outs[0], g->outs[0].landed == 0);
    }
}

/* The call that is out with the least number from this one on. */
static inline const vmig_call *oldest_from(const struct guest *g, uint64_t number)
{
    const vmig_call *found = NULL;

    for (uint32_t i = 0; i < g->count_out; i++) {
        const vmig_call *c = &g->outs[i].call;
        if (c->number >= number && (found == NULL || c->number < found->number)) found = c;
    }
    return found;
}

/* The calls that are out are listed as they were handed out, the oldest first, and no more of them than there is room for. */
static inline void check_listed(const struct guest *g)
{
    vmig_call calls[OUT_MAX + 1], same;
    size_t size = draw(OUT_MAX + 1), count = 77, listed;
    uint64_t number = 0;

    memset(calls, 0x5a, sizeof calls);
    memset(&same, 0x5a, sizeof same);
    expect("calls that are out", vmig_calls_out(&g->m, size == 0 ? NULL : calls, size, &count), VMIG_OK);
    expect("how many", count, g->count_out);
    expect("as is described", description_of(&g->m).calls_out, g->count_out);
    listed = count < size ? count : size;
    for (size_t i = 0; i < listed; i++) {
        const vmig_call *wanted = oldest_from(g, number);
        expect("as it was handed out", wanted == NULL ? 1 : (uint64_t)memcmp(&calls[i], wanted, sizeof same), 0);
        number = calls[i].number + 1;
    }
    for (size_t i = listed; i <= OUT_MAX; i++) expect("the rest is as it was", (uint64_t)memcmp(&calls[i], &same, sizeof same), 0);
}

/* ---- the machine ----------------------------------------------------------------------------------------------------------------- */

static const vmig_shape ASKED_SHAPES[DEVICES] = {
    {.kind = VMIG_BLOCK_OUTSIDE, .sectors = SECTORS}, {.kind = VMIG_BLOCK_OUTSIDE, .sectors = SECTORS}, {.kind = VMIG_CONSOLE}, {.kind = VMIG_ENTROPY},
};

/* A machine whose calls have numbers from this one on, over storage with such blocks. */
static inline void begin_guest(struct guest *g, uint32_t block, uint64_t calls_from)
{
    vmig_setup setup = VMIG_SETUP;

    memset(g, 0, sizeof *g);
    g->block = block, g->numbers = calls_from;
    setup.ram = (vmig_ram){g->rooms[0], sizeof g->rooms[0]}, setup.shapes = ASKED_SHAPES, setup.count = DEVICES, setup.flags = VMIG_LOG;
    setup.block = block == 1 ? 0 : block, setup.calls_from = calls_from;
    expect("make", vmig_make(&setup, &g->m), VMIG_OK);
    for (uint8_t dev = 0; dev < DISKS; dev++) take_over(g, dev);
}

/* It has moved over the same storage, none of its calls being out. */
static inline void come_elsewhere(struct guest *g, const uint8_t *stream, size_t len, uint64_t calls_from)
{
    vmig_arrival arrival = VMIG_ARRIVAL;
    vmig_machine other = VMIG_NONE;

    g->room = 1 - g->room;
    arrival.ram = (vmig_ram){g->rooms[g->room], sizeof g->rooms[g->room]}, arrival.flags = VMIG_LOG;
    arrival.most_outside = SECTORS, arrival.block = g->block, arrival.calls_from = calls_from;
    expect("arrive", vmig_arrive(&arrival, &other), VMIG_OK);
    expect("feed", vmig_feed(&other, stream, len), VMIG_WHOLE);
    expect("finish", vmig_finish(&other), VMIG_OK);
    expect("none is out there", description_of(&other).calls_out, 0);
    expect("none is lost there", description_of(&other).lost, 0);
    for (uint8_t dev = 0; dev < DISKS; dev++)
        if (g->disks[dev].is_lost) expect("its host is told", vmig_sync_failed(&other, dev), VMIG_OK);
    vmig_free(&g->m);
    g->m = other;
    g->numbers = calls_from;
}

static inline void lend(struct guest *g)
{
    expect("lend", vmig_lend(&g->m, &g->ram), VMIG_OK);
}

static inline void back(struct guest *g)
{
    expect("back", give_back_all(&g->m, &g->ram), VMIG_OK);
}

/* It is stopped, none of its calls being out, and its stream is here. */
static inline size_t stop(struct guest *g, uint8_t stream[STREAM])
{
    uint64_t pages, sectors;
    size_t len = 0, got = 1;

    expect("stop", vmig_send_stop(&g->m, &pages, &sectors), VMIG_OK);
    expect("no sector", sectors, 0);
    for (; got > 0 && failures == 0; len += got) expect("take", vmig_send_take(&g->m, stream + len, STREAM - len, &got), VMIG_OK);
    return len;
}

/* All that was offered is served in the end. */
static inline void finish_guest(struct guest *g)
{
    for (uint32_t turns = 0; has_requests(g) && turns < 1000 && failures == 0; turns++) {
        work(g);
        while (ask_for_a_call(g)) continue;
        answer_all(g);
        for (uint8_t dev = 0; dev < DISKS; dev++)
            if (g->disks[dev].is_broken) take_over(g, dev);
        expect("all is served", turns < 999, 1);
    }
}

#endif
