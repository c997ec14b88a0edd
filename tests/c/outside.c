/* Disks outside: what is asked of them and by which call, what an answer does, what is refused while a call is out, and in which state of the
 * machine. Every status of their calls is met here. */
#include <stdlib.h>
#include "driver.h"

enum { PAGES = 64, SECTORS = 40, SECTOR = 512, STREAM_MAX = 1 << 18 };

/* Requests of a block device, and features of it (VIRTIO 1.2, 5.2.3 and 5.2.6). */
enum { IN = 0, OUT = 1, FLUSH = 4, ZEROES = 13 };
enum { RO_FEATURE = 1 << 5, FLUSH_FEATURE = 1 << 9, ZEROES_FEATURE = 1 << 14 };
enum { GOOD = 0, FAILED = 1, NO_ANSWER = 77 };

/* The n-th request has its header, its status and its bytes here. */
enum { HEADERS = 0x6000, RESULTS = 0x7000, BYTES = 0x8000, ROOM = 0x1800 };

static const vmig_shape disks[] = {{.kind = VMIG_BLOCK_OUTSIDE, .sectors = SECTORS, .id = "outside"}};
static uint8_t buf[0x4000], stream[STREAM_MAX], bytes[0x4000];

struct guest {
    vmig_machine m;
    uint32_t made;              /* requests */
};

static vmig_call no_call(void)
{
    return (vmig_call){.number = 99, .first = 98, .count = 97, .dev = 96, .what = 95, .durable = 94, .zero = 93};
}

/* The driver makes a request of so many sectors. */
static void request(struct guest *g, uint32_t type, uint64_t sector, uint32_t count)
{
    uint32_t n = g->made++, at = 3 * (n % 20);
    uint64_t header = HEADERS + 32 * n, data = BYTES + (uint64_t)ROOM * n;
    uint32_t has_data = type == FLUSH ? 0 : 1, len = type == ZEROES ? 16 : count * SECTOR;

    put(&g->m, header, type, 4);
    put(&g->m, header + 4, 0, 4);
    put(&g->m, header + 8, type == ZEROES || type == FLUSH ? 0 : sector, 8);
    if (type == ZEROES) {
        put(&g->m, data, sector, 8);
        put(&g->m, data + 8, count, 4);
        put(&g->m, data + 12, 0, 4);
    }
    put(&g->m, RESULTS + n, NO_ANSWER, 1);
    describe(&g->m, 0, at, header, 16, HAS_NEXT, at + (has_data ? 1 : 2));
    if (has_data) describe(&g->m, 0, at + 1, data, len, HAS_NEXT | (type == IN ? WRITABLE : 0), at + 2);
    describe(&g->m, 0, at + 2, RESULTS + n, 1, WRITABLE, 0);
    offer(&g->m, 0, g->made, at);
}

static uint8_t result(struct guest *g, uint32_t n) { return (uint8_t)get(&g->m, RESULTS + n, 1); }

static void begin(struct guest *g, uint32_t features, uint32_t block, uint32_t flags)
{
    vmig_setup setup = VMIG_SETUP;

    *g = (struct guest){VMIG_NONE, 0};
    setup.pages = PAGES, setup.shapes = disks, setup.count = 1, setup.block = block, setup.flags = flags;
    expect("make", vmig_make(&setup, &g->m), VMIG_OK);
    set_up_with(&g->m, 1, features);
}

static uint32_t out_of(struct guest *g) { return description_of(&g->m).calls_out; }

/* The next call, which is this one. */
static vmig_call asked(struct guest *g, uint8_t what, uint64_t first, uint32_t count)
{
    vmig_call call = no_call();
    uint32_t out = out_of(g);

    expect("a call", vmig_disk_call(&g->m, &call, buf, sizeof buf), VMIG_CALL);
    expect("what", call.what, what);
    expect("first", call.first, first);
    expect("count", call.count, count);
    expect("device", call.dev, 0);
    expect("zeros", call.zero | call.reserved[0] | call.reserved[1], 0);
    expect("one more is out", out_of(g), out + 1);
    return call;
}

static void none_asked(struct guest *g, const char *what, vmig_status status, size_t size)
{
    vmig_call call = no_call(), same = no_call();
    uint32_t out = out_of(g);

    memset(buf, 5, sizeof buf);
    expect(what, vmig_disk_call(&g->m, &call, buf, size), status);
    expect("the call is as it was", (uint64_t)memcmp(&call, &same, sizeof call), 0);
    for (size_t i = 0; i < sizeof buf; i++)
        if (buf[i] != 5) expect("the buffer is as it was", buf[i], 5);
    expect("none is out more", out_of(g), out);
}

static vmig_status done(struct guest *g, vmig_call call, uint32_t count)
{
    return vmig_disk_done(&g->m, call.number, count, bytes, call.what == VMIG_DISK_READ ? count * SECTOR : 0);
}

/* ---- calls and answers ---------------------------------------------------------------------------------------------------------- */

/* A read of three sectors in two parts, in buffers that hold fewer. */
static void reads(void)
{
    struct guest g;
    vmig_call call, rest;

    begin(&g, FLUSH_FEATURE, 0, 0);
    none_asked(&g, "nothing is asked", VMIG_IDLE, sizeof buf);
    request(&g, IN, 7, 3);
    none_asked(&g, "no step has taken it", VMIG_IDLE, sizeof buf);
    serve(&g.m);
    none_asked(&g, "no room for a sector", VMIG_TOO_SMALL, 511);
    none_asked(&g, "none", VMIG_TOO_SMALL, 0);
    call = asked(&g, VMIG_DISK_READ, 7, 3);
    none_asked(&g, "it is out", VMIG_IDLE, sizeof buf);
    for (size_t i = 0; i < sizeof bytes; i++) bytes[i] = (uint8_t)(i / SECTOR + 3 * i);

    expect("no such number", vmig_disk_done(&g.m, call.number + 1, 1, bytes, SECTOR), VMIG_NOT_OUT);
    expect("no such number", vmig_disk_failed(&g.m, call.number + 1), VMIG_NOT_OUT);
    expect("no sector", vmig_disk_done(&g.m, call.number, 0, bytes, 0), VMIG_TOO_LONG);
    expect("a sector too many", vmig_disk_done(&g.m, call.number, 4, bytes, 4 * SECTOR), VMIG_TOO_LONG);
    expect("a byte too few", vmig_disk_done(&g.m, call.number, 2, bytes, 2 * SECTOR - 1), VMIG_TOO_LONG);
    expect("a byte too many", vmig_disk_done(&g.m, call.number, 2, bytes, 2 * SECTOR + 1), VMIG_TOO_LONG);
    expect("no bytes", vmig_disk_done(&g.m, call.number, 2, NULL, 0), VMIG_TOO_LONG);
    expect("it is out still", out_of(&g), 1);
    expect("two sectors", done(&g, call, 2), VMIG_OK);
    expect("none is out", out_of(&g), 0);
    expect("answered twice", done(&g, call, 2), VMIG_NOT_OUT);
    expect("a byte in RAM", get(&g.m, BYTES + 2 * SECTOR - 1, 1), bytes[2 * SECTOR - 1]);
    expect("no byte past it", get(&g.m, BYTES + 2 * SECTOR, 1), 0);

    rest = asked(&g, VMIG_DISK_READ, 9, 1);
    expect("another number", rest.number != call.number, 1);
    expect("no answer yet", result(&g, 0), NO_ANSWER);
    expect("the rest", done(&g, rest, 1), VMIG_OK);
    serve(&g.m);
    expect("it ended well", result(&g, 0), GOOD);
    none_asked(&g, "nothing is left", VMIG_IDLE, sizeof buf);

    /* A buffer of one sector gets one, and what is left is asked for beside it. */
    request(&g, IN, 0, 2);
    serve(&g.m);
    expect("in a small buffer", vmig_disk_call(&g.m, &call, buf, 512), VMIG_CALL);
    expect("one sector", call.count, 1);
    none_asked(&g, "no part twice", VMIG_IDLE, sizeof buf);
    expect("done", done(&g, call, 1), VMIG_OK);
    expect("in one of 1,023", vmig_disk_call(&g.m, &call, buf, 1023), VMIG_CALL);
    expect("one sector", call.count, 1);
    expect("from the next on", call.first, 1);
    expect("failed", vmig_disk_failed(&g.m, call.number), VMIG_OK);
    expect("answered", vmig_disk_failed(&g.m, call.number), VMIG_NOT_OUT);
    serve(&g.m);
    expect("it ended with an error", result(&g, 1), FAILED);
    vmig_free(&g.m);
}

/* Writes, clearings and flushes, by whether the driver accepted FLUSH. */
static void writes(uint32_t features)
{
    struct guest g;
    vmig_call write, clear, flush;
    int durable = !(features & FLUSH_FEATURE);

    begin(&g, features, 0, 0);
    for (uint32_t i = 0; i < 2 * SECTOR; i++) put(&g.m, BYTES + i, i % 251, 1);
    request(&g, OUT, 4, 2);
    request(&g, ZEROES, 10, 5);
    request(&g, FLUSH, 0, 0);
    serve(&g.m);
    write = asked(&g, VMIG_DISK_WRITE, 4, 2);
    for (uint32_t i = 0; i < 2 * SECTOR; i++)
        if (buf[i] != i % 251) expect("a byte that is written", buf[i], i % 251);
    memset(buf, 9, sizeof buf);
    clear = asked(&g, VMIG_DISK_CLEAR, 10, 5);
    flush = asked(&g, VMIG_DISK_FLUSH, 0, 0);
    expect("a clearing has no bytes", buf[0], 9);
    expect("durable", write.durable, durable);
    expect("durable", clear.durable, durable);
    expect("a flush is not", flush.durable, 0);
    expect("three are out", out_of(&g), 3);

    expect("a write that wrote nothing", done(&g, write, 0), VMIG_TOO_LONG);
    expect("a write with bytes", vmig_disk_done(&g.m, write.number, 2, bytes, 2 * SECTOR), VMIG_TOO_LONG);
    expect("too many", done(&g, write, 3), VMIG_TOO_LONG);
    expect("a clearing of none", done(&g, clear, 0), VMIG_TOO_LONG);
    expect("a clearing with bytes", vmig_disk_done(&g.m, clear.number, 1, bytes, 1), VMIG_TOO_LONG);
    expect("a flush of a sector", done(&g, flush, 1), VMIG_TOO_LONG);
    expect("a flush with bytes", vmig_disk_done(&g.m, flush.number, 0, bytes, 1), VMIG_TOO_LONG);
    expect("three are out", out_of(&g), 3);

    expect("the flush first", done(&g, flush, 0), VMIG_OK);
    expect("the clearing", done(&g, clear, 5), VMIG_OK);
    expect("half of the write", done(&g, write, 1), VMIG_OK);
    serve(&g.m);
    expect("a flush ended", result(&g, 2), GOOD);
    expect("a clearing ended", result(&g, 1), GOOD);
    expect("a write did not", result(&g, 0), NO_ANSWER);
    write = asked(&g, VMIG_DISK_WRITE, 5, 1);
    expect("its bytes are the second half", buf[0], SECTOR % 251);
    expect("the rest", done(&g, write, 1), VMIG_OK);
    serve(&g.m);
    expect("a write ended", result(&g, 0), GOOD);
    vmig_free(&g.m);
}

/* A call is handed out where its blocks are in none that is out. */
static void apart(uint32_t block)
{
    struct guest g;
    vmig_call first, second;

    begin(&g, FLUSH_FEATURE, block, 0);
    request(&g, OUT, 0, 1);
    request(&g, OUT, 7, 1);
    request(&g, OUT, 8, 1);
    serve(&g.m);
    first = asked(&g, VMIG_DISK_WRITE, 0, 1);
    if (block <= 1) expect("the next sector", done(&g, asked(&g, VMIG_DISK_WRITE, 7, 1), 1), VMIG_OK);
    second = asked(&g, VMIG_DISK_WRITE, 8, 1);
    none_asked(&g, "one in a block that is out", VMIG_IDLE, sizeof buf);
    expect("done", done(&g, first, 1), VMIG_OK);
    if (block > 1) expect("then", done(&g, asked(&g, VMIG_DISK_WRITE, 7, 1), 1), VMIG_OK);
    expect("done", done(&g, second, 1), VMIG_OK);
    vmig_free(&g.m);
}

/* Two machines have numbers of their own; two devices take turns. */
static void two_of_each(void)
{
    struct guest g, other;
    vmig_call call, its;

    begin(&g, 0, 0, 0);
    begin(&other, 0, 0, 0);
    request(&g, IN, 0, 1);
    serve(&g.m);
    call = asked(&g, VMIG_DISK_READ, 0, 1);
    expect("of another machine", done(&other, call, 1), VMIG_NOT_OUT);
    request(&other, IN, 0, 1);
    serve(&other.m);
    its = asked(&other, VMIG_DISK_READ, 0, 1);
    expect("done", done(&g, call, 1), VMIG_OK);
    expect("its own is out", out_of(&other), 1);
    expect("done", done(&other, its, 1), VMIG_OK);
    vmig_free(&g.m);
    vmig_free(&other.m);
}

/* The log of written pages has those that an answer wrote. */
static void logged(void)
{
    struct guest g;
    vmig_call call;
    uint32_t pages[PAGES];
    size_t count = 0;

    begin(&g, FLUSH_FEATURE, 0, VMIG_LOG);
    request(&g, IN, 0, 9);
    serve(&g.m);
    expect("so far", vmig_written(&g.m, pages, PAGES, &count), VMIG_OK);
    call = asked(&g, VMIG_DISK_READ, 0, 9);
    expect("after a call", vmig_written(&g.m, pages, PAGES, &count), VMIG_OK);
    expect("nothing is written by it", count, 0);
    expect("done", done(&g, call, 9), VMIG_OK);
    expect("written", vmig_written(&g.m, pages, PAGES, &count), VMIG_OK);
    expect("two pages", count, 2);
    expect("the first", pages[0], BYTES / 4096);
    expect("the second", pages[1], BYTES / 4096 + 1);
    vmig_free(&g.m);
}

/* ---- what is refused while a call is out ---------------------------------------------------------------------------------------- */

static vmig_status write_status(struct guest *g, uint32_t off, uint32_t value)
{
    uint32_t byte = 55;
    vmig_status status = vmig_reg_write(&g->m, 0, off, 4, value, &byte);

    expect("the byte", byte, vmig_refused(status) ? 55 : VMIG_NO_BYTE);
    return status;
}

/* A reset, by a register and of the machine, waits for the calls that are out, and for no others. */
static void resets(void)
{
    struct guest g;
    vmig_call call;

    begin(&g, 0, 0, 0);
    request(&g, IN, 3, 2);
    serve(&g.m);
    expect("a queue is taken away", write_status(&g, 0x044, 0), VMIG_OK);
    expect("the queue again", write_status(&g, 0x044, 1), VMIG_OK);
    none_asked(&g, "its request was dropped", VMIG_IDLE, sizeof buf);
    set_up_with(&g.m, 1, 0);
    put(&g.m, AVAIL + 2, 0, 2);
    put(&g.m, USED + 2, 0, 2);
    g.made = 0;
    request(&g, IN, 3, 2);
    serve(&g.m);
    call = asked(&g, VMIG_DISK_READ, 3, 2);
    expect("no queue", write_status(&g, 0x044, 0), VMIG_CALLS_OUT);
    expect("a reset", write_status(&g, 0x070, 0), VMIG_CALLS_OUT);
    expect("of the machine", vmig_reset(&g.m), VMIG_CALLS_OUT);
    expect("of no device", vmig_reg_write(&g.m, 1, 0x070, 4, 0, &(uint32_t){0}), VMIG_NO_DEVICE);
    expect("the queue is ready", read_reg(&g.m, 0x044), 1);
    expect("the status is as it was", read_reg(&g.m, 0x070), 0xf);
    expect("another write", write_status(&g, 0x014, 1), VMIG_OK);
    expect("of another width", vmig_reg_write(&g.m, 0, 0x070, 2, 0, &(uint32_t){0}), VMIG_OK);
    expect("a kick", write_status(&g, 0x050, 0), VMIG_OK);
    expect("answered", done(&g, call, 2), VMIG_OK);
    expect("a reset", vmig_reset(&g.m), VMIG_OK);
    expect("the status is 0", read_reg(&g.m, 0x070), 0);
    vmig_free(&g.m);
}

/* Its device asks for a reset meanwhile: the answer meets nobody, and is done all the same. */
static void nobody_waits(void)
{
    struct guest g;
    vmig_call call, other;

    begin(&g, 0, 0, 0);
    request(&g, IN, 3, 1);
    request(&g, OUT, 5, 1);
    serve(&g.m);
    call = asked(&g, VMIG_DISK_READ, 3, 1);
    other = asked(&g, VMIG_DISK_WRITE, 5, 1);
    describe(&g.m, 0, 50, 0xffffffff, 16, 0, 0);
    g.made++;
    offer(&g.m, 0, g.made, 50);
    serve(&g.m);
    expect("it asks for a reset", read_reg(&g.m, 0x070) & 64, 64);
    none_asked(&g, "nothing is asked", VMIG_IDLE, sizeof buf);
    expect("a reset would drop it", write_status(&g, 0x070, 0), VMIG_CALLS_OUT);
    memset(bytes, 0x33, sizeof bytes);
    expect("its bytes are nobody's", done(&g, call, 1), VMIG_OK);
    expect("RAM is as it was", get(&g.m, BYTES, 1), 0);
    expect("answered twice", done(&g, call, 1), VMIG_NOT_OUT);
    expect("failed", vmig_disk_failed(&g.m, other.number), VMIG_OK);
    expect("a reset", write_status(&g, 0x070, 0), VMIG_OK);
    vmig_free(&g.m);
}

/* ---- states ------------------------------------------------------------------------------------------------------------------------ */

static void not_there(struct guest *g, const char *what, vmig_status status, uint64_t number)
{
    none_asked(g, what, status, sizeof buf);
    none_asked(g, "also without room", status, 0);
    expect("its answer", vmig_disk_done(&g->m, number, 1, bytes, SECTOR), status);
    expect("a bad one", vmig_disk_done(&g->m, number + 5, 0, bytes, 1), status);
    expect("its failure", vmig_disk_failed(&g->m, number), status);
}

static size_t take_all(vmig_machine *m, uint8_t *into)
{
    size_t len = 0, got = 1;

    while (got != 0) {
        expect("take", vmig_send_take(m, into + len, STREAM_MAX - len, &got), VMIG_OK);
        len += got;
    }
    return len;
}

static vmig_status arrive(vmig_machine *m, const vmig_shape *shapes, size_t count, uint64_t most, uint32_t frame)
{
    vmig_arrival arrival = VMIG_ARRIVAL;

    arrival.most_pages = PAGES, arrival.shapes = shapes, arrival.count = count, arrival.most_outside = most, arrival.frame = frame;
    arrival.flags = frame != 0 ? VMIG_LARGE : 0;
    return vmig_arrive(&arrival, m);
}

/* A call outlives that its machine is sent and aborted, and no stop is made while it is out. */
static void sent(void)
{
    struct guest g = {VMIG_NONE, 0}, came = {VMIG_NONE, 0};
    vmig_call call, again;
    uint64_t pages = 55, sectors = 66;
    size_t len;

    not_there(&g, "no machine", VMIG_NO_MACHINE, 0);
    expect("arrive", arrive(&g.m, NULL, 0, SECTORS, 0), VMIG_OK);
    not_there(&g, "it arrives", VMIG_NO_MACHINE, 0);
    vmig_free(&g.m);

    begin(&g, 0, 0, 0);
    request(&g, IN, 3, 2);
    request(&g, OUT, 9, 1);
    serve(&g.m);
    call = asked(&g, VMIG_DISK_READ, 3, 2);
    expect("begin", vmig_send_begin(&g.m), VMIG_OK);
    again = asked(&g, VMIG_DISK_WRITE, 9, 1);
    expect("a reset", write_status(&g, 0x070, 0), VMIG_CALLS_OUT);
    expect("two are out", vmig_send_stop(&g.m, &pages, &sectors), VMIG_CALLS_OUT);
    expect("no numbers", pages == 55 && sectors == 66, 1);
    expect("abort", vmig_send_abort(&g.m), VMIG_OK);
    expect("two are out", out_of(&g), 2);
    expect("a stop of none", vmig_send_stop(&g.m, &pages, &sectors), VMIG_NOT_SENDING);
    expect("begin", vmig_send_begin(&g.m), VMIG_OK);
    expect("all", vmig_send_some(&g.m, 1000), VMIG_ROUND_DONE);
    expect("a round", vmig_send_round(&g.m), VMIG_OK);
    memset(bytes, 0x44, sizeof bytes);
    expect("one of two sectors", done(&g, call, 1), VMIG_OK);
    expect("the write", done(&g, again, 1), VMIG_OK);
    expect("a stop", vmig_send_stop(&g.m, &pages, &sectors), VMIG_OK);
    expect("the page that was read into", pages, 1);
    not_there(&g, "it was stopped", VMIG_STOPPED, call.number);
    expect("it takes no write", write_status(&g, 0x070, 0), VMIG_STOPPED);
    len = take_all(&g.m, stream);

    expect("arrive", arrive(&came.m, NULL, 0, SECTORS, 0), VMIG_OK);
    expect("feed", vmig_feed(&came.m, stream, len), VMIG_WHOLE);
    expect("finish", vmig_finish(&came.m), VMIG_OK);
    expect("none is out", out_of(&came), 0);
    expect("what came", get(&came.m, BYTES, 1), 0x44);
    call = asked(&came, VMIG_DISK_READ, 4, 1);
    expect("the rest, there", done(&came, call, 1), VMIG_OK);
    serve(&came.m);
    expect("it ended well", result(&came, 0), GOOD);
    expect("and the write", result(&came, 1), GOOD);
    vmig_free(&came.m);
    expect("abort", vmig_send_abort(&g.m), VMIG_OK);
    expect("the rest, here", done(&g, asked(&g, VMIG_DISK_READ, 4, 1), 1), VMIG_OK);
    vmig_free(&g.m);
}

/* While RAM is lent no call is handed out, and none that is a read is done. */
static void refused_lent(struct guest *g, uint64_t read)
{
    none_asked(g, "it is lent", VMIG_LENT, sizeof buf);
    none_asked(g, "also without room", VMIG_LENT, 0);
    expect("a read", vmig_disk_done(&g->m, read, 1, bytes, SECTOR), VMIG_LENT);
    expect("before its count", vmig_disk_done(&g->m, read, 0, bytes, 1), VMIG_LENT);
    expect("no such number", vmig_disk_done(&g->m, read + 50, 1, bytes, SECTOR), VMIG_NOT_OUT);
    expect("no such number", vmig_disk_failed(&g->m, read + 50), VMIG_NOT_OUT);
    expect("a reset", write_status(g, 0x070, 0), VMIG_CALLS_OUT);
    expect("of the machine", vmig_reset(&g->m), VMIG_CALLS_OUT);
    expect("a kick", write_status(g, 0x050, 0), VMIG_OK);
}

static void begin_over(struct guest *g, uint8_t *ram, size_t len)
{
    vmig_setup setup = VMIG_SETUP;

    *g = (struct guest){VMIG_NONE, 0};
    setup.shapes = disks, setup.count = 1, setup.ram = (vmig_ram){ram, len};
    expect("make", vmig_make(&setup, &g->m), VMIG_OK);
    set_up_with(&g->m, 1, ZEROES_FEATURE | FLUSH_FEATURE);
}

/* Writes, clearings and flushes are answered while RAM is lent, and a failure of each call. */
static void lent(void)
{
    static uint8_t ram[PAGES * 4096];
    struct guest g;
    vmig_ram slot = VMIG_NO_RAM;
    vmig_call read, write, clear, flush;

    begin_over(&g, ram, sizeof ram);
    request(&g, IN, 3, 2), request(&g, OUT, 9, 2), request(&g, ZEROES, 20, 3), request(&g, FLUSH, 0, 0);
    serve(&g.m);
    read = asked(&g, VMIG_DISK_READ, 3, 2), write = asked(&g, VMIG_DISK_WRITE, 9, 2);
    clear = asked(&g, VMIG_DISK_CLEAR, 20, 3), flush = asked(&g, VMIG_DISK_FLUSH, 0, 0);
    for (int sending = 0; sending < 2; sending++) {
        if (sending) expect("begin", vmig_send_begin(&g.m), VMIG_OK);
        expect("lend", vmig_lend(&g.m, &slot), VMIG_OK);
        refused_lent(&g, read.number);
        if (sending) expect("a flush", done(&g, flush, 0), VMIG_OK);
        expect("too many", done(&g, sending ? clear : write, 4), VMIG_TOO_LONG);
        expect("a part", done(&g, sending ? clear : write, 1), VMIG_OK);
        expect("once", done(&g, sending ? clear : write, 1), VMIG_NOT_OUT);
        expect("back", give_back_list(&g.m, &slot, NULL, 0), VMIG_OK);
    }
    write = asked(&g, VMIG_DISK_WRITE, 10, 1), clear = asked(&g, VMIG_DISK_CLEAR, 21, 2);
    expect("lend", vmig_lend(&g.m, &slot), VMIG_OK);
    expect("done", done(&g, write, 1), VMIG_OK);
    expect("failed", vmig_disk_failed(&g.m, clear.number), VMIG_OK);
    expect("back", give_back_list(&g.m, &slot, NULL, 0), VMIG_OK);
    expect("a read", done(&g, read, 2), VMIG_OK);
    serve(&g.m);
    for (uint32_t n = 0; n < 4; n++) expect("its verdict", result(&g, n), n == 2 ? FAILED : GOOD);
    vmig_free(&g.m);
}

/* A driver resets its device while RAM is lent and calls are out: these are answered, the read as failed, and no RAM comes back for it. */
static void reset_lent(void)
{
    static uint8_t ram[PAGES * 4096];
    struct guest g;
    vmig_ram slot = VMIG_NO_RAM;
    vmig_call read, write;

    begin_over(&g, ram, sizeof ram);
    request(&g, IN, 3, 2), request(&g, OUT, 9, 1);
    serve(&g.m);
    read = asked(&g, VMIG_DISK_READ, 3, 2), write = asked(&g, VMIG_DISK_WRITE, 9, 1);
    expect("lend", vmig_lend(&g.m, &slot), VMIG_OK);
    expect("a reset", write_status(&g, 0x070, 0), VMIG_CALLS_OUT);
    expect("a write", done(&g, write, 1), VMIG_OK);
    expect("a reset", write_status(&g, 0x070, 0), VMIG_CALLS_OUT);
    expect("a read", vmig_disk_failed(&g.m, read.number), VMIG_OK);
    expect("a reset", write_status(&g, 0x070, 0), VMIG_OK);
    expect("it is reset", read_reg(&g.m, 0x070), 0);
    expect("none is out", out_of(&g), 0);
    expect("back", give_back_list(&g.m, &slot, NULL, 0), VMIG_OK);
    expect("no verdict", result(&g, 0) == NO_ANSWER && result(&g, 1) == NO_ANSWER, 1);
    vmig_free(&g.m);
}

/* ---- numbers, and what waits ----------------------------------------------------------------------------------------------------- */

/* Numbers count up from the first one, and at 2^64 - 1 none is handed out. */
static void numbers(uint64_t from, uint32_t left)
{
    struct guest g = {VMIG_NONE, 0};
    vmig_setup setup = VMIG_SETUP;
    uint8_t dev = 77, pick = 77;

    setup.pages = PAGES, setup.shapes = disks, setup.count = 1, setup.calls_from = from;
    expect("make", vmig_make(&setup, &g.m), VMIG_OK);
    expect("the setup is as it was", setup.calls_from, from);
    set_up_with(&g.m, 1, 0);
    for (uint32_t n = 0; n < 4; n++) request(&g, IN, 4 * n, 1);
    serve(&g.m);
    for (uint32_t n = 0; n < 4 && n < left; n++) {
        vmig_call call = asked(&g, VMIG_DISK_READ, 4 * n, 1);
        expect("its number", call.number, from + n);
        expect("the one before the first", vmig_disk_failed(&g.m, from - 1), VMIG_NOT_OUT);
        expect("the next one", vmig_disk_failed(&g.m, call.number + 1), VMIG_NOT_OUT);
    }
    none_asked(&g, "numbers are used up, or all are out", VMIG_IDLE, sizeof buf);
    expect("nothing is named", vmig_next(&g.m, &dev, &pick), VMIG_IDLE);
    expect("both are as they were", dev == 77 && pick == 77, 1);
    expect("the last one is none", vmig_disk_failed(&g.m, UINT64_MAX), VMIG_NOT_OUT);
    vmig_free(&g.m);
}

/* A machine that arrives has numbers of its own too. */
static void numbers_there(void)
{
    struct guest g, came = {VMIG_NONE, 0};
    vmig_arrival arrival = VMIG_ARRIVAL;
    vmig_call call;
    size_t len = 0;

    begin(&g, 0, 0, 0);
    request(&g, IN, 3, 2);
    serve(&g.m);
    call = asked(&g, VMIG_DISK_READ, 3, 2);
    expect("save", vmig_save(&g.m, stream, sizeof stream, &len), VMIG_OK);
    arrival.most_pages = PAGES, arrival.most_outside = SECTORS, arrival.calls_from = UINT64_C(5) << 40;
    expect("arrive", vmig_arrive(&arrival, &came.m), VMIG_OK);
    expect("feed", vmig_feed(&came.m, stream, len), VMIG_WHOLE);
    expect("finish", vmig_finish(&came.m), VMIG_OK);
    expect("its number", asked(&came, VMIG_DISK_READ, 3, 2).number, UINT64_C(5) << 40);
    expect("that of the other", done(&came, call, 2), VMIG_NOT_OUT);
    expect("is the other's", done(&g, call, 2), VMIG_OK);
    vmig_free(&came.m);
    vmig_free(&g.m);
}

static void is_next(struct guest *g, const char *what, vmig_status status)
{
    uint8_t dev = 5, pick = 6;

    expect(what, vmig_next(&g->m, &dev, &pick), status);
    expect("its device", dev, status == VMIG_IDLE ? 5 : 0);
    if (status == VMIG_CALL) expect("the pick is as it was", pick, 6);
}

/* What waits to be asked is named, in each state in which it may be: also while RAM is lent, where it is not handed out. */
static void named(void)
{
    static uint8_t ram[PAGES * 4096];
    struct guest g;
    vmig_ram slot = VMIG_NO_RAM;
    vmig_call call;

    begin_over(&g, ram, sizeof ram);
    is_next(&g, "nothing", VMIG_IDLE);
    request(&g, OUT, 3, 2), request(&g, OUT, 4, 1);
    is_next(&g, "a step", VMIG_WORK);
    serve(&g.m);
    is_next(&g, "a call", VMIG_CALL);
    is_next(&g, "it was not handed out", VMIG_CALL);
    expect("begin", vmig_send_begin(&g.m), VMIG_OK);
    is_next(&g, "of one that is sent", VMIG_CALL);
    expect("lend", vmig_lend(&g.m, &slot), VMIG_OK);
    is_next(&g, "while it is lent", VMIG_CALL);
    expect("back", give_back_list(&g.m, &slot, NULL, 0), VMIG_OK);
    call = asked(&g, VMIG_DISK_WRITE, 3, 2);
    is_next(&g, "the other waits for the answer", VMIG_IDLE);
    expect("lend", vmig_lend(&g.m, &slot), VMIG_OK);
    expect("a part", done(&g, call, 1), VMIG_OK);
    is_next(&g, "the rest", VMIG_CALL);
    expect("back", give_back_list(&g.m, &slot, NULL, 0), VMIG_OK);
    call = asked(&g, VMIG_DISK_WRITE, 4, 1);
    expect("done", done(&g, call, 1), VMIG_OK);
    is_next(&g, "a step ends it", VMIG_WORK);
    vmig_free(&g.m);
}

/* The calls that are out, of which the oldest are listed. */
static void listed(void)
{
    struct guest g = {VMIG_NONE, 0};
    vmig_call calls[3], out[3];
    size_t count = 77;

    expect("of no machine", vmig_calls_out(&g.m, calls, 3, &count), VMIG_NO_MACHINE);
    begin(&g, 0, 0, 0);
    for (uint32_t n = 0; n < 3; n++) request(&g, n == 1 ? OUT : IN, 4 * n, 1 + n);
    serve(&g.m);
    expect("none", vmig_calls_out(&g.m, NULL, 0, &count), VMIG_OK);
    expect("none", count, 0);
    for (uint32_t n = 0; n < 3; n++) out[n] = asked(&g, n == 1 ? VMIG_DISK_WRITE : VMIG_DISK_READ, 4 * n, 1 + n);
    for (size_t size = 0; size <= 3; size++) {
        for (size_t n = 0; n < 3; n++) calls[n] = no_call();
        expect("calls", vmig_calls_out(&g.m, calls, size, &count), VMIG_OK);
        expect("all are counted", count, 3);
        expect("the oldest", (uint64_t)memcmp(calls, out, size * sizeof *calls), 0);
        if (size < 3) expect("the rest is as it was", calls[size].number, no_call().number);
    }
    expect("the second", done(&g, out[1], 2), VMIG_OK);
    expect("calls", vmig_calls_out(&g.m, calls, 3, &count), VMIG_OK);
    expect("two", count == 2 && calls[0].number == out[0].number && calls[1].number == out[2].number, 1);
    vmig_free(&g.m);
}

/* ---- what arrives ---------------------------------------------------------------------------------------------------------------- */

/* The stream arrives, and its last piece, or the one that its header ends in, is answered so. */
static void comes(const char *what, size_t len, const vmig_shape *shapes, size_t count, uint64_t most, uint32_t frame, vmig_status status)
{
    vmig_machine m = VMIG_NONE;

    expect(what, arrive(&m, shapes, count, most, frame), VMIG_OK);
    expect(what, vmig_feed(&m, stream, len), status);
    expect(what, vmig_finish(&m), status == VMIG_WHOLE ? VMIG_OK : VMIG_STREAM_FAILED);
    expect("no slots", description_of(&m).images, 0);
    vmig_free(&m);
}

static void arrivals(void)
{
    static const vmig_shape larger[] = {{.kind = VMIG_BLOCK_OUTSIDE, .sectors = SECTORS + 1, .id = "outside"}};
    static const vmig_shape smaller[] = {{.kind = VMIG_BLOCK_OUTSIDE, .sectors = SECTORS - 1, .id = "outside"}};
    static const vmig_shape plain[] = {{.kind = VMIG_BLOCK, .sectors = SECTORS, .id = "outside"}};
    struct guest g, came = {VMIG_NONE, 0};
    vmig_description told;
    size_t len = 0;

    begin(&g, 0, 0, 0);
    request(&g, IN, 3, 2);
    serve(&g.m);
    asked(&g, VMIG_DISK_READ, 3, 2);
    expect("saved with a call out", vmig_save(&g.m, stream, sizeof stream, &len), VMIG_OK);
    expect("in version 3", stream[4], 3);
    vmig_free(&g.m);

    expect("describe", vmig_stream_describe(stream, len, &told), VMIG_OK);
    expect("its kind", told.shapes[0].kind, VMIG_BLOCK_OUTSIDE);
    expect("its sectors", told.shapes[0].sectors, SECTORS);
    expect("its id", (uint64_t)memcmp(told.shapes[0].id, disks[0].id, 20), 0);
    comes("nothing allowed", len, NULL, 0, 0, 0, VMIG_STREAM_BAD_VERSION);
    comes("as many sectors", len, NULL, 0, SECTORS, 0, VMIG_WHOLE);
    comes("all that can be", len, NULL, 0, UINT64_MAX, 0, VMIG_WHOLE);
    comes("one sector fewer", len, NULL, 0, SECTORS - 1, 0, VMIG_STREAM_TOO_LARGE);
    comes("longer frames alone", len, NULL, 0, 0, 9018, VMIG_STREAM_TOO_LARGE);
    comes("its shape", len, disks, 1, 0, 0, VMIG_WHOLE);
    comes("its shape, and fewer", len, disks, 1, 1, 0, VMIG_WHOLE);
    comes("another shape", len, larger, 1, 0, 0, VMIG_STREAM_MISMATCH);
    comes("a smaller shape", len, smaller, 1, 0, 0, VMIG_STREAM_TOO_LARGE);
    comes("a smaller shape, and as many", len, smaller, 1, SECTORS, 0, VMIG_STREAM_MISMATCH);
    comes("a disk in the machine", len, plain, 1, 0, 0, VMIG_STREAM_BAD_VERSION);
    comes("a disk in the machine, and as many", len, plain, 1, SECTORS, 0, VMIG_STREAM_MISMATCH);

    expect("arrive", arrive(&came.m, disks, 1, 0, 0), VMIG_OK);
    expect("feed", vmig_feed(&came.m, stream, len), VMIG_WHOLE);
    expect("finish", vmig_finish(&came.m), VMIG_OK);
    asked(&came, VMIG_DISK_READ, 3, 2);
    vmig_free(&came.m);
}

/* ---- shapes, and the calls that such a device has not ---------------------------------------------------------------------------- */

static void kinds(void)
{
    static const vmig_shape wrong[] = {{.kind = VMIG_BLOCK_OUTSIDE},
                                       {.kind = VMIG_BLOCK_OUTSIDE, .sectors = (UINT64_C(1) << 54) + 1},
                                       {.kind = VMIG_BLOCK_OUTSIDE, .sectors = 1, .read_only = 2},
                                       {.kind = VMIG_BLOCK_OUTSIDE, .sectors = 1, .mac = {1}},
                                       {.kind = VMIG_BLOCK_OUTSIDE, .sectors = 1, .frame = 1515},
                                       {.kind = VMIG_BLOCK_OUTSIDE, .sectors = 1, .reserved = {0, 1}}};
    static const vmig_shape most[] = {{.kind = VMIG_BLOCK_OUTSIDE, .sectors = UINT64_C(1) << 54, .read_only = 1}, {.kind = VMIG_BLOCK, .sectors = 1}};
    static const uint8_t sector[SECTOR] = {7};
    vmig_machine m = VMIG_NONE;
    size_t number = 77;

    for (size_t i = 0; i < sizeof wrong / sizeof *wrong; i++) {
        expect("a shape that cannot be", make_new(1, wrong + i, 1, &m), VMIG_BAD_SHAPE);
        expect("to arrive", arrive(&m, wrong + i, 1, UINT64_MAX, 0), VMIG_BAD_SHAPE);
    }
    expect("contents are of the other disk", make_with(1, most, 2, sector, sizeof sector, &m), VMIG_OK);
    expect("capacity", read_reg(&m, 0x100), 0);
    expect("its upper half", read_reg(&m, 0x104), 1 << 22);
    expect("its segments", read_reg(&m, 0x10c), 254);
    expect("its features", read_reg(&m, 0x010) & RO_FEATURE, RO_FEATURE);
    expect("its sector", vmig_sector_read(&m, 0, 0, buf), VMIG_WRONG_KIND);
    expect("of the other", vmig_sector_read(&m, 1, 0, buf), VMIG_OK);
    expect("none is lost", description_of(&m).lost, 0);
    expect("a lost disk", vmig_sync_failed(&m, 0), VMIG_OK);
    expect("it is lost", description_of(&m).lost, 1);
    expect("nothing is dropped", vmig_drop(&m, 0), VMIG_WRONG_KIND);
    expect("nothing is put in", vmig_input(&m, 0, sector, 1, &number), VMIG_WRONG_KIND);
    expect("no room", vmig_room(&m, 0, &number), VMIG_WRONG_KIND);
    expect("no number", number, 77);
    expect("its reset", vmig_reset(&m), VMIG_OK);
    expect("it is lost for good", description_of(&m).lost, 1);
    vmig_free(&m);
}

int main(void)
{
    reads();
    writes(ZEROES_FEATURE);
    writes(ZEROES_FEATURE | FLUSH_FEATURE);
    apart(0);
    apart(1);
    apart(8);
    two_of_each();
    logged();
    resets();
    nobody_waits();
    sent();
    lent();
    reset_lent();
    numbers(0, 4);
    numbers(UINT64_C(3) << 40, 4);
    numbers(UINT64_MAX - 2, 2);
    numbers(UINT64_MAX, 0);
    numbers_there();
    named();
    listed();
    arrivals();
    kinds();
    return ended("outside");
}
