/* What is done while RAM is lent: a driver's writes are taken, and work and lines follow them. Steps wait until RAM is back. No call
 * touches a byte of RAM meanwhile: here it cannot be read then. A machine that was stopped takes no write, and after an abort its
 * registers are as they were before the one that was refused. */
#define _DEFAULT_SOURCE
#include <stdlib.h>
#include <sys/mman.h>
#include "driver.h"

enum { PAGES = 16, ENTROPY = 0, CONSOLE = 1, DISK = 2 };
enum { QUEUE_SELECTED = 0x030, READY = 0x044, NOTIFY = 0x050, INTERRUPTS = 0x060, ACKNOWLEDGE = 0x064, STATUS = 0x070 };

/* The feature of a console whose driver reads its size. */
enum { SIZE_IS_TOLD = 1 };

static const vmig_shape SHAPES[] = {{.kind = VMIG_ENTROPY}, {.kind = VMIG_CONSOLE}};
static uint8_t room[PAGES * 4096], stream[2 * PAGES * 4096];
static const vmig_pages NONE = VMIG_NO_PAGES;

static vmig_machine make_driven(void)
{
    vmig_machine m = VMIG_NONE;
    vmig_ram ram = {room, sizeof room};

    memset(room, 0, sizeof room);
    expect("make", make_over(&ram, SHAPES, 2, NULL, 0, &m), VMIG_OK);
    set_up_device(&m, ENTROPY, 0, 1, 0);
    set_up_device(&m, CONSOLE, 1, 2, SIZE_IS_TOLD);
    describe(&m, 0, 0, DATA, 16, WRITABLE, 0);
    make_available(&m, 0, 1, 0);
    return m;
}

static void put_in(vmig_machine *m)
{
    size_t kept = 0;

    expect("input", vmig_input(m, ENTROPY, (const uint8_t *)"sixteen letters.", 16, &kept), VMIG_OK);
    expect("all of it", kept, 16);
}

/* A kick and an input are taken while RAM is lent, and name a step. It is made once RAM is back, and its interrupt is acknowledged while
 * RAM is lent anew. */
static void serve_lent(vmig_machine *m, uint16_t columns)
{
    vmig_ram out = VMIG_NO_RAM;
    uint8_t dev = 77, pick = 77, none[1];
    uint32_t len = 77;

    expect("lend", vmig_lend(m, &out), VMIG_OK);
    expect("no work before the kick", vmig_next(m, &dev, &pick), VMIG_IDLE);
    write_reg_of(m, ENTROPY, NOTIFY, 0);
    put_in(m);
    expect("work", vmig_next(m, &dev, &pick), VMIG_WORK);
    expect("of the entropy device", dev == ENTROPY && pick == 0, 1);
    expect("a step waits", vmig_step(m, dev, pick, none, 0, &len), VMIG_LENT);
    expect("its length is as it was", len, 77);
    expect("give back", vmig_give_back(m, &out, &NONE), VMIG_OK);
    expect("a step", vmig_step(m, dev, pick, none, 0, &len), VMIG_COMPLETED);
    expect("its bytes", (uint64_t)memcmp(room + DATA, "sixteen letters.", 16), 0);
    expect("lend", vmig_lend(m, &out), VMIG_OK);
    expect("a line", vmig_lines(m), 1u << ENTROPY);
    expect("its reason", read_reg_of(m, ENTROPY, INTERRUPTS), 1);
    write_reg_of(m, ENTROPY, ACKNOWLEDGE, 1);
    expect("no line", vmig_lines(m), 0);
    expect("resize", vmig_resize(m, CONSOLE, columns, 50), VMIG_OK);
    expect("a line of the console", vmig_lines(m), 1u << CONSOLE);
    write_reg_of(m, CONSOLE, ACKNOWLEDGE, 2);
    expect("give back", vmig_give_back(m, &out, &NONE), VMIG_OK);
}

/* A guest that reboots does so while RAM is lent, and its driver begins anew. */
static void reset_lent(vmig_machine *m)
{
    vmig_ram out = VMIG_NO_RAM;
    size_t free = 0;

    expect("lend", vmig_lend(m, &out), VMIG_OK);
    put_in(m);
    expect("reset", vmig_reset(m), VMIG_OK);
    expect("no driver", read_reg_of(m, ENTROPY, STATUS), 0);
    expect("room", vmig_room(m, ENTROPY, &free), VMIG_OK);
    expect("for all", free, 4096);
    memset(room, 0, sizeof room);
    expect("give back", vmig_give_back(m, &out, &NONE), VMIG_OK);
    set_up_device(m, ENTROPY, 0, 1, 0);
    set_up_device(m, CONSOLE, 1, 2, SIZE_IS_TOLD);
    describe(m, 0, 0, DATA, 16, WRITABLE, 0);
    make_available(m, 0, 1, 0);
}

/* The machine is sent while its registers are written on lent RAM; what waits is taken meanwhile. Once stopped it takes no write. */
static void send_lent(vmig_machine *m)
{
    vmig_ram out = VMIG_NO_RAM;
    vmig_pages all = VMIG_ALL_PAGES;
    vmig_machine arrived = VMIG_NONE;
    uint64_t pages, sectors;
    uint32_t byte = 77, value = 77, rounds = 0;
    size_t len = 0, got = 0;

    expect("begin", vmig_send_begin(m), VMIG_OK);
    serve_lent(m, 120);
    expect("lend", vmig_lend(m, &out), VMIG_OK);
    write_reg_of(m, ENTROPY, QUEUE_SELECTED, 5);
    expect("take", vmig_send_take(m, stream, sizeof stream, &len), VMIG_OK);
    expect("the head of the stream", len > 0, 1);
    expect("give back", vmig_give_back(m, &out, &NONE), VMIG_OK);
    expect("mark", vmig_mark(m, &all), VMIG_OK);
    expect("stop", vmig_send_stop(m, &pages, &sectors), VMIG_OK);
    expect("a write of a stopped machine", vmig_reg_write(m, ENTROPY, QUEUE_SELECTED, 4, 0, &byte), VMIG_STOPPED);
    expect("a read of it", vmig_reg_read(m, ENTROPY, STATUS, 4, &value), VMIG_STOPPED);
    expect("both are as they were", byte == 77 && value == 77, 1);
    expect("no loan of it", vmig_lend(m, &out), VMIG_STOPPED);
    while (expect("take", vmig_send_take(m, stream + len, sizeof stream - len, &got), VMIG_OK), got > 0) len += got;
    expect("abort", vmig_send_abort(m), VMIG_OK);
    expect("receive", receive(stream, len, &arrived, &rounds), VMIG_OK);
    for (uint32_t off = 0; off < 0x120; off += 4)
        expect("the same register", read_reg_of(&arrived, ENTROPY, off), read_reg_of(m, ENTROPY, off));
    expect("none is ready", read_reg_of(m, ENTROPY, READY), 0);
    write_reg_of(m, ENTROPY, QUEUE_SELECTED, 0);
    expect("the queue that was selected before the stop is left", read_reg_of(m, ENTROPY, READY), 1);
    vmig_free(&arrived);
}

static void write_and_read(vmig_machine *m, uint8_t dev)
{
    uint32_t value = 0, byte = 0;

    for (uint32_t off = 0; off < 0x110; off += 4) {
        expect("read", vmig_reg_read(m, dev, off, 4, &value), VMIG_OK);
        if (off != STATUS) expect("write", vmig_reg_write(m, dev, off, 4, off == READY, &byte), VMIG_OK);
    }
}

/* All that is done while RAM is lent, with RAM that nobody can read. */
static void touch_nothing(vmig_machine *m, int is_sent)
{
    vmig_ram out = VMIG_NO_RAM;
    vmig_left left;
    size_t count = 0, got = 0;
    uint32_t pages[PAGES];
    uint8_t dev = 0, pick = 0;

    expect("lend", vmig_lend(m, &out), VMIG_OK);
    expect("no access", mprotect(out.at, out.len, PROT_NONE) == 0, 1);
    for (int times = 0; times < 2; times++) {
        for (uint8_t one = 0; one < 3; one++) write_and_read(m, one);
        write_reg_of(m, ENTROPY, NOTIFY, 0);
        put_in(m);
        expect("next", (uint64_t)vmig_refused(vmig_next(m, &dev, &pick)), 0);
        expect("room", vmig_room(m, CONSOLE, &count), VMIG_OK);
        expect("resize", vmig_resize(m, CONSOLE, (uint16_t)times, 1), VMIG_OK);
        expect("a lost disk", vmig_sync_failed(m, DISK), VMIG_OK);
        expect("described", description_of(m).lent, 1);
        expect("written", vmig_written(m, pages, PAGES, &count), VMIG_OK);
        expect("left", vmig_send_left(m, &left), is_sent ? VMIG_OK : VMIG_NOT_SENDING);
        expect("take", vmig_send_take(m, stream, 100, &got), is_sent ? VMIG_OK : VMIG_NOT_SENDING);
        expect("drop", vmig_drop(m, ENTROPY), VMIG_OK);
        expect("reset", vmig_reset(m), VMIG_OK);
        expect("lines", vmig_lines(m), 0);
    }
    expect("access", mprotect(out.at, out.len, PROT_READ | PROT_WRITE) == 0, 1);
    expect("give back", vmig_give_back(m, &out, &NONE), VMIG_OK);
}

static void touch_nothing_in_each_state(void)
{
    static const vmig_shape shapes[] = {{.kind = VMIG_ENTROPY}, {.kind = VMIG_CONSOLE}, {.kind = VMIG_BLOCK, .sectors = 1}};
    vmig_machine m = VMIG_NONE;
    vmig_setup setup = VMIG_SETUP;
    void *ram = mmap(NULL, sizeof room, PROT_READ | PROT_WRITE, MAP_PRIVATE | MAP_ANONYMOUS, -1, 0);

    if (ram == MAP_FAILED) exit(2);
    setup.ram = (vmig_ram){ram, sizeof room}, setup.shapes = shapes, setup.count = 3, setup.flags = VMIG_LOG;
    expect("make", vmig_make(&setup, &m), VMIG_OK);
    for (int is_sent = 0; is_sent < 2; is_sent++) {
        set_up_device(&m, ENTROPY, 0, 1, 0);
        touch_nothing(&m, is_sent);
        if (!is_sent) expect("begin", vmig_send_begin(&m), VMIG_OK);
    }
    vmig_free(&m);
    munmap(ram, sizeof room);
}

/* ---- disks outside ------------------------------------------------------------------------------------------------------------- */

enum { HEADER = 0x7000, VERDICT = 0x7800, ASKED = 4, WRITE_ZEROES = 1 << 14 };

/* The driver asks its disk for a read, a write, a clearing and a flush, of a sector of its own each. */
static void ask_four(vmig_machine *m)
{
    static const uint32_t types[ASKED] = {0, 1, 13, 4};

    set_up_with(m, 1, WRITE_ZEROES);
    for (uint32_t n = 0; n < ASKED; n++) {
        uint32_t header = HEADER + 0x40 * n, bytes = DATA + 0x400 * n, base = 3 * n, is_flush = types[n] == 4, is_clear = types[n] == 13;
        put(m, header, types[n], 8);
        put(m, header + 8, is_flush || is_clear ? 0 : n, 8);
        put(m, bytes, n, 8);
        put(m, bytes + 8, 1, 8);
        put(m, VERDICT + n, 0xff, 1);
        describe(m, 0, base, header, 16, HAS_NEXT, is_flush ? base + 2 : base + 1);
        describe(m, 0, base + 1, bytes, is_clear ? 16 : 512, HAS_NEXT | (types[n] == 0 ? WRITABLE : 0), base + 2);
        describe(m, 0, base + 2, VERDICT + n, 1, WRITABLE, 0);
        offer(m, 0, n + 1, base);
    }
    serve(m);
}

/* Calls of a disk outside are answered with RAM that nobody can read: all but a read, which waits, and is failed in the second round. */
static void answer_without_ram(vmig_machine *m, int fails)
{
    static uint8_t sector[512];
    vmig_call calls[ASKED], listed[ASKED];
    vmig_ram out = VMIG_NO_RAM;
    size_t count = 0;
    uint8_t dev = 0, pick = 0;

    ask_four(m);
    for (uint32_t n = 0; n < ASKED; n++) expect("a call", vmig_disk_call(m, &calls[n], sector, sizeof sector), VMIG_CALL);
    expect("lend", vmig_lend(m, &out), VMIG_OK);
    expect("no access", mprotect(out.at, out.len, PROT_NONE) == 0, 1);
    expect("those that are out", vmig_calls_out(m, listed, ASKED, &count), VMIG_OK);
    expect("are listed", count == ASKED && memcmp(listed, calls, sizeof calls) == 0, 1);
    expect("all wait for an answer", vmig_next(m, &dev, &pick), VMIG_IDLE);
    expect("a read", vmig_disk_done(m, calls[0].number, 1, sector, sizeof sector), VMIG_LENT);
    for (uint32_t n = 1; n < ASKED; n++) expect("done", vmig_disk_done(m, calls[n].number, calls[n].count, NULL, 0), VMIG_OK);
    if (fails) expect("failed", vmig_disk_failed(m, calls[0].number), VMIG_OK);
    expect("a step ends one", vmig_next(m, &dev, &pick), VMIG_WORK);
    expect("a lost disk", vmig_sync_failed(m, 0), VMIG_OK);
    expect("access", mprotect(out.at, out.len, PROT_READ | PROT_WRITE) == 0, 1);
    expect("give back", vmig_give_back(m, &out, &NONE), VMIG_OK);
    if (!fails) expect("a read", vmig_disk_done(m, calls[0].number, 1, sector, sizeof sector), VMIG_OK);
    serve(m);
    for (uint32_t n = 0; n < ASKED; n++) expect("its verdict", get(m, VERDICT + n, 1), fails && n == 0 ? 1 : 0);
}

static void answer_in_each_state(void)
{
    static const vmig_shape shape = {.kind = VMIG_BLOCK_OUTSIDE, .sectors = 8};

    for (int fails = 0; fails < 2; fails++) {
        vmig_machine m = VMIG_NONE;
        vmig_setup setup = VMIG_SETUP;
        void *ram = mmap(NULL, sizeof room, PROT_READ | PROT_WRITE, MAP_PRIVATE | MAP_ANONYMOUS, -1, 0);
        if (ram == MAP_FAILED) exit(2);
        setup.ram = (vmig_ram){ram, sizeof room}, setup.shapes = &shape, setup.count = 1;
        expect("make", vmig_make(&setup, &m), VMIG_OK);
        if (fails) expect("begin", vmig_send_begin(&m), VMIG_OK);
        answer_without_ram(&m, fails);
        vmig_free(&m);
        munmap(ram, sizeof room);
    }
}

int main(void)
{
    vmig_machine m = make_driven();

    serve_lent(&m, 100);
    reset_lent(&m);
    send_lent(&m);
    vmig_free(&m);
    touch_nothing_in_each_state();
    answer_in_each_state();
    return ended("while_lent");
}
