/* The code of docs/hosts/storage.md as it stands there: a disk on request, in a file that one thread reads and writes; and a guest. */
#define _XOPEN_SOURCE 700
#include <stdint.h>
#include <string.h>
#include <unistd.h>
#include "vmig.h"

enum { PAGES = 64, SECTOR = 512, SECTORS = 4096, BUFFER = 65536, STEPS_A_TURN = 1000 };

void set_lines(uint32_t lines);         /* at your interrupt controller: bit d is the level of the line of device d */

struct host {
    vmig_machine machine;
    vmig_turn turn;
    int file;
    int is_lost;                        /* a sync failed, which is for good */
};

/* The number of a machine's first call. Where threads make machines the counter is atomic. */
static uint64_t own_numbers(void)
{
    static uint64_t machines;

    return machines++ << 40;
}

static vmig_status make(struct host *h, int file)
{
    static const vmig_shape shapes[] = {{.kind = VMIG_BLOCK_OUTSIDE, .sectors = SECTORS}};
    vmig_setup setup = VMIG_SETUP;

    *h = (struct host){.machine = VMIG_NONE, .turn = VMIG_TURN, .file = file};
    setup.pages = PAGES, setup.shapes = shapes, setup.count = 1, setup.calls_from = own_numbers();
    return vmig_make(&setup, &h->machine);
}

/* Reads or writes, and returns how many bytes were done, from the first one on. */
static size_t transfer(int file, const vmig_call *call, uint8_t *bytes)
{
    size_t length = (size_t)call->count * SECTOR, done = 0;
    off_t at = (off_t)(call->first * SECTOR);

    while (done < length) {
        ssize_t part = call->what == VMIG_DISK_READ ? pread(file, bytes + done, length - done, at + (off_t)done)
                                                    : pwrite(file, bytes + done, length - done, at + (off_t)done);
        if (part <= 0) break;
        done += (size_t)part;
    }
    return done;
}

/* Where a sync fails the library is told, before any answer. */
static vmig_status sync_file(struct host *h, uint8_t dev)
{
    if (h->is_lost || fdatasync(h->file) == 0) return VMIG_OK;
    h->is_lost = 1;
    return vmig_sync_failed(&h->machine, dev);
}

/* Does what the disk is asked for, and answers: with as many sectors as were done, or that it failed. */
static vmig_status do_call(struct host *h, const vmig_call *call, uint8_t *bytes)
{
    uint32_t count = 0;
    vmig_status status = VMIG_OK;

    if (call->what == VMIG_DISK_CLEAR) memset(bytes, 0, (size_t)call->count * SECTOR);
    if (call->what != VMIG_DISK_FLUSH) count = (uint32_t)(transfer(h->file, call, bytes) / SECTOR);
    if (call->what == VMIG_DISK_FLUSH || call->durable) status = sync_file(h, call->dev);
    if (status != VMIG_OK) return status;
    if (call->what != VMIG_DISK_FLUSH && count == 0) return vmig_disk_failed(&h->machine, call->number);
    return vmig_disk_done(&h->machine, call->number, count, bytes, call->what == VMIG_DISK_READ ? (size_t)count * SECTOR : 0);
}

/* All that the disk is asked for: VMIG_IDLE at the end, and *count calls were answered. */
static vmig_status serve_disk(struct host *h, int *count)
{
    static uint8_t bytes[BUFFER];
    vmig_call call;
    vmig_status status;

    *count = 0;
    while ((status = vmig_disk_call(&h->machine, &call, bytes, sizeof bytes)) == VMIG_CALL) {
        status = do_call(h, &call, bytes);
        if (status != VMIG_OK) return status;
        *count += 1;
    }
    return status;
}

/* Turns of the devices, and their disk, until neither has anything to do, or the turn is over: the guest runs between two of them. */
static vmig_status do_work(struct host *h)
{
    vmig_turn *t = &h->turn;
    vmig_status status;
    int count;

    t->left = STEPS_A_TURN;
    do {
        do status = vmig_work(&h->machine, t, NULL, 0);
        while (status != VMIG_IDLE && status != VMIG_WORK && !vmig_refused(status));
        if (!vmig_refused(status)) status = serve_disk(h, &count);
    } while (status == VMIG_IDLE && count > 0 && t->left > 0);
    set_lines(vmig_lines(&h->machine));
    return status;
}

/* An exit of the guest for a register: off bytes from the beginning of the window of its device on. *value goes in, or comes out. */
static vmig_status answer_exit(struct host *h, int is_write, uint32_t off, uint8_t width, uint32_t *value)
{
    uint32_t byte;
    vmig_status status;

    if (!is_write) return vmig_reg_read(&h->machine, 0, off, width, value);
    status = vmig_reg_write(&h->machine, 0, off, width, *value, &byte);
    return status == VMIG_OK ? do_work(h) : status;
}

/* ---- the host's interrupt controller, and the guest ---- */
#include <stdlib.h>
#include "driver.h"

enum { HEADER = 0x7000, OUTCOME = 0x7100, READ = 0, WRITE = 1, FLUSH = 4, COUNT = 3, LENGTH = COUNT * SECTOR };

static uint32_t lines, offered;

void set_lines(uint32_t level)
{
    lines = level;
}

/* A request, from its offer to its end. Returns the status that the device wrote. */
static uint64_t request(struct host *h, uint32_t type, uint64_t sector)
{
    vmig_machine *m = &h->machine;
    uint32_t queue = 0;

    put(m, HEADER, type, 8);
    put(m, HEADER + 8, sector, 8);
    put(m, OUTCOME, 0xff, 1);
    describe(m, 0, 0, HEADER, 16, HAS_NEXT, type == FLUSH ? 2 : 1);
    describe(m, 0, 1, DATA, LENGTH, HAS_NEXT | (type == READ ? WRITABLE : 0), 2);
    describe(m, 0, 2, OUTCOME, 1, WRITABLE, 0);
    make_available(m, 0, ++offered, 0);
    expect("a kick, and the turn after it", answer_exit(h, 1, 0x050, 4, &queue), VMIG_IDLE);
    expect("its line", lines, 1);
    return get(m, OUTCOME, 1);
}

/* With the feature FLUSH, and without it: what was written is in the file. */
static void writes_and_reads(struct host *h, uint64_t sector, uint8_t byte)
{
    static uint8_t written[LENGTH], got[LENGTH];

    memset(written, byte, LENGTH);
    expect("put", vmig_ram_write(&h->machine, DATA, written, LENGTH), VMIG_OK);
    expect("a write", request(h, WRITE, sector), 0);
    expect("of the file", (uint64_t)pread(h->file, got, LENGTH, (off_t)(sector * SECTOR)), LENGTH);
    expect("its bytes", (uint64_t)memcmp(got, written, LENGTH), 0);
    memset(got, 0, LENGTH);
    expect("put", vmig_ram_write(&h->machine, DATA, got, LENGTH), VMIG_OK);
    expect("a read", request(h, READ, sector), 0);
    expect("its bytes", vmig_ram_read(&h->machine, DATA, got, LENGTH), VMIG_OK);
    expect("are the same", (uint64_t)memcmp(got, written, LENGTH), 0);
}

static void again(struct host *h, uint32_t features)
{
    set_up_with(&h->machine, 1, features);
    offered = 0;
    put(&h->machine, AVAIL + 2, 0, 2);
}

/* A file that cannot be synced: a pipe. The guest is told of no durable write any more, and reads as before. */
static void loses(struct host *h)
{
    int ends[2], file = h->file;

    if (pipe(ends) != 0) return;
    again(h, 1 << 9);
    writes_and_reads(h, 9, 3);
    h->file = ends[0];
    expect("a flush fails", request(h, FLUSH, 0), 1);
    h->file = file;
    expect("and each later one", request(h, FLUSH, 0), 1);
    expect("it is lost", description_of(&h->machine).lost, 1);
    expect("a read", request(h, READ, 9), 0);
    close(ends[0]);
    close(ends[1]);
}

int main(void)
{
    char name[] = "/tmp/vmig-pages-storage-XXXXXX";
    int file = mkstemp(name);
    uint32_t kind = 77;
    struct host h;

    if (file < 0 || unlink(name) != 0 || ftruncate(file, SECTORS * SECTOR) != 0) {
        puts("pages/storage: there is no file to be had");
        return 0;
    }
    expect("make", make(&h, file), VMIG_OK);
    expect("a read", answer_exit(&h, 0, 0x008, 4, &kind), VMIG_OK);
    expect("a block device", kind, 2);
    again(&h, 0);
    writes_and_reads(&h, 5, 1);
    again(&h, 1 << 9);
    writes_and_reads(&h, 5, 2);
    expect("a flush", request(&h, FLUSH, 0), 0);
    loses(&h);
    vmig_free(&h.machine);
    close(file);
    return ended("pages/storage");
}
