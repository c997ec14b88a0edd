/* A disk outside of the machine: the program is asked for its sectors, and reads and writes them in a file. A driver without the feature FLUSH writes
 * two sectors, which have to be in storage before it is told so; it reads them back; and it reads where the file fails. Then the machine is saved,
 * without a sector, once the file is durable, and the driver of the one that arrives reads the same. At last the file cannot be made durable any
 * more: from then on no write is told done, and sectors are read as before; so it is too where the machine goes on, whose host is told. */
#define _XOPEN_SOURCE 700
#include <stdlib.h>
#include <string.h>
#include <unistd.h>
#include "driver.h"

enum { HEADER = 0x7000, OUTCOME = 0x7100, READ = 0, WRITE = 1, SECTOR = 512, SECTORS = 2048, COUNT = 2, LENGTH = COUNT * SECTOR, ERROR = 1 };

/* A machine and its storage. `syncs` stands for the file where it is made durable: here it may be broken without breaking the file. */
typedef struct {
    vmig_machine machine;
    int file, syncs;
    int is_lost;                        /* a sync failed, for good */
    uint32_t offered;                   /* requests of the driver */
} host;

/* The number of the first call of one more machine: no two of this process have one in common, so no answer goes to another one. Where machines are
 * made by threads the counter is atomic. */
static uint64_t own_numbers(void)
{
    static uint64_t machines;

    return machines++ << 40;
}

/* How many bytes of a piece were read or written, from the first on: a short read or write is a part of what was asked for. */
static size_t transfer(int file, const vmig_call *call, uint8_t *bytes)
{
    size_t length = (size_t)call->count * SECTOR, done = 0;
    off_t at = (off_t)(call->first * SECTOR);

    while (done < length) {
        ssize_t part = call->what == VMIG_DISK_READ ? pread(file, bytes + done, length - done, at + (off_t)done)
                                                    : pwrite(file, bytes + done, length - done, at + (off_t)done);
        if (part <= 0) break;
        done += (size_t)part;
    }
    return done;
}

/* Makes what was written durable. Where that fails the disk is lost: the library is told before any answer, and a sync is never tried again. */
static void make_durable(host *h)
{
    if (h->is_lost || fdatasync(h->syncs) == 0) return;
    h->is_lost = 1;
    expect("lost", vmig_sync_failed(&h->machine, 0), VMIG_OK);
}

/* Does what the disk is asked for. Returns how many sectors were done, of a flush 1; 0 is a failure. Of a disk that is lost no answer of a flush or
 * of a durable write counts as done. */
static uint32_t do_call(host *h, const vmig_call *call, uint8_t *bytes)
{
    uint32_t count = 1;

    if (call->what == VMIG_DISK_CLEAR) memset(bytes, 0, (size_t)call->count * SECTOR);
    if (call->what != VMIG_DISK_FLUSH) count = (uint32_t)(transfer(h->file, call, bytes) / SECTOR);
    if (call->what == VMIG_DISK_FLUSH || call->durable) make_durable(h);
    return count;
}

/* After each turn of the devices: all that the disks are asked for, one call after another. A turn ends what was answered. */
static void serve_disks(host *h)
{
    static uint8_t bytes[65536];
    vmig_call call;

    while (vmig_disk_call(&h->machine, &call, bytes, sizeof bytes) == VMIG_CALL) {
        uint32_t count = do_call(h, &call, bytes);
        size_t len = call.what == VMIG_DISK_READ ? (size_t)count * SECTOR : 0;

        if (count == 0) expect("failed", vmig_disk_failed(&h->machine, call.number), VMIG_OK);
        else expect("done", vmig_disk_done(&h->machine, call.number, call.what == VMIG_DISK_FLUSH ? 0 : count, bytes, len), VMIG_OK);
    }
}

/* One request of two sectors, from its offer to its end. Returns the status that the device wrote. */
static uint64_t request(host *h, uint32_t type, uint64_t sector)
{
    vmig_machine *m = &h->machine;
    uint8_t dev = 0, pick = 0;

    put(m, HEADER, type, 8);
    put(m, HEADER + 8, sector, 8);
    put(m, OUTCOME, 0xff, 1);
    describe(m, 0, 0, HEADER, 16, HAS_NEXT, 1);
    describe(m, 0, 1, DATA, LENGTH, HAS_NEXT | (type == READ ? WRITABLE : 0), 2);
    describe(m, 0, 2, OUTCOME, 1, WRITABLE, 0);
    offer(m, 0, ++h->offered, 0);
    serve(m);
    expect("it waits for the disk", get(m, OUTCOME, 1), 0xff);
    expect("which is to be asked", vmig_next(m, &dev, &pick), VMIG_CALL);
    serve_disks(h);
    serve(m);
    return get(m, OUTCOME, 1);
}

static void reads_back(host *h, const uint8_t *written)
{
    uint8_t back[LENGTH] = {0};

    expect("clear", vmig_ram_write(&h->machine, DATA, back, LENGTH), VMIG_OK);
    expect("read", request(h, READ, 7), 0);
    expect("its bytes", vmig_ram_read(&h->machine, DATA, back, LENGTH), VMIG_OK);
    expect("those that were written", (uint64_t)memcmp(back, written, LENGTH), 0);
}

/* The machine is saved, and goes on elsewhere over the same file: an arrival has to allow a disk outside. The saved bytes are good once the file is
 * durable: what was answered and lies in a cache no guest will write again. That a disk is lost is in no stream, so it is said beside it. */
static void continue_elsewhere(host *h)
{
    static uint8_t stream[100000];
    vmig_arrival arrival = VMIG_ARRIVAL;
    vmig_machine other = VMIG_NONE;
    size_t len = 0;

    expect("save", vmig_save(&h->machine, stream, sizeof stream, &len), VMIG_OK);
    make_durable(h);
    vmig_free(&h->machine);
    arrival.most_pages = 16, arrival.most_outside = SECTORS, arrival.calls_from = own_numbers();
    expect("arrive", vmig_arrive(&arrival, &other), VMIG_OK);
    expect("all of it", vmig_feed(&other, stream, len), VMIG_WHOLE);
    expect("finish", vmig_finish(&other), VMIG_OK);
    if (h->is_lost) expect("it is lost here too", vmig_sync_failed(&other, 0), VMIG_OK);
    h->machine = other;
}

/* The file can be written, and made durable no more. */
static void lose(host *h)
{
    int ends[2];

    if (pipe(ends) != 0) return;
    h->syncs = ends[0];
    expect("no write is told done", request(h, WRITE, 7), ERROR);
    expect("for the disk is lost", description_of(&h->machine).lost, 1);
    expect("nor is a later one", request(h, WRITE, 9), ERROR);
    close(ends[0]);
    close(ends[1]);
}

static void make(host *h)
{
    static const vmig_shape shapes[] = {{.kind = VMIG_BLOCK_OUTSIDE, .sectors = SECTORS, .id = "a disk in a file"}};
    vmig_setup setup = VMIG_SETUP;

    setup.pages = 16, setup.shapes = shapes, setup.count = 1, setup.calls_from = own_numbers();
    expect("make", vmig_make(&setup, &h->machine), VMIG_OK);
    expect("sectors", read_reg(&h->machine, 0x100), SECTORS);
    set_up(&h->machine, 1);
}

int main(void)
{
    char name[] = "/tmp/vmig-on-request-XXXXXX";
    int file = mkstemp(name);
    host h = {.machine = VMIG_NONE, .file = file, .syncs = file};
    uint8_t written[LENGTH], in_file[LENGTH];

    if (file < 0 || unlink(name) != 0 || ftruncate(file, (SECTORS - 1) * SECTOR) != 0) {
        puts("on_request: there is no file to be had");
        return 0;
    }
    for (size_t i = 0; i < LENGTH; i++) written[i] = (uint8_t)(11 * i + 3);
    make(&h);
    expect("put", vmig_ram_write(&h.machine, DATA, written, LENGTH), VMIG_OK);
    expect("write", request(&h, WRITE, 7), 0);
    expect("the file has it", (uint64_t)pread(file, in_file, LENGTH, 7 * SECTOR), LENGTH);
    expect("byte for byte", (uint64_t)memcmp(in_file, written, LENGTH), 0);
    reads_back(&h, written);
    expect("the file ends before the disk", request(&h, READ, SECTORS - COUNT), ERROR);
    continue_elsewhere(&h);
    reads_back(&h, written);
    lose(&h);
    continue_elsewhere(&h);
    expect("it stays lost", request(&h, WRITE, 7), ERROR);
    reads_back(&h, written);
    vmig_free(&h.machine);
    close(file);
    return ended("on_request");
}
