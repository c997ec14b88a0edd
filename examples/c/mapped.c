/* A disk in a file that is mapped: a machine is made over it, a driver writes a sector, and the file has it, before the driver is told
 * that it is there for good. Where the file could not be written once the disk is lost: each later flush of the driver ends with an
 * error, and a write of a driver without the feature FLUSH does not end, while the other devices go on. */
#define _POSIX_C_SOURCE 200809L
#include <stdlib.h>
#include <string.h>
#include <sys/mman.h>
#include <unistd.h>
#include "driver.h"

enum { HEADER = 0x7000, OUTCOME = 0x7100, WRITE = 1, FLUSH = 4, FLUSH_FEATURE = 1 << 9, SECTORS = 3, SECTOR = 512, LENGTH = SECTORS * SECTOR };

/* How often the disk's bytes were brought to the file, by msync; and how often that still fails, as on a disk that is full. After it
 * failed once it would do, as on Linux, though the bytes are lost. */
static int brought, failing;

static int bring(uint8_t *at)
{
    if (failing > 0) {
        failing--;
        return -1;
    }
    brought++;
    return msync(at, LENGTH, MS_SYNC);
}

/* What is said of the next step of the first request: VMIG_WORK, or VMIG_SYNC, or VMIG_IDLE where it is not named. */
static vmig_status said_of_request(const vmig_machine *m)
{
    uint8_t dev = 0, pick = 0;
    vmig_status status = vmig_next(m, &dev, &pick);

    return dev == 0 && pick == 1 ? status : VMIG_IDLE;
}

/* A step of the first request. The file has what the driver takes for durable once the step is made; else the disk is lost. */
static vmig_status make_step(vmig_machine *m, uint8_t *at)
{
    uint32_t len = 77;
    uint8_t none[1];

    if (said_of_request(m) == VMIG_SYNC && bring(at) != 0) expect("it is lost", vmig_sync_failed(m, 0), VMIG_OK);
    return vmig_step(m, 0, 1, none, 0, &len);
}

/* The steps of one request, whose first unit is made with this status. */
static void do_request(vmig_machine *m, uint8_t *at, vmig_status wanted)
{
    uint32_t len = 77;
    uint8_t none[1];

    expect("taken", vmig_step(m, 0, 0, none, 0, &len), VMIG_TAKEN);
    expect("its unit", make_step(m, at), wanted);
    expect("completed", make_step(m, at), VMIG_COMPLETED);
    expect("no request is left", said_of_request(m), VMIG_IDLE);
}

/* The driver asks for a write of one sector, as its `count`-th request. */
static void ask_write(vmig_machine *m, uint32_t count, uint64_t sector, const uint8_t *bytes)
{
    expect("put", vmig_ram_write(m, DATA, bytes, SECTOR), VMIG_OK);
    put(m, HEADER, WRITE, 4);
    put(m, HEADER + 4, 0, 4);
    put(m, HEADER + 8, sector, 8);
    put(m, OUTCOME, 0xff, 1);
    describe(m, 0, 0, HEADER, 16, HAS_NEXT, 1);
    describe(m, 0, 1, DATA, SECTOR, HAS_NEXT, 2);
    describe(m, 0, 2, OUTCOME, 1, WRITABLE, 0);
    offer(m, 0, count, 0);
}

/* Such a write. Returns the status that the device wrote. */
static uint64_t write_sector(vmig_machine *m, uint32_t count, uint64_t sector, const uint8_t *bytes, uint8_t *at)
{
    ask_write(m, count, sector, bytes);
    do_request(m, at, VMIG_MOVED);
    return get(m, OUTCOME, 1);
}

/* The driver asks for a flush, as its `count`-th request. */
static void ask_flush(vmig_machine *m, uint32_t count)
{
    put(m, HEADER, FLUSH, 4);
    put(m, OUTCOME, 0xff, 1);
    describe(m, 0, 0, HEADER, 16, HAS_NEXT, 1);
    describe(m, 0, 1, OUTCOME, 1, WRITABLE, 0);
    offer(m, 0, count, 0);
}

/* A flush, whose unit is made with this status. Returns the status that the device wrote. */
static uint64_t flush(vmig_machine *m, uint32_t count, uint8_t *at, vmig_status wanted)
{
    ask_flush(m, count);
    do_request(m, at, wanted);
    return get(m, OUTCOME, 1);
}

/* A driver without the feature FLUSH takes each write for durable when it ends; one with it takes what it wrote for durable when a
 * flush ends. */
static void is_durable(vmig_machine *m, const uint8_t *bytes, uint8_t *at)
{
    set_up(m, 1);
    brought = 0;
    expect("write", write_sector(m, 1, 2, bytes, at), 0);
    expect("it was brought to the file", (uint64_t)brought, 1);
    set_up_with(m, 1, FLUSH_FEATURE);
    put(m, AVAIL + 2, 0, 2);
    expect("write", write_sector(m, 1, 2, bytes, at), 0);
    expect("it may wait", (uint64_t)brought, 1);
    expect("flush", flush(m, 2, at, VMIG_MOVED), 0);
    expect("it was brought to the file", (uint64_t)brought, 2);
    expect("no disk is lost", description_of(m).lost, 0);
}

/* A flush that failed moves with its machine: it ends with an error there, and here where the machine stays. That the disk is lost does
 * not move: what arrives has another. */
static void moves_failed(vmig_machine *m, uint32_t count)
{
    static uint8_t stream[1 << 17];
    vmig_machine other = VMIG_NONE;
    uint64_t pages = 0, sectors = 0;
    uint32_t len = 77, rounds = 0;
    size_t got = 0;
    uint8_t none[1];

    expect("begin", vmig_send_begin(m), VMIG_OK);
    ask_flush(m, count);
    expect("taken", vmig_step(m, 0, 0, none, 0, &len), VMIG_TAKEN);
    expect("no sync is asked for", said_of_request(m), VMIG_WORK);
    expect("it fails", vmig_step(m, 0, 1, none, 0, &len), VMIG_DISK_FAILED);
    expect("stop", vmig_send_stop(m, &pages, &sectors), VMIG_OK);
    expect("take", vmig_send_take(m, stream, sizeof stream, &got), VMIG_OK);
    expect("receive", receive(stream, got, &other, &rounds), VMIG_OK);
    expect("completed", vmig_step(&other, 0, 1, none, 0, &len), VMIG_COMPLETED);
    expect("with an error", get(&other, OUTCOME, 1), 1);
    ask_flush(&other, count + 1);
    expect("taken", vmig_step(&other, 0, 0, none, 0, &len), VMIG_TAKEN);
    expect("that disk is not lost", description_of(&other).lost, 0);
    expect("so a sync is asked for", said_of_request(&other), VMIG_SYNC);
    vmig_free(&other);
    expect("abort", vmig_send_abort(m), VMIG_OK);
    expect("completed", vmig_step(m, 0, 1, none, 0, &len), VMIG_COMPLETED);
    expect("with an error", get(m, OUTCOME, 1), 1);
}

/* The driver has no feature FLUSH, and a write that is done does not end, however often it is tried. */
static void does_not_end(vmig_machine *m)
{
    uint32_t len = 77;
    uint8_t none[1];

    for (int i = 0; i < 3; i++) {
        expect("its end is not named", said_of_request(m), VMIG_IDLE);
        expect("nor made", vmig_step(m, 0, 1, none, 0, &len), VMIG_IDLE);
        expect("the driver knows of no end", get(m, OUTCOME, 1), 0xff);
        expect("nor is there a length", len, 77);
    }
}

/* The guest's driver has no feature FLUSH, and writes a sector: its write does not end. */
static void writes_in_vain(vmig_machine *m, const uint8_t *bytes, uint8_t *at)
{
    uint32_t len = 77;
    uint8_t none[1];

    set_up(m, 1);
    put(m, AVAIL + 2, 0, 2);
    ask_write(m, 1, 2, bytes);
    expect("taken", vmig_step(m, 0, 0, none, 0, &len), VMIG_TAKEN);
    expect("written", make_step(m, at), VMIG_MOVED);
    does_not_end(m);
}

/* Its driver has it. */
static void flushes_in_vain(vmig_machine *m, uint8_t *at)
{
    set_up_with(m, 1, FLUSH_FEATURE);
    put(m, AVAIL + 2, 0, 2);
    expect("a flush", flush(m, 1, at, VMIG_DISK_FAILED), 1);
}

/* The file cannot be written once. It is never brought there again, and each later flush ends with an error: while the machine is
 * sent, after that, and after a reset by the driver, or of the whole guest. */
static void fails(vmig_machine *m, const uint8_t *bytes, uint8_t *at)
{
    brought = 0;
    failing = 1;
    expect("a flush that fails", flush(m, 3, at, VMIG_DISK_FAILED), 1);
    expect("bring would do now", (uint64_t)failing, 0);
    expect("the driver repeats it", flush(m, 4, at, VMIG_DISK_FAILED), 1);
    expect("write", write_sector(m, 5, 2, bytes, at), 0);
    expect("and after a write", flush(m, 6, at, VMIG_DISK_FAILED), 1);
    expect("begin", vmig_send_begin(m), VMIG_OK);
    expect("copy", vmig_send_some(m, 1), VMIG_OK);
    expect("while it is sent", flush(m, 7, at, VMIG_DISK_FAILED), 1);
    expect("abort", vmig_send_abort(m), VMIG_OK);
    expect("and after that", flush(m, 8, at, VMIG_DISK_FAILED), 1);
    moves_failed(m, 9);
    flushes_in_vain(m, at);
    writes_in_vain(m, bytes, at);
    expect("the guest reboots", vmig_reset(m), VMIG_OK);
    flushes_in_vain(m, at);
    expect("the guest reboots", vmig_reset(m), VMIG_OK);
    writes_in_vain(m, bytes, at);
    expect("told again", vmig_sync_failed(m, 0), VMIG_OK);
    expect("it is lost", description_of(m).lost, 1);
    expect("nothing was brought", (uint64_t)brought, 0);
    expect("no such device", vmig_sync_failed(m, 2), VMIG_NO_DEVICE);
    expect("a device without a disk", vmig_sync_failed(m, 1), VMIG_WRONG_KIND);
}

/* A sync of the host's own failed, without a step: the disk is lost all the same. */
static void fails_between(const vmig_shape *shapes, uint8_t *at)
{
    vmig_machine m = VMIG_NONE;
    vmig_image image = {at, SECTORS}, back = VMIG_NO_IMAGE;

    expect("make", make_mapped(16, shapes, 2, &image, 1, &m), VMIG_OK);
    set_up_with(&m, 1, FLUSH_FEATURE);
    failing = 0;
    expect("without a step", vmig_sync_failed(&m, 0), VMIG_OK);
    expect("flush", flush(&m, 1, at, VMIG_DISK_FAILED), 1);
    expect("release", vmig_release(&m, &back, 1), VMIG_OK);
}

static uint8_t buf[VMIG_SENT_MAX];

/* A turn of the devices, until none has work. Returns the number of messages that were handed on. */
static uint32_t do_work(vmig_machine *m, uint8_t *at)
{
    static vmig_turn turn = VMIG_TURN;
    vmig_status status;
    uint32_t messages = 0;

    turn.left = 1000;
    do {
        status = vmig_work(m, &turn, buf, sizeof buf);
        if (status == VMIG_SENT) messages++;
        if (status == VMIG_SYNC && bring(at) != 0) status = vmig_sync_failed(m, turn.dev);
        else if (status == VMIG_SYNC) status = vmig_step(m, turn.dev, turn.pick, buf, sizeof buf, &turn.len);
    } while (status != VMIG_IDLE && status != VMIG_WORK && !vmig_refused(status));
    expect("no work is left", status, VMIG_IDLE);
    return messages;
}

/* The msync at the end of a write fails, where the driver has no feature FLUSH: the write never ends, and the messages of the console
 * beside it go on. */
static void console_goes_on(const uint8_t *bytes, uint8_t *at)
{
    static const vmig_shape shapes[] = {{.kind = VMIG_BLOCK, .sectors = SECTORS}, {.kind = VMIG_CONSOLE}};
    enum { MESSAGE = 0x9000 };
    vmig_machine m = VMIG_NONE;
    vmig_image image = {at, SECTORS}, back = VMIG_NO_IMAGE;

    expect("make", make_mapped(16, shapes, 2, &image, 1, &m), VMIG_OK);
    set_up(&m, 1);
    set_up_device(&m, 1, 1, 2, 0);
    describe(&m, 2, 0, MESSAGE, 5, 0, 0);
    failing = 1;
    ask_write(&m, 1, 2, bytes);
    for (uint32_t count = 1; count <= 3; count++) {
        make_available(&m, 2, count, 0);
        write_reg_of(&m, 1, 0x050, 1);
        expect("its message", do_work(&m, at), 1);
        expect("the write does not end", get(&m, OUTCOME, 1), 0xff);
    }
    does_not_end(&m);
    expect("release", vmig_release(&m, &back, 1), VMIG_OK);
}

static void refuses(const vmig_shape *shapes, uint8_t *at)
{
    vmig_machine m = VMIG_NONE;
    vmig_image few = {at, SECTORS - 1}, right = {at, SECTORS}, none = VMIG_NO_IMAGE;

    expect("a sector too few", make_mapped(16, shapes, 2, &few, 1, &m), VMIG_BAD_IMAGES);
    expect("no image", make_mapped(16, shapes, 2, &none, 1, &m), VMIG_BAD_IMAGES);
    expect("a slot too many", make_mapped(16, shapes, 2, (vmig_image[]){right, VMIG_NO_IMAGE}, 2, &m), VMIG_BAD_IMAGES);
    expect("no pages", make_mapped(0, shapes, 2, &right, 1, &m), VMIG_BAD_RAM);
    expect("nothing taken", right.sectors, SECTORS);
    expect("and where it was", right.at == at, 1);
}

/* Frees the machine, and checks that the image comes back. */
static void gives_back(vmig_machine *m, uint8_t *at)
{
    vmig_image slots[] = {VMIG_NO_IMAGE, VMIG_NO_IMAGE}, full = {at, SECTORS};

    expect("a slot that is not free", vmig_release(m, &full, 1), VMIG_BAD_IMAGES);
    expect("no slot", vmig_release(m, slots, 0), VMIG_TOO_SMALL);
    expect("release", vmig_release(m, slots, 2), VMIG_OK);
    expect("its sectors", slots[0].sectors, SECTORS);
    expect("where they were", slots[0].at == at, 1);
    expect("and no more", slots[1].sectors, 0);
    expect("no machine", vmig_release(m, slots, 2), VMIG_NO_MACHINE);
}

/* A machine over the mapped file, whose guest writes a sector. */
static void runs(const vmig_shape *shapes, uint8_t *at, const uint8_t *written)
{
    vmig_machine m = VMIG_NONE;
    vmig_image image = {at, SECTORS};
    uint8_t got[SECTOR];

    expect("make", make_mapped(16, shapes, 2, &image, 1, &m), VMIG_OK);
    expect("taken", image.sectors, 0);
    expect("made already", make_mapped(16, shapes, 2, &image, 1, &m), VMIG_IN_USE);
    expect("sector", vmig_sector_read(&m, 0, 1, got), VMIG_OK);
    expect("of the file", got[0], 41);
    is_durable(&m, written, at);
    fails(&m, written, at);
    expect("sector", vmig_sector_read(&m, 0, 2, got), VMIG_OK);
    expect("as it was written", (uint64_t)memcmp(got, written, SECTOR), 0);
    gives_back(&m, at);
}

/* Two disks, and a machine that is being sent: the images come back all the same, in the order of the devices. A machine whose
 * disks lie in memory of the library has none to give. */
static void gives_two_back(uint8_t *at)
{
    static const vmig_shape shapes[] = {
        {.kind = VMIG_BLOCK, .sectors = 1},
        {.kind = VMIG_CONSOLE},
        {.kind = VMIG_BLOCK, .sectors = 2},
    };
    vmig_machine m = VMIG_NONE, own = VMIG_NONE;
    vmig_image images[] = {{at, 1}, {at + SECTOR, 2}, VMIG_NO_IMAGE};
    vmig_image turned[] = {{at + SECTOR, 2}, {at, 1}};

    expect("another order", make_mapped(1, shapes, 3, turned, 2, &m), VMIG_BAD_IMAGES);
    expect("make", make_mapped(1, shapes, 3, images, 2, &m), VMIG_OK);
    expect("begin", vmig_send_begin(&m), VMIG_OK);
    expect("copy", vmig_send_some(&m, 1), VMIG_OK);
    expect("slots that are needed", description_of(&m).images, 2);
    expect("too few slots", vmig_release(&m, images, 1), VMIG_TOO_SMALL);
    expect("release", vmig_release(&m, images, 3), VMIG_OK);
    expect("the first", images[0].at == at && images[0].sectors == 1, 1);
    expect("the second", images[1].at == at + SECTOR && images[1].sectors == 2, 1);
    expect("no third", images[2].sectors, 0);

    expect("make its own", make_new(1, shapes, 3, &own), VMIG_OK);
    expect("no slot is needed", description_of(&own).images, 0);
    expect("and none is filled", vmig_release(&own, &images[2], 1), VMIG_OK);
    expect("no image", images[2].at == NULL && images[2].sectors == 0, 1);
    expect("it is gone", own.at == NULL, 1);
}

int main(void)
{
    static const vmig_shape shapes[] = {{.kind = VMIG_BLOCK, .sectors = SECTORS}, {.kind = VMIG_ENTROPY}};
    static uint8_t first[LENGTH], written[SECTOR], back[LENGTH];
    char name[] = "/tmp/vmig-mapped-XXXXXX";
    int file = mkstemp(name);
    uint8_t *at;

    for (size_t i = 0; i < LENGTH; i++) first[i] = (uint8_t)(40 + i / SECTOR);
    memset(written, 0x5a, sizeof written);
    expect("file", (uint64_t)write(file, first, LENGTH), LENGTH);
    at = mmap(NULL, LENGTH, PROT_READ | PROT_WRITE, MAP_SHARED, file, 0);
    expect("mapped", at != MAP_FAILED, 1);
    refuses(shapes, at);
    runs(shapes, at, written);
    fails_between(shapes, at);
    console_goes_on(written, at);
    gives_two_back(at);
    expect("msync", (uint64_t)msync(at, LENGTH, MS_SYNC), 0);
    expect("unmapped", (uint64_t)munmap(at, LENGTH), 0);

    expect("the file's length", (uint64_t)pread(file, back, LENGTH, 0), LENGTH);
    expect("what was not written", (uint64_t)memcmp(back, first, 2 * SECTOR), 0);
    expect("what was", (uint64_t)memcmp(back + 2 * SECTOR, written, SECTOR), 0);
    close(file);
    unlink(name);
    return ended("mapped");
}
