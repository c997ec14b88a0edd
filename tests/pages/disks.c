/* The code of docs/hosts/disks.md as it stands there: a disk in a file that is mapped, whose guest writes and flushes; the host that it moves to; and
 * files that cannot be synced. */
#define _XOPEN_SOURCE 700
#include <fcntl.h>
#include <stddef.h>
#include <stdint.h>
#include <sys/mman.h>
#include <unistd.h>
#include "vmig.h"

enum { DISK, DEVICES };
enum { PAGES = 64, SECTORS = 2048, BYTES = SECTORS * 512, STEPS_A_TURN = 1000 };

/* What your host has beside this. */
void set_lines(uint32_t lines);                     /* bit d is the level of the line of device d */
void say(const char *what);                         /* to its operator */
int sync_image(const vmig_image *image);            /* msync(image->at, BYTES, MS_SYNC) == 0 */

struct host {
    vmig_machine machine;
    vmig_turn turn;
    vmig_image disk;
    int has_ended;                  /* the guest must not run any more */
};

/* A file as a disk. It has storage for each of its bytes before it is mapped. No sectors: that failed. */
static vmig_image map_disk(int file)
{
    void *at = MAP_FAILED;

    if (posix_fallocate(file, 0, BYTES) == 0) at = mmap(NULL, BYTES, PROT_READ | PROT_WRITE, MAP_SHARED, file, 0);
    return at == MAP_FAILED ? (vmig_image)VMIG_NO_IMAGE : (vmig_image){at, SECTORS};
}

/* Without a disk this is refused. */
static vmig_status make(struct host *h, int file)
{
    static const vmig_shape shapes[DEVICES] = {[DISK] = {.kind = VMIG_BLOCK, .sectors = SECTORS}};
    vmig_image image = map_disk(file);
    vmig_setup setup = VMIG_SETUP;

    *h = (struct host){.machine = VMIG_NONE, .turn = VMIG_TURN, .disk = image};
    setup.pages = PAGES, setup.shapes = shapes, setup.count = DEVICES;
    setup.images = &image, setup.count_images = 1;
    return vmig_make(&setup, &h->machine);
}

/* Makes the step that was passed over: it makes a flush, or ends a write that its driver then takes for durable, so the disk is brought to its
 * file before. Where that fails the disk is lost: the guest's flush ends with an error, now and later. Such a write cannot fail any more, and
 * does not end: the guest ends. */
static vmig_status sync_and_step(struct host *h)
{
    vmig_turn *t = &h->turn;
    int is_lost = !sync_image(&h->disk);
    vmig_status status = VMIG_OK;

    if (is_lost) status = vmig_sync_failed(&h->machine, t->dev);
    if (status == VMIG_OK) status = vmig_step(&h->machine, t->dev, t->pick, NULL, 0, &t->len);
    if (is_lost && status == VMIG_IDLE) h->has_ended = 1;
    if (is_lost) say("each flush of this disk fails from now on: move the guest soon, or end it");
    return status;
}

/* The devices' turn, with every vCPU outside. Where h->has_ended is set the guest does not run again. */
static vmig_status do_work(struct host *h)
{
    vmig_turn *t = &h->turn;
    vmig_status status;

    t->left = STEPS_A_TURN;
    do {
        status = vmig_work(&h->machine, t, NULL, 0);
        if (status == VMIG_SYNC) status = sync_and_step(h);
    } while (status != VMIG_IDLE && status != VMIG_WORK && !vmig_refused(status) && !h->has_ended);
    set_lines(vmig_lines(&h->machine));
    return status == VMIG_NO_MEMORY ? vmig_next(&h->machine, &t->dev, &t->pick) : status;
}

/* A machine with this disk will arrive, and its sectors go to this file as they come. vmig_feed comes after it. */
static vmig_status let_arrive(struct host *h, int file)
{
    vmig_image image = map_disk(file);
    vmig_arrival arrival = VMIG_ARRIVAL;

    *h = (struct host){.machine = VMIG_NONE, .turn = VMIG_TURN, .disk = image};
    arrival.most_pages = PAGES, arrival.images = &image, arrival.count_images = 1;
    return vmig_arrive(&arrival, &h->machine);
}

/* After VMIG_WHOLE: 1 where the machine may run here, and the source is told so. Else it is freed, and the source continues. folder is that of
 * the file, where the file is new. */
static int finish(struct host *h, int folder)
{
    if (vmig_finish(&h->machine) == VMIG_OK && sync_image(&h->disk) && (folder < 0 || fsync(folder) == 0)) return 1;
    vmig_free(&h->machine);
    return 0;
}

/* ---- the host's own parts, and the guest ---- */
#include <stdlib.h>
#include "driver.h"

enum { HEADER = 0x7000, OUTCOME = 0x7100, WRITE = 1, FLUSH = 4, SECTOR = 5, HAS_FLUSH = 1 << 9 };

static uint32_t lines, offered;
static int fails, syncs, said;

void set_lines(uint32_t level)
{
    lines = level;
}

void say(const char *what)
{
    said += what != NULL;
}

int sync_image(const vmig_image *image)
{
    syncs++;
    return !fails && msync(image->at, BYTES, MS_SYNC) == 0;
}

/* A request, from its offer to the end of the turn. Returns the status that the device wrote, or 0xff where it has not ended. */
static uint64_t request(struct host *h, uint32_t type, uint8_t byte)
{
    vmig_machine *m = &h->machine;
    uint8_t bytes[512];

    memset(bytes, byte, sizeof bytes);
    expect("put", vmig_ram_write(m, DATA, bytes, sizeof bytes), VMIG_OK);
    put(m, HEADER, type, 8);
    put(m, HEADER + 8, type == WRITE ? SECTOR : 0, 8);
    put(m, OUTCOME, 0xff, 1);
    describe(m, 0, 0, HEADER, 16, HAS_NEXT, type == FLUSH ? 2 : 1);
    describe(m, 0, 1, DATA, 512, HAS_NEXT, 2);
    describe(m, 0, 2, OUTCOME, 1, WRITABLE, 0);
    offer(m, 0, ++offered, 0);
    expect("a turn", (uint64_t)vmig_refused(do_work(h)), 0);
    return get(m, OUTCOME, 1);
}

static void again(struct host *h, uint32_t features)
{
    set_up_with(&h->machine, 1, features);
    offered = 0;
    put(&h->machine, AVAIL + 2, 0, 2);
}

static uint64_t byte_of(int file)
{
    uint8_t byte = 0;

    expect("a byte of the file", (uint64_t)pread(file, &byte, 1, SECTOR * 512), 1);
    return byte;
}

/* A driver that accepts FLUSH waits for a sync at its flushes alone, and another one at each write. */
static void serves(struct host *h, int file)
{
    again(h, HAS_FLUSH);
    expect("a write", request(h, WRITE, 0x31), 0);
    expect("no sync", (uint64_t)syncs, 0);
    expect("a flush", request(h, FLUSH, 0), 0);
    expect("a sync", (uint64_t)syncs, 1);
    expect("the file", byte_of(file), 0x31);
    again(h, 0);
    expect("a write without the feature", request(h, WRITE, 0x32), 0);
    expect("a sync", (uint64_t)syncs, 2);
    expect("the file", byte_of(file), 0x32);
    expect("its line", lines, 1);
}

/* The machine moves into another file. Where that cannot be synced it does not run there. */
static void moves(struct host *h, int file, int runs)
{
    static uint8_t stream[2 * PAGES * 4096 + 2 * BYTES];
    static struct host target;
    size_t len = 0;

    expect("save", vmig_save(&h->machine, stream, sizeof stream, &len), VMIG_OK);
    expect("arrive", let_arrive(&target, file), VMIG_OK);
    expect("feed", vmig_feed(&target.machine, stream, len), VMIG_WHOLE);
    fails = !runs;
    expect("finish", (uint64_t)finish(&target, -1), (uint64_t)runs);
    fails = 0;
    expect("the state", description_of(&target.machine).state, runs ? VMIG_IS_IDLE : VMIG_IS_NONE);
    expect("the file there", byte_of(file), 0x32);
    vmig_free(&target.machine);
    munmap(target.disk.at, BYTES);
}

/* Syncs that fail: a flush ends with an error, now and later; a write without FLUSH does not end, and the guest does. */
static void loses(struct host *h)
{
    again(h, HAS_FLUSH);
    fails = 1;
    expect("a flush fails", request(h, FLUSH, 0), 1);
    expect("the operator knows", (uint64_t)said, 1);
    expect("the guest may run", (uint64_t)h->has_ended, 0);
    fails = 0;
    expect("and each later one", request(h, FLUSH, 0), 1);
    expect("it is lost", description_of(&h->machine).lost, 1);
}

static void ends(int file)
{
    static struct host h;

    expect("make", make(&h, file), VMIG_OK);
    again(&h, 0);
    fails = 1;
    expect("a write does not end", request(&h, WRITE, 0x33), 0xff);
    expect("the guest ends", (uint64_t)h.has_ended, 1);
    vmig_free(&h.machine);
    munmap(h.disk.at, BYTES);
}

static int new_file(void)
{
    char name[] = "/tmp/vmig-pages-disks-XXXXXX";
    int file = mkstemp(name);

    return file >= 0 && unlink(name) == 0 ? file : -1;
}

int main(void)
{
    static struct host h;
    int file = new_file(), other = new_file();

    if (file < 0 || other < 0) {
        puts("pages/disks: there is no file to be had");
        return 0;
    }
    expect("make", make(&h, file), VMIG_OK);
    serves(&h, file);
    moves(&h, other, 0);
    moves(&h, other, 1);
    loses(&h);
    vmig_free(&h.machine);
    munmap(h.disk.at, BYTES);
    ends(file);
    close(file);
    close(other);
    return ended("pages/disks");
}
