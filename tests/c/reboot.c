/* A guest that reboots, by vmig_reset: each device is as its driver's reset leaves it, and what the host put in is gone. RAM, the disks, a
 * console's size, a disk that is lost and what is due of a machine that is sent stay. */
#include <string.h>
#include "driver.h"

enum { PAGES = 32, ENTROPY = 0, CONSOLE = 1, NETWORK = 2, DISK = 3, DEVICES = 4, SECTORS = 2 };

/* The first queue of each device, in the order in which they lie, and how many it has. */
static const uint32_t FIRST[DEVICES] = {0, 1, 3, 5}, QUEUES[DEVICES] = {1, 2, 2, 1};

static const vmig_shape SHAPES[DEVICES] = {
    {.kind = VMIG_ENTROPY}, {.kind = VMIG_CONSOLE}, {.kind = VMIG_NETWORK, .mac = {2, 0, 0, 0, 0, 1}}, {.kind = VMIG_BLOCK, .sectors = SECTORS}};

static uint8_t ram[PAGES * 4096], stream[PAGES * 4101 + 10000];

/* The drivers are up, the host has put something in, and each device but the disk has an interrupt. */
static void run(vmig_machine *m)
{
    static const uint8_t frame[64];
    size_t kept;

    for (uint8_t dev = 0; dev < DEVICES; dev++) set_up_device(m, dev, FIRST[dev], QUEUES[dev], 0);
    for (uint8_t dev = 0; dev < DISK; dev++) {
        put(m, AVAIL + FIRST[dev] * NEXT_QUEUE + 2, 0, 2);
        expect("input", vmig_input(m, dev, frame, sizeof frame, &kept), VMIG_OK);
        describe(m, FIRST[dev], 0, 0x18000 + dev * 0x1000u, 100, WRITABLE, 0);
        make_available(m, FIRST[dev], 1, 0);
        write_reg_of(m, dev, 0x050, 0);
        serve(m);
        expect("more input", vmig_input(m, dev, frame, sizeof frame, &kept), VMIG_OK);
        expect("all of it", kept, sizeof frame);
    }
    expect("interrupts", vmig_lines(m), 7);
}

static void copy_ram(const vmig_machine *m, uint8_t *to)
{
    for (uint64_t at = 0; at < PAGES * 4096; at += 4096) expect("read", vmig_ram_read(m, at, to + at, 4096), VMIG_OK);
}

/* What a reset of each device leaves. */
static void is_reset(vmig_machine *m)
{
    static uint8_t now[PAGES * 4096];
    uint8_t dev = 0, pick = 0;
    size_t room = 0;

    expect("no interrupts", vmig_lines(m), 0);
    expect("no work", vmig_next(m, &dev, &pick), VMIG_IDLE);
    for (dev = 0; dev < DEVICES; dev++) {
        expect("its Status", read_reg_of(m, dev, 0x070), 0);
        expect("its InterruptStatus", read_reg_of(m, dev, 0x060), 0);
        write_reg_of(m, dev, 0x030, 0);
        expect("its queue is not ready", read_reg_of(m, dev, 0x044), 0);
        if (dev == DISK) continue;
        expect("room", vmig_room(m, dev, &room), VMIG_OK);
        expect("for all that it can hold", room, dev == NETWORK ? 64 : 4096);
    }
    expect("the console's size", read_reg_of(m, CONSOLE, 0x100), 40 << 16 | 100);
    copy_ram(m, now);
    expect("the same RAM", (uint64_t)memcmp(ram, now, sizeof now), 0);
}

/* The guest of a machine that is sent reboots: what is due and dirty stays so, and what arrives is the machine. */
static void reboots_while_it_is_sent(vmig_machine *m)
{
    vmig_left before, after;
    vmig_machine target = VMIG_NONE;
    uint64_t pages, sectors;
    size_t len = 0, other = 0;
    uint32_t rounds, generation = read_reg_of(m, CONSOLE, 0x0fc);
    static uint8_t one[sizeof stream];

    expect("begin", vmig_send_begin(m), VMIG_OK);
    expect("some", vmig_send_some(m, 20), VMIG_OK);
    run(m);
    copy_ram(m, ram);
    expect("left", vmig_send_left(m, &before), VMIG_OK);
    expect("reset", vmig_reset(m), VMIG_OK);
    expect("left", vmig_send_left(m, &after), VMIG_OK);
    expect("the same pages due", after.due_pages, before.due_pages);
    expect("the same sectors due", after.due_sectors, before.due_sectors);
    expect("the same pages dirty", after.dirty_pages, before.dirty_pages);
    expect("the same sectors dirty", after.dirty_sectors, before.dirty_sectors);
    is_reset(m);
    expect("its configuration did not change", read_reg_of(m, CONSOLE, 0x0fc), generation);
    expect("stop", vmig_send_stop(m, &pages, &sectors), VMIG_OK);
    expect("no guest reboots that is stopped", vmig_reset(m), VMIG_STOPPED);
    expect("take", vmig_send_take(m, stream, sizeof stream, &len), VMIG_OK);
    expect("abort", vmig_send_abort(m), VMIG_OK);
    expect("receive", receive(stream, len, &target, &rounds), VMIG_OK);
    expect("save", vmig_save(m, stream, sizeof stream, &len), VMIG_OK);
    expect("save the other", vmig_save(&target, one, sizeof one, &other), VMIG_OK);
    expect("the same machine", other == len && memcmp(stream, one, len) == 0, 1);
    vmig_free(&target);
}

int main(void)
{
    static uint8_t contents[SECTORS * 512];
    uint8_t sector[512];
    vmig_machine m = VMIG_NONE;

    memset(contents, 0x5a, sizeof contents);
    expect("make", make_with(PAGES, SHAPES, DEVICES, contents, sizeof contents, &m), VMIG_OK);
    expect("a console's size", vmig_resize(&m, CONSOLE, 100, 40), VMIG_OK);
    expect("a disk is lost", vmig_sync_failed(&m, DISK), VMIG_OK);
    run(&m);
    copy_ram(&m, ram);
    expect("reset", vmig_reset(&m), VMIG_OK);
    is_reset(&m);
    expect("the disk is lost", description_of(&m).lost, 1 << DISK);
    expect("a sector", vmig_sector_read(&m, DISK, 1, sector), VMIG_OK);
    expect("as it was", (uint64_t)memcmp(sector, contents, 512), 0);
    reboots_while_it_is_sent(&m);
    vmig_free(&m);
    return ended("reboot");
}
