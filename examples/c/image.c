/* Disks that hold images: a machine is made over them, a driver reads a sector, and the host reads sectors back. */
#include <string.h>
#include "driver.h"

enum { HEADER = 0x7000, OUTCOME = 0x7100, READ = 0, WRITE = 1, FIRST = 3, SECOND = 2, SECTOR = 512 };

/* One request of one sector of the first disk, as a driver makes it. Returns the status that the device wrote. */
static uint64_t request(vmig_machine *m, uint32_t count, uint32_t type, uint64_t sector)
{
    put(m, HEADER, type, 4);
    put(m, HEADER + 4, 0, 4);
    put(m, HEADER + 8, sector, 8);
    put(m, OUTCOME, 0xff, 1);
    describe(m, 0, 0, HEADER, 16, HAS_NEXT, 1);
    describe(m, 0, 1, DATA, SECTOR, HAS_NEXT | (type == READ ? WRITABLE : 0), 2);
    describe(m, 0, 2, OUTCOME, 1, WRITABLE, 0);
    offer(m, 0, count, 0);
    serve(m);
    return get(m, OUTCOME, 1);
}

/* Checks that the sector of a device's disk has these bytes. */
static void holds(vmig_machine *m, uint8_t dev, uint64_t sector, const uint8_t *bytes)
{
    uint8_t got[SECTOR + 1];

    got[SECTOR] = 77;
    expect("sector", vmig_sector_read(m, dev, sector, got), VMIG_OK);
    expect("its bytes", (uint64_t)memcmp(got, bytes, SECTOR), 0);
    expect("and no more", got[SECTOR], 77);
}

/* Checks that the sectors of a device's disk are these, one after another. */
static void holds_all(vmig_machine *m, uint8_t dev, uint64_t count, const uint8_t *bytes)
{
    for (uint64_t sector = 0; sector < count; sector++) holds(m, dev, sector, bytes + sector * SECTOR);
}

static void refuses(vmig_machine *m)
{
    vmig_machine none = VMIG_NONE;
    uint8_t got[SECTOR] = {77};

    expect("no machine", vmig_sector_read(&none, 0, 0, got), VMIG_NO_MACHINE);
    expect("no device", vmig_sector_read(m, 3, 0, got), VMIG_NO_DEVICE);
    expect("no disk", vmig_sector_read(m, 1, 0, got), VMIG_WRONG_KIND);
    expect("no sector", vmig_sector_read(m, 0, FIRST, got), VMIG_NO_SECTOR);
    expect("no sector", vmig_sector_read(m, 2, SECOND, got), VMIG_NO_SECTOR);
    expect("begin", vmig_send_begin(m), VMIG_OK);
    expect("sending", vmig_sector_read(m, 0, 0, got), VMIG_SENDING);
    expect("abort", vmig_send_abort(m), VMIG_OK);
    expect("nothing read", got[0], 77);
}

int main(void)
{
    static const vmig_shape shapes[] = {
        {.kind = VMIG_BLOCK, .sectors = FIRST}, {.kind = VMIG_ENTROPY}, {.kind = VMIG_BLOCK, .sectors = SECOND}};
    static const vmig_shape diskless[] = {{.kind = VMIG_ENTROPY}};
    static uint8_t images[(FIRST + SECOND) * SECTOR], written[SECTOR], back[SECTOR];
    vmig_machine m = VMIG_NONE, other = VMIG_NONE;

    for (size_t i = 0; i < sizeof images; i++) images[i] = (uint8_t)(i / SECTOR * 40 + i % 37);
    memset(written, 0x5a, sizeof written);
    expect("a byte too few", make_with(16, shapes, 3, images, sizeof images - 1, &m), VMIG_BAD_IMAGES);
    expect("a sector too few", make_with(16, shapes, 3, images, sizeof images - SECTOR, &m), VMIG_BAD_IMAGES);
    expect("no pages", make_with(0, shapes, 3, images, 1, &m), VMIG_BAD_RAM);
    expect("make", make_with(16, shapes, 3, images, sizeof images, &m), VMIG_OK);
    expect("made already", make_with(16, shapes, 3, images, 1, &m), VMIG_IN_USE);
    expect("no disk, no image", make_with(1, diskless, 1, images, 0, &other), VMIG_OK);
    holds_all(&m, 0, FIRST, images);
    holds_all(&m, 2, SECOND, images + FIRST * SECTOR);
    refuses(&m);

    set_up(&m, 1);
    expect("read", request(&m, 1, READ, 1), 0);
    expect("its bytes", vmig_ram_read(&m, DATA, back, SECTOR), VMIG_OK);
    expect("are the image's", (uint64_t)memcmp(back, images + SECTOR, SECTOR), 0);
    expect("put", vmig_ram_write(&m, DATA, written, SECTOR), VMIG_OK);
    expect("write", request(&m, 2, WRITE, 2), 0);
    holds(&m, 0, 2, written);
    holds(&m, 0, 1, images + SECTOR);
    holds(&m, 2, 0, images + FIRST * SECTOR);

    vmig_free(&m);
    vmig_free(&other);
    return ended("image");
}
