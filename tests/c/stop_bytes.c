/* What vmig_send_left tells of a stop is exactly what the stop writes, where no page is of zeros and no item is both due and dirty. A page of
 * zeros takes 4,096 bytes less, and an item that is both is counted twice. */
#include <string.h>
#include "driver.h"

enum { PAGES = 6, PAGE = 4096, RAM = PAGES * PAGE, SECTORS = 5, SECTOR = 512, LENGTH = SECTORS * SECTOR, PAGE_RECORD = 4101, SECTOR_RECORD = 519 };

static const vmig_shape SHAPES[] = {{.kind = VMIG_BLOCK, .sectors = SECTORS}, {.kind = VMIG_CONSOLE}, {.kind = VMIG_ENTROPY}};

static _Alignas(PAGE) uint8_t ram[RAM];
static uint8_t image[LENGTH], bytes[1 << 16];

/* A machine of which no byte is 0, but for its first `zeros` pages. */
static vmig_machine machine_of(int zeros)
{
    vmig_machine m = VMIG_NONE;
    vmig_ram ours = {ram, RAM};
    vmig_image disk = {image, SECTORS};

    memset(ram, 0, RAM);
    memset(ram + zeros * PAGE, 0x5a, RAM - (size_t)zeros * PAGE);
    memset(image, 0xa5, LENGTH);
    expect("make", make_over(&ours, SHAPES, 3, &disk, 1, &m), VMIG_OK);
    expect("begin", vmig_send_begin(&m), VMIG_OK);
    return m;
}

/* All that waits is taken: how many bytes that is. */
static uint64_t taken(vmig_machine *m)
{
    uint64_t all = 0;
    size_t got = 0;

    do {
        expect("take", vmig_send_take(m, bytes, sizeof bytes, &got), VMIG_OK);
        all += got;
    } while (got > 0);
    return all;
}

static vmig_left left_of(const vmig_machine *m)
{
    vmig_left left;

    expect("left", vmig_send_left(m, &left), VMIG_OK);
    return left;
}

/* The machine is stopped, and freed: how many bytes fewer that wrote than was told. */
static uint64_t fewer(vmig_machine *m)
{
    uint64_t pages = 0, sectors = 0, told, wrote;

    taken(m);
    told = left_of(m).stop_bytes;
    expect("stop", vmig_send_stop(m, &pages, &sectors), VMIG_OK);
    wrote = taken(m);
    expect("no more than was told", wrote <= told, 1);
    expect("nothing more", left_of(m).stop_bytes, 0);
    vmig_free(m);
    return told - wrote;
}

int main(void)
{
    vmig_machine m = machine_of(0);
    uint64_t first, devices;

    first = left_of(&m).stop_bytes;
    devices = first - PAGES * PAGE_RECORD - SECTORS * SECTOR_RECORD - 33;
    expect("all is due", left_of(&m).due_pages == PAGES && left_of(&m).due_sectors == SECTORS, 1);
    expect("some pages", vmig_send_some(&m, 2), VMIG_OK);
    expect("so many fewer", first - left_of(&m).stop_bytes, 2 * PAGE_RECORD);
    expect("the rest but a sector", vmig_send_some(&m, PAGES - 2 + SECTORS - 1), VMIG_OK);
    expect("a sector, the devices and the digest", left_of(&m).stop_bytes, SECTOR_RECORD + devices + 33);
    expect("exactly", fewer(&m), 0);
    m = machine_of(0);
    expect("the whole machine at its stop", fewer(&m), 0);
    m = machine_of(3);
    expect("three pages of zeros", fewer(&m), 3 * (PAGE_RECORD - 5));
    m = machine_of(0);
    expect("a page that is due is written", vmig_ram_write(&m, PAGE, (const uint8_t[]){7}, 1), VMIG_OK);
    expect("it is counted twice", fewer(&m), PAGE_RECORD);
    return ended("stop_bytes");
}
