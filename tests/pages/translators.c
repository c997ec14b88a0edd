/* The code of docs/hosts/translators.md as it stands there; and a device that writes more pages than one call hands out. */
#include "vmig.h"

void drop_page(uint32_t page);      /* your emulator's */

/* After the devices' turn, and after each vmig_disk_done of a read: what was made of these pages is dropped. */
static vmig_status drop_translations(vmig_machine *m)
{
    uint32_t pages[64];
    size_t count;
    vmig_status status;

    do {
        status = vmig_written(m, pages, 64, &count);
        if (status != VMIG_OK) return status;
        for (size_t i = 0; i < count; i++) drop_page(pages[i]);
    } while (count == 64);
    return VMIG_OK;
}

#include "driver.h"

enum { PAGES = 100, PAGE = 4096, HEAP = 10, COUNT = 80 };

static int dropped[PAGES];

void drop_page(uint32_t page)
{
    expect("a page", page < PAGES, 1);
    if (page < PAGES) dropped[page]++;
}

int main(void)
{
    static const vmig_shape shapes[] = {{.kind = VMIG_ENTROPY}};
    static const uint8_t byte;
    vmig_setup setup = VMIG_SETUP;
    vmig_machine m = VMIG_NONE;

    setup.pages = PAGES, setup.shapes = shapes, setup.count = 1, setup.flags = VMIG_LOG;
    expect("make", vmig_make(&setup, &m), VMIG_OK);
    for (uint32_t i = 0; i < COUNT; i++) expect("a write", vmig_ram_write(&m, (HEAP + i) * PAGE, &byte, 1), VMIG_OK);
    expect("drop", drop_translations(&m), VMIG_OK);
    for (uint32_t page = 0; page < PAGES; page++) expect("dropped once", (uint64_t)dropped[page], page >= HEAP && page < HEAP + COUNT);
    expect("drop", drop_translations(&m), VMIG_OK);
    expect("and no more", (uint64_t)dropped[HEAP], 1);
    vmig_free(&m);
    return ended("pages/translators");
}
