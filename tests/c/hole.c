/* RAM of an x86 guest above 3 GiB: one range from the address 0 on, in which the hole below 4 GiB is RAM that the guest's processors never see.
 * The hypervisor has a memory slot on each side of it, each with its log of dirty pages, and none for the hole. A driver that names bytes of
 * the hole as a buffer gets memory of its own guest, which nothing else uses. Where the system maps no 5 GiB without reserve the program
 * says so, and ends. */
#define _DEFAULT_SOURCE
#include "driver.h"
#include "mapping.h"

#define GIB (UINT64_C(1) << 30)

/* Low RAM ends, and high RAM begins and ends. */
#define HOLE_AT (3 * GIB)
#define HIGH_AT (4 * GIB)
#define RAM_END (5 * GIB)

enum { LOW_PAGES = 3 << 18, HIGH_FIRST = 4 << 18, HIGH_PAGES = 1 << 18, LENGTH = 32 };

/* What KVM_GET_DIRTY_LOG fills for each of the two slots. */
static uint64_t low_log[LOW_PAGES / 64], high_log[HIGH_PAGES / 64];

static uint8_t *room;           /* where RAM lies, with the hole */
static vmig_ram ram;            /* while it is lent */

/* The guest writes into RAM, of which its processors see all but the hole. Its hypervisor's logs note the page. */
static void store(uint64_t addr, uint64_t value, size_t width)
{
    uint64_t is_high = addr >= HIGH_AT, page = addr / PAGE - (is_high ? HIGH_FIRST : 0);

    expect("it is no address of the hole", is_high || addr + width <= HOLE_AT, 1);
    for (size_t i = 0; i < width; i++) ((uint8_t *)ram.at)[addr + i] = (uint8_t)(value >> (8 * i));
    (is_high ? high_log : low_log)[page / 64] |= UINT64_C(1) << page % 64;
}

/* RAM comes back. The log of each slot names its pages from its own first one on, and none of the hole. */
static void name_written(vmig_machine *m)
{
    vmig_pages pages = vmig_bitmap(low_log, LOW_PAGES / 64);

    pages.span = LOW_PAGES;
    expect("the low slot's", vmig_give_back(m, &ram, &pages), VMIG_OK);
    pages = vmig_bitmap(high_log, HIGH_PAGES / 64), pages.first = HIGH_FIRST, pages.span = HIGH_PAGES;
    expect("the high slot's", vmig_mark(m, &pages), VMIG_OK);
    memset(low_log, 0, sizeof low_log);
    memset(high_log, 0, sizeof high_log);
}

static void lend(vmig_machine *m)
{
    expect("lend", vmig_lend(m, &ram), VMIG_OK);
    expect("where it lies", ram.at == room && ram.len == RAM_END, 1);
}

static uint64_t dirty_pages(const vmig_machine *m)
{
    vmig_left left;

    expect("what is left", vmig_send_left(m, &left), VMIG_OK);
    return left.dirty_pages;
}

/* The driver, whose queue is in low RAM, asks for bytes at this address as its `count`-th chain, and they come. */
static void ask_at(vmig_machine *m, uint64_t addr, uint32_t count, const char *bytes)
{
    uint32_t len = 77;
    size_t kept;

    lend(m);
    store(DESC, addr, 8);
    store(DESC + 8, LENGTH, 4);
    store(DESC + 12, WRITABLE, 2);
    store(AVAIL + 4 + 2 * (count - 1), 0, 2);
    store(AVAIL + 2, count, 2);
    name_written(m);
    write_reg(m, 0x050, 0);
    expect("input", vmig_input(m, 0, (const uint8_t *)bytes, LENGTH, &kept), VMIG_OK);
    expect("a step", vmig_step(m, 0, 0, NULL, 0, &len), VMIG_COMPLETED);
    expect("its length", len, LENGTH);
    lend(m);
    expect("the bytes", (uint64_t)memcmp((uint8_t *)ram.at + addr, bytes, LENGTH), 0);
    name_written(m);
}

/* While it is sent the pages that the guest wrote in both slots count as dirty, and with them those that the device wrote. */
static void is_logged(vmig_machine *m)
{
    expect("begin", vmig_send_begin(m), VMIG_OK);
    lend(m);
    store(0x9000, 1, 1);
    store(HOLE_AT - 1, 1, 1);
    store(HIGH_AT, 1, 1);
    store(RAM_END - 8, 1, 8);
    name_written(m);
    expect("pages of both slots", dirty_pages(m), 4);
    ask_at(m, HIGH_AT - LENGTH / 2, 3, "half in the hole, half above it.");
    expect("its table, its rings, and the last page of the hole", dirty_pages(m), 4 + 3);
    expect("abort", vmig_send_abort(m), VMIG_OK);
}

static void serves(void)
{
    static const vmig_shape shape = {.kind = VMIG_ENTROPY};
    vmig_setup setup = VMIG_SETUP;
    vmig_machine m = VMIG_NONE;
    uint64_t taken;

    setup.ram = (vmig_ram){room, RAM_END}, setup.shapes = &shape, setup.count = 1, setup.flags = VMIG_LARGE;
    expect("make", vmig_make(&setup, &m), VMIG_OK);
    set_up(&m, 1);
    ask_at(&m, HIGH_AT + 0x5000, 1, "these bytes are in its high RAM.");
    taken = taken_pages(room, RAM_END);
    ask_at(&m, HOLE_AT + 0x5000, 2, "these are where nobody can look.");
    if (taken == NOT_MEASURED) printf("hole: how much memory was taken is not measured: the system does not list it so\n");
    else expect("a page of the hole is taken", taken_pages(room, RAM_END), taken + 1);
    is_logged(&m);
    vmig_free(&m);
}

int main(void)
{
    room = map_unreserved(RAM_END);
    if (room == NULL) printf("hole: not run: the system maps no 5 GiB without reserve\n");
    else serves();
    unmap_unreserved(room, RAM_END);
    return ended("hole");
}
