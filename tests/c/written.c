/* The pages that calls write, handed out by vmig_written: exactly these, ascending, each once; and pages that are named later, by
 * vmig_mark, without a loan between. */
#include <string.h>
#include "driver.h"

enum { PAGES = 16, RAM = PAGES * 4096 };

/* The feature by which each side says from which buffer on it is to be told. */
#define EVENT_INDEXES (UINT32_C(1) << 29)

static const vmig_shape SHAPE = {.kind = VMIG_ENTROPY};
static uint8_t room[RAM], stream[4 * RAM];

static vmig_machine make_logged(uint32_t flags)
{
    vmig_machine m = VMIG_NONE;
    vmig_setup setup = VMIG_SETUP;

    setup.ram = (vmig_ram){room, sizeof room}, setup.shapes = &SHAPE, setup.count = 1, setup.flags = flags;
    expect("make", vmig_make(&setup, &m), VMIG_OK);
    return m;
}

static void pages_are(const char *what, vmig_machine *m, size_t size, const uint32_t *wanted, size_t count)
{
    uint32_t pages[PAGES];
    size_t found = 99;

    memset(pages, 0xff, sizeof pages);
    expect(what, vmig_written(m, pages, size, &found), VMIG_OK);
    expect(what, found, count);
    for (size_t k = 0; k < count; k++) expect(what, pages[k], wanted[k]);
    for (size_t k = count; k < PAGES; k++) expect(what, pages[k], UINT32_MAX);
}

static void write_at(vmig_machine *m, uint64_t addr, size_t len)
{
    static const uint8_t zeros[4096];
    expect("write", vmig_ram_write(m, addr, zeros, len), VMIG_OK);
}

static void are_handed_out(void)
{
    vmig_machine m = make_logged(VMIG_LOG);
    vmig_ram out = VMIG_NO_RAM;
    vmig_pages named = VMIG_ALL_PAGES;
    uint64_t pages, sectors, seen[PAGES];
    uint32_t two[] = {1, 4};

    pages_are("none at first", &m, PAGES, NULL, 0);
    write_at(&m, 5 * 4096 + 4090, 12), write_at(&m, 3 * 4096, 1), write_at(&m, 3 * 4096 + 7, 1);
    pages_are("as many as there is room for", &m, 2, (const uint32_t[]){3, 5}, 2);
    pages_are("the rest", &m, PAGES, (const uint32_t[]){6}, 1);
    pages_are("each once", &m, PAGES, NULL, 0);
    expect("a write that is refused", vmig_ram_write(&m, RAM, (const uint8_t *)"?", 1), VMIG_OUT_OF_RAM);
    expect("mark", vmig_mark(&m, &named), VMIG_OK);
    expect("lend", vmig_lend(&m, &out), VMIG_OK);
    pages_are("while lent, not those that were named", &m, PAGES, NULL, 0);
    expect("return", vmig_give_back(&m, &out, &named), VMIG_OK);
    expect("begin", vmig_send_begin(&m), VMIG_OK);
    write_at(&m, 9 * 4096, 4096);
    named = vmig_list(two, 2);
    expect("push", vmig_push(&m, &named, stream, RAM, seen, PAGES), VMIG_OK);
    pages_are("while sent", &m, 1, (const uint32_t[]){1}, 1);
    expect("stop", vmig_send_stop(&m, &pages, &sectors), VMIG_OK);
    pages_are("once stopped", &m, PAGES, (const uint32_t[]){4, 9}, 2);
    expect("abort", vmig_send_abort(&m), VMIG_OK);
    write_at(&m, 0, 1);
    pages_are("after an abort", &m, PAGES, (const uint32_t[]){0}, 1);
    set_up(&m, 1);
    pages_are("of the driver", &m, PAGES, NULL, 0);
    vmig_free(&m);
    m = make_logged(0);
    expect("not asked for", vmig_written(&m, two, 2, &(size_t){0}), VMIG_NOT_KNOWN);
    vmig_free(&m);
}

/* A step that is idle may write too: where it asks its driver to tell of the next buffer. One that finds a malformed chain writes
 * nothing. */
static void are_of_steps(void)
{
    vmig_machine m = make_logged(VMIG_LOG);
    uint8_t none[1];
    uint32_t len = 77;

    set_up_with(&m, 1, EVENT_INDEXES);
    expect("input", vmig_input(&m, 0, (const uint8_t *)"random", 6, &(size_t){0}), VMIG_OK);
    write_reg(&m, 0x050, 0);
    expect("a step of no buffer", vmig_step(&m, 0, 0, none, 0, &len), VMIG_IDLE);
    pages_are("where the device's area is", &m, PAGES, (const uint32_t[]){USED / 4096}, 1);
    describe(&m, 0, 0, RAM, 16, WRITABLE, 0);
    offer(&m, 0, 1, 0);
    pages_are("of the driver, by calls", &m, PAGES, (const uint32_t[]){DESC / 4096, AVAIL / 4096}, 2);
    expect("a step of a chain out of RAM", vmig_step(&m, 0, 0, none, 0, &len), VMIG_NEEDS_RESET);
    pages_are("of a step that did nothing", &m, PAGES, NULL, 0);
    vmig_free(&m);
}

/* A page that is written while RAM is lent, and is named by a mark alone, is dirty from then on. */
static void are_marked(void)
{
    vmig_machine m = make_logged(0);
    vmig_ram out = VMIG_NO_RAM;
    vmig_pages none = VMIG_NO_PAGES, named = VMIG_NO_PAGES;
    vmig_left left;
    uint64_t word = 1u << 7;
    uint32_t value = 0, page = PAGES;

    expect("begin", vmig_send_begin(&m), VMIG_OK);
    while (vmig_send_some(&m, 5) == VMIG_OK) {}
    expect("round", vmig_send_round(&m), VMIG_OK);
    expect("lend", vmig_lend(&m, &out), VMIG_OK);
    room[7 * 4096] = 1;
    expect("a register while lent", vmig_reg_read(&m, 0, 0, 4, &value), VMIG_OK);
    expect("its value", value, 0x74726976);
    expect("left while lent", vmig_send_left(&m, &left), VMIG_OK);
    expect("none is dirty", left.dirty_pages, 0);
    expect("return", vmig_give_back(&m, &out, &none), VMIG_OK);
    named = vmig_list(&page, 1);
    expect("no such page", vmig_mark(&m, &named), VMIG_OUT_OF_RAM);
    named = vmig_bitmap(&word, 1);
    expect("mark", vmig_mark(&m, &named), VMIG_OK);
    expect("left", vmig_send_left(&m, &left), VMIG_OK);
    expect("one is dirty", left.dirty_pages, 1);
    vmig_free(&m);
}

int main(void)
{
    are_handed_out();
    are_of_steps();
    are_marked();
    return ended("written");
}
