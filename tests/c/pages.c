/* Which pages a host hands in whose guest has RAM of its own: all that the guest wrote. Both halves break the rule on purpose
 * first, and show what is lost: a value of the guest beside a receive buffer, and a page that was written before the stop. */
#include <stdlib.h>
#include "driver.h"

enum { PAGES = 16, PAGE = 4096, BUFFER = 0x8000, VALUE = 0x8800 };

static uint8_t ram[PAGES * PAGE];
static uint64_t seen[PAGES];

static void hand_in(vmig_machine *m, uint32_t page)
{
    expect("push", push_list(m, &page, 1, ram, sizeof ram, seen, PAGES), VMIG_OK);
}

static void hand_out(vmig_machine *m)
{
    uint32_t count = 77;
    expect("pull", vmig_pull(m, ram, sizeof ram, seen, PAGES, &count), VMIG_OK);
}

static void store(uint32_t addr, uint64_t value, size_t width)
{
    for (size_t i = 0; i < width; i++) ram[addr + i] = (uint8_t)(value >> (8 * i));
}

/* The guest posts a buffer of 16 bytes as its `count`-th, and the host hands in the rings. */
static void post(vmig_machine *m, uint32_t count)
{
    uint32_t byte = 77;

    store(DESC, BUFFER, 8);
    store(DESC + 8, 16, 4);
    store(DESC + 12, WRITABLE, 2);
    store(AVAIL + 4 + 2 * ((count - 1) % SIZE), 0, 2);
    store(AVAIL + 2, count, 2);
    hand_in(m, DESC / PAGE);
    hand_in(m, AVAIL / PAGE);
    expect("kick", vmig_reg_write(m, 0, 0x050, 4, 0, &byte), VMIG_OK);
}

/* Bytes come for the guest, and the device writes them into the buffer that was posted. */
static void bytes_come(vmig_machine *m)
{
    uint8_t none[1];
    uint32_t len = 77;
    size_t kept = 77;

    expect("input", vmig_input(m, 0, (const uint8_t *)"0123456789abcdef", 16, &kept), VMIG_OK);
    expect("step", vmig_step(m, 0, 0, none, 0, &len), VMIG_COMPLETED);
    hand_out(m);
}

/* The guest posts a buffer, and later writes a value into the same page. The device will only write that page, so it is easily
 * left out; but what comes out is the whole page. */
static void beside_a_buffer(vmig_machine *m)
{
    post(m, 1);
    ram[VALUE] = 42;
    bytes_come(m);
    expect("the value is lost", ram[VALUE], 0);

    post(m, 2);
    ram[VALUE] = 42;
    hand_in(m, VALUE / PAGE);
    bytes_come(m);
    expect("the value is there", ram[VALUE], 42);
}

/* The byte that arrives of a machine that is stopped now. */
static uint8_t arriving(vmig_machine *m)
{
    static uint8_t stream[PAGES * 4101 * 2 + 1000];
    vmig_machine other = VMIG_NONE;
    uint64_t pages = 77, sectors = 77;
    uint32_t rounds = 77;
    size_t got = 77;

    expect("stop", vmig_send_stop(m, &pages, &sectors), VMIG_OK);
    expect("take", vmig_send_take(m, stream, sizeof stream, &got), VMIG_OK);
    expect("abort", vmig_send_abort(m), VMIG_OK);
    expect("receive", receive(stream, got, &other, &rounds), VMIG_OK);
    uint8_t value = (uint8_t)get(&other, VALUE, 1);
    vmig_free(&other);
    return value;
}

/* The guest writes once more before it is paused. */
static void before_a_stop(vmig_machine *m)
{
    expect("begin", vmig_send_begin(m), VMIG_OK);
    ram[VALUE] = 43;
    expect("the old value arrives", arriving(m), 42);

    expect("begin", vmig_send_begin(m), VMIG_OK);
    ram[VALUE] = 44;
    hand_in(m, VALUE / PAGE);
    expect("the value arrives", arriving(m), 44);
}

int main(void)
{
    static const vmig_shape shapes[] = {{.kind = VMIG_ENTROPY}};
    vmig_machine m = VMIG_NONE;

    expect("make", make_new(PAGES, shapes, 1, &m), VMIG_OK);
    for (uint32_t page = 0; page < PAGES; page++) seen[page] = VMIG_UNSEEN;
    hand_out(&m);
    set_up(&m, 1);
    beside_a_buffer(&m);
    before_a_stop(&m);
    vmig_free(&m);
    return ended("pages");
}
