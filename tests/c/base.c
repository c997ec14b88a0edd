/* Where RAM begins: at the base that the host names. The guest's accesses, areas and descriptors are at guest-physical addresses, pages
 * that are handed in are numbered from the first byte of RAM, and a machine goes to a host that names the same base, or another. */
#include "driver.h"

enum { PAGES = 16, PAGE = 4096, LEN = PAGES * PAGE };

#define BASE UINT64_C(0x80000000)
#define LAST_PAGE UINT64_C(0xfffffffffffff000)

static const vmig_shape ENTROPY = {.kind = VMIG_ENTROPY};

static uint32_t make_at(uint64_t base, uint32_t pages, vmig_machine *m)
{
    vmig_setup setup = VMIG_SETUP;

    setup.pages = pages, setup.shapes = &ENTROPY, setup.count = 1, setup.base = base;
    return vmig_make(&setup, m);
}

static uint32_t arrive_at(uint64_t base, vmig_machine *m)
{
    vmig_arrival arrival = VMIG_ARRIVAL;

    arrival.most_pages = PAGES, arrival.base = base;
    return vmig_arrive(&arrival, m);
}

static uint64_t base_of(const vmig_machine *m)
{
    return description_of(m).base;
}

/* A base is a multiple of a page, and no byte of RAM is past the last address. */
static void bases(void)
{
    vmig_machine m = VMIG_NONE;

    expect("within a page", make_at(BASE + 512, 1, &m), VMIG_BAD_BASE);
    expect("past the last address", make_at(LAST_PAGE, 2, &m), VMIG_BAD_BASE);
    expect("the number of pages comes before", make_at(BASE + 512, 0, &m), VMIG_BAD_RAM);
    expect("up to the last address", make_at(LAST_PAGE, 1, &m), VMIG_OK);
    expect("the first address", base_of(&m), LAST_PAGE);
    put(&m, LAST_PAGE + PAGE - 1, 0x5a, 1);
    expect("the last byte", get(&m, UINT64_MAX, 1), 0x5a);
    vmig_free(&m);
    expect("an arrival within a page", arrive_at(BASE + 1, &m), VMIG_BAD_BASE);
    expect("nothing arrives", m.at == NULL, 1);
}

static void accesses(vmig_machine *m)
{
    uint8_t bytes[4] = {1, 2, 3, 4};

    expect("at address 0", vmig_ram_write(m, 0, bytes, 4), VMIG_OUT_OF_RAM);
    expect("below RAM", vmig_ram_write(m, BASE - 1, bytes, 4), VMIG_OUT_OF_RAM);
    expect("over the end", vmig_ram_write(m, BASE + LEN - 3, bytes, 4), VMIG_OUT_OF_RAM);
    expect("over the end", vmig_ram_read(m, BASE + LEN - 3, bytes, 4), VMIG_OUT_OF_RAM);
    expect("the last bytes", vmig_ram_write(m, BASE + LEN - 4, bytes, 4), VMIG_OK);
    expect("they are there", get(m, BASE + LEN - 4, 4), 0x04030201);
}

static void place(vmig_machine *m, uint32_t low_half, uint64_t addr)
{
    write_reg(m, low_half, (uint32_t)addr);
    write_reg(m, low_half + 4, (uint32_t)(addr >> 32));
}

/* The driver's queue at these addresses; whether it could be made ready. */
static uint32_t ready_at(vmig_machine *m, uint64_t base)
{
    write_reg(m, 0x030, 0);
    write_reg(m, 0x038, SIZE);
    place(m, 0x080, base + DESC);
    place(m, 0x090, base + AVAIL);
    place(m, 0x0a0, base + USED);
    write_reg(m, 0x044, 1);
    return read_reg(m, 0x044);
}

/* The driver asks for 4 bytes at this address, as its `count`-th chain. */
static uint32_t ask_at(vmig_machine *m, uint64_t addr, uint32_t count)
{
    uint8_t none[1];
    uint32_t len = 77;

    put(m, BASE + DESC, addr, 8);
    put(m, BASE + DESC + 8, 4, 4);
    put(m, BASE + DESC + 12, WRITABLE, 2);
    put(m, BASE + AVAIL + 4 + 2u * (count - 1), 0, 2);
    put(m, BASE + AVAIL + 2, count, 2);
    write_reg(m, 0x050, 0);
    return vmig_step(m, 0, 0, none, 0, &len);
}

static void driver(vmig_machine *m)
{
    size_t kept = 0;

    expect("input", vmig_input(m, 0, (const uint8_t *)"abcdefgh", 8, &kept), VMIG_OK);
    expect("all kept", kept, 8);
    set_up(m, 0);
    expect("areas below RAM", ready_at(m, 0), 0);
    expect("areas in RAM", ready_at(m, BASE), 1);
    expect("a step", ask_at(m, BASE + DATA, 1), VMIG_COMPLETED);
    expect("the bytes", get(m, BASE + DATA, 4), 0x64636261);
    expect("the used index", get(m, BASE + USED + 2, 2), 1);
}

/* Page 3 is handed in by its number, and is at its address then. */
static void pages(vmig_machine *m)
{
    static uint8_t ram[LEN];
    static uint64_t seen[PAGES];
    const uint32_t third[] = {3};

    memset(ram + 3 * PAGE, 0x33, PAGE);
    expect("push", push_list(m, third, 1, ram, LEN, seen, PAGES), VMIG_OK);
    expect("its first byte", get(m, BASE + 3 * PAGE, 1), 0x33);
    expect("its last byte", get(m, BASE + 4 * PAGE - 1, 1), 0x33);
    expect("the page before", get(m, BASE + 3 * PAGE - 1, 1), 0);
}

/* The machine is saved, and arrives where the host names the same base. At another base its queue would not be in RAM. */
static void moves(vmig_machine *source)
{
    static uint8_t stream[LEN * 2];
    size_t len = 0;
    uint32_t rounds = 0;
    vmig_machine target = VMIG_NONE, other = VMIG_NONE;

    expect("save", vmig_save(source, stream, sizeof stream, &len), VMIG_OK);
    expect("arrive", arrive_at(BASE, &target), VMIG_OK);
    expect("feed", vmig_feed(&target, stream, len), VMIG_WHOLE);
    expect("finish", vmig_finish(&target), VMIG_OK);
    expect("its base", base_of(&target), BASE);
    expect("its RAM", get(&target, BASE + DATA, 4), 0x64636261);
    expect("its driver goes on", ask_at(&target, BASE + DATA + 4, 2), VMIG_COMPLETED);
    expect("its bytes", get(&target, BASE + DATA + 4, 4), 0x68676665);
    expect("arrive at 0", arrive_at(0, &other), VMIG_OK);
    expect("its queue is not in RAM", vmig_feed(&other, stream, len), VMIG_STREAM_BAD_DEVICE);
    vmig_free(&other);
    expect("arrive at the last page", arrive_at(LAST_PAGE, &other), VMIG_OK);
    expect("its header, but for a byte", vmig_feed(&other, stream, 16), VMIG_OK);
    expect("RAM would reach past the last address", vmig_feed(&other, stream + 16, 1), VMIG_STREAM_MISMATCH);
    vmig_free(&other);
    expect("received at 0", receive(stream, len, &other, &rounds), VMIG_STREAM_BAD_DEVICE);
    vmig_free(&target);
}

int main(void)
{
    vmig_machine m = VMIG_NONE;

    bases();
    expect("make", make_at(BASE, PAGES, &m), VMIG_OK);
    accesses(&m);
    driver(&m);
    pages(&m);
    moves(&m);
    vmig_free(&m);
    return ended("base");
}
