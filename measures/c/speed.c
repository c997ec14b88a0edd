/* How long calls take: `speed [TURNS]` makes each kind of call TURNS times (256 if left out, rounded up to whole rings), checks
 * what it gets, and prints the nanoseconds of one call. Only the calls that are named are timed, and not the driver's. */
#define _POSIX_C_SOURCE 200809L
#include <stdlib.h>
#include <string.h>
#include <time.h>
#include "driver.h"

/* A ring of 256 entries, whose buffers have 16 bytes each. */
enum { RING = 256, LENGTH = 16, BUFFERS = 0x8000 };

/* The bits of a packed descriptor's flags that say whose it is (VIRTIO 1.2, 2.8.1). */
enum { AVAILABLE = 1 << 7, USED_BIT = 1 << 15 };

static uint64_t now(void)
{
    struct timespec t;
    clock_gettime(CLOCK_MONOTONIC, &t);
    return (uint64_t)t.tv_sec * 1000000000u + (uint64_t)t.tv_nsec;
}

static void tell(const char *what, uint64_t nanoseconds, uint64_t calls, int is_long)
{
    if (is_long) printf("%s: %.0f ns\n", what, (double)nanoseconds / (double)calls);
}

/* The driver takes the device over, and makes queue 0 ready with 256 entries. */
static void set_up_ring(vmig_machine *m, uint32_t high_features)
{
    write_reg(m, 0x070, 0);
    write_reg(m, 0x070, 3);
    write_reg(m, 0x024, 1);
    write_reg(m, 0x020, high_features);
    write_reg(m, 0x070, 0xb);
    write_reg(m, 0x030, 0);
    write_reg(m, 0x038, RING);
    write_reg(m, 0x080, DESC);
    write_reg(m, 0x090, 0x2000 + 0x1000);
    write_reg(m, 0x0a0, 0x4000);
    write_reg(m, 0x044, 1);
    write_reg(m, 0x070, 0xf);
    expect("queue ready", read_reg(m, 0x044), 1);
}

static uint64_t registers(vmig_machine *m, uint64_t turns)
{
    uint32_t value = 0, sum = 0;
    uint64_t begun = now();
    for (uint64_t i = 0; i < turns; i++) {
        sum ^= vmig_reg_read(m, 0, 0x000, 4, &value);
        sum ^= value;
    }
    uint64_t took = now() - begun;
    expect("magic", turns % 2 == 0 ? sum ^ value : sum, 0x74726976);
    return took;
}

static uint64_t stores(vmig_machine *m, uint64_t turns)
{
    static const uint8_t bytes[LENGTH] = {1, 2, 3};
    uint32_t sum = 0;
    uint64_t begun = now();
    for (uint64_t i = 0; i < turns; i++) sum |= vmig_ram_write(m, BUFFERS + 16 * (i % RING), bytes, LENGTH);
    uint64_t took = now() - begun;
    expect("all written", sum, VMIG_OK);
    return took;
}

/* 256 steps of an entropy device, each of which fills one buffer. */
static uint64_t fill_ring(vmig_machine *m)
{
    static uint8_t entropy[RING * LENGTH];
    uint8_t none[1];
    uint32_t number = 0, done = 0;
    size_t kept = 0;

    expect("input", vmig_input(m, 0, entropy, sizeof entropy, &kept), VMIG_OK);
    write_reg(m, 0x050, 0);
    uint64_t begun = now();
    for (uint32_t i = 0; i < RING; i++) done += vmig_step(m, 0, 0, none, 0, &number) == VMIG_COMPLETED;
    uint64_t took = now() - begun;
    expect("all filled", done, RING);
    return took;
}

static uint64_t split_steps(vmig_machine *m, uint64_t rings)
{
    uint64_t took = 0;
    set_up_ring(m, 1);
    for (uint32_t i = 0; i < RING; i++) {
        describe(m, 0, i, BUFFERS + LENGTH * i, LENGTH, WRITABLE, 0);
        put(m, 0x3000 + 4 + 2 * i, i, 2);
    }
    for (uint64_t turn = 1; turn <= rings; turn++) {
        put(m, 0x3000 + 2, (turn * RING) % 65536, 2);
        took += fill_ring(m);
    }
    return took;
}

static uint64_t packed_steps(vmig_machine *m, uint64_t rings)
{
    uint64_t took = 0;
    set_up_ring(m, 5);
    for (uint64_t turn = 0; turn < rings; turn++) {
        for (uint32_t i = 0; i < RING; i++)
            describe(m, 0, i, BUFFERS + LENGTH * i, LENGTH, i, WRITABLE | (turn % 2 == 0 ? AVAILABLE : USED_BIT));
        took += fill_ring(m);
    }
    return took;
}

/* A request that reads one sector: it is taken, moved and completed. */
static uint64_t sector_reads(vmig_machine *m, uint64_t turns)
{
    uint8_t none[1];
    uint32_t len = 0, done = 0;
    uint64_t took = 0;

    set_up(m, 1);
    describe(m, 0, 0, 0x7000, 16, HAS_NEXT, 1);
    describe(m, 0, 1, DATA, 512, HAS_NEXT | WRITABLE, 2);
    describe(m, 0, 2, 0x7100, 1, WRITABLE, 0);
    for (uint64_t turn = 1; turn <= turns; turn++) {
        offer(m, 0, (uint32_t)(turn % 65536), 0);
        uint64_t begun = now();
        done += vmig_step(m, 0, 0, none, 0, &len) == VMIG_TAKEN;
        done += vmig_step(m, 0, 1, none, 0, &len) == VMIG_MOVED;
        done += vmig_step(m, 0, 1, none, 0, &len) == VMIG_COMPLETED;
        took += now() - begun;
    }
    expect("all read", done, 3 * turns);
    return took;
}

/* A host that mirrors 64 MiB of RAM. Nothing to hand out is the case of a pull between two requests. */
static void mirror(uint64_t turns, int is_long)
{
    enum { PAGES = 16384, PAGE = 4096 };
    static const vmig_shape entropy[] = {{.kind = VMIG_ENTROPY}};
    static const uint32_t one[] = {PAGES - 1};
    size_t len = (size_t)PAGES * PAGE;
    uint8_t *ram = malloc(len);
    uint64_t *seen = malloc(PAGES * sizeof *seen), pulls = 0, pushes = 0;
    uint32_t count = 77, all = 0, refused = 0;
    vmig_machine m = VMIG_NONE;

    if (ram == NULL || seen == NULL) exit(2);
    for (uint32_t page = 0; page < PAGES; page++) seen[page] = VMIG_UNSEEN;
    expect("make", make_new(PAGES, entropy, 1, &m), VMIG_OK);
    expect("pull", vmig_pull(&m, ram, len, seen, PAGES, &count), VMIG_OK);
    expect("all pages", count, PAGES);
    for (uint64_t turn = 0; turn < turns; turn++) {
        uint64_t begun = now();
        refused |= push_list(&m, one, 1, ram, len, seen, PAGES);
        uint64_t between = now();
        refused |= vmig_pull(&m, ram, len, seen, PAGES, &count);
        pushes += between - begun;
        pulls += now() - between;
        all += count;
    }
    expect("nothing to hand out", all + refused, 0);
    tell("a push of one page", pushes, turns, is_long);
    tell("a pull of 64 MiB, none of which changed", pulls, turns, is_long);
    vmig_free(&m);
    free(seen);
    free(ram);
}

int main(int argc, char **argv)
{
    static const vmig_shape entropy[] = {{.kind = VMIG_ENTROPY}}, disk[] = {{.kind = VMIG_BLOCK, .sectors = 8}};
    vmig_machine m = VMIG_NONE;
    uint64_t rings = (argc > 1 ? strtoull(argv[1], NULL, 10) : RING) / RING + (argc > 1);
    uint64_t turns = rings * RING;

    expect("make", make_new(16, entropy, 1, &m), VMIG_OK);
    tell("a register read", registers(&m, turns), turns, argc > 1);
    tell("a RAM write of 16 bytes", stores(&m, turns), turns, argc > 1);
    tell("a step of a split ring, 16 bytes", split_steps(&m, rings), turns, argc > 1);
    tell("a step of a packed ring, 16 bytes", packed_steps(&m, rings), turns, argc > 1);
    vmig_free(&m);
    expect("make", make_new(16, disk, 1, &m), VMIG_OK);
    tell("a read of a sector, three steps", sector_reads(&m, turns), turns, argc > 1);
    vmig_free(&m);
    mirror(turns / RING, argc > 1);
    return ended("speed");
}
