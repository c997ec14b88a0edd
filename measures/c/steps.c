/* What a step costs, by kind of device, layout and chain: `steps CASE LAYOUT` makes one ring of chains, and steps through it; `steps
 * CASE LAYOUT kept` does so on a machine with a log of the pages that it writes, which are most often in it already, and `steps CASE
 * LAYOUT emptied` empties the log after each chain. `count` counts the instructions of these steps. Without words it goes through all
 * cases, and checks that each step served. */
#include <stdlib.h>
#include "driver.h"

/* A ring of 256 entries in a small RAM, and where it and its buffers lie. */
enum { PAGES = 16, RING = 256, DRIVER = 0x3000, DEVICE = 0x4000, TABLE = 0x6000, HEADER = 0x7000, STATUS = 0x7100 };

/* The bytes of a frame. In a buffer 12 bytes of a header come before it (VIRTIO 1.2, 5.1.6). */
enum { FRAME = 60 };

/* More flags of a descriptor: it names a table; it is made available in the first round of a packed ring (2.7.5, 2.8.1). */
enum { INDIRECT = 4, AVAILABLE = 1 << 7 };

/* Features, by their bits in the low and in the high half. */
enum { INDIRECT_DESC = 1 << 28, VERSION_1 = 1, RING_PACKED = 4 };

/* A device of a kind, and the queue whose steps are counted. The fields descriptors and entries are counts: of the descriptors of
 * a chain, and of the entries of the table that each of them names, 0 where it names none. A buffer has length bytes. */
typedef struct {
    const char *name;
    uint32_t kind, queue, descriptors, entries, length;
} Case;

static const Case CASES[] = {
    {"entropy-1", VMIG_ENTROPY, 0, 1, 0, 16},       {"entropy-3", VMIG_ENTROPY, 0, 3, 0, 16},
    {"entropy-8", VMIG_ENTROPY, 0, 8, 0, 16},       {"entropy-table-3", VMIG_ENTROPY, 0, 1, 3, 16},
    {"console-in", VMIG_CONSOLE, 0, 1, 0, 16},      {"console-out", VMIG_CONSOLE, 1, 1, 0, 16},
    {"network-in", VMIG_NETWORK, 0, 1, 0, 12 + FRAME}, {"network-out", VMIG_NETWORK, 1, 1, 0, 12 + FRAME},
    {"block-read", VMIG_BLOCK, 0, 3, 0, 16},
};

/* One descriptor of a table of either layout. In a packed one the id is where the flags of a split one are. */
static void describe_in(vmig_machine *m, int packed, uint64_t table, uint32_t number, uint64_t addr, uint32_t len, uint32_t flags)
{
    uint64_t at = table + 16u * number;
    put(m, at, addr, 8);
    put(m, at + 8, len, 4);
    put(m, at + 12, packed ? number : flags, 2);
    put(m, at + 14, packed ? (flags | AVAILABLE) : number + 1, 2);
}

static void set_up_ring(vmig_machine *m, const Case *c, int packed)
{
    write_reg(m, 0x070, 3);
    write_reg(m, 0x020, c->entries > 0 ? INDIRECT_DESC : 0);
    write_reg(m, 0x024, 1);
    write_reg(m, 0x020, VERSION_1 | (packed ? RING_PACKED : 0));
    write_reg(m, 0x070, 0xb);
    write_reg(m, 0x030, c->queue);
    write_reg(m, 0x038, RING);
    write_reg(m, 0x080, DESC);
    write_reg(m, 0x090, DRIVER);
    write_reg(m, 0x0a0, DEVICE);
    write_reg(m, 0x044, 1);
    write_reg(m, 0x070, 0xf);
    expect("queue ready", read_reg(m, 0x044), 1);
}

/* The k-th descriptor of the ring, which is the place-th of its chain. */
static void describe_next(vmig_machine *m, const Case *c, int packed, uint32_t k, uint32_t place)
{
    uint32_t flags = place + 1 < c->descriptors ? HAS_NEXT : 0;
    if (c->entries > 0) describe_in(m, packed, DESC, k, TABLE, 16 * c->entries, flags | INDIRECT);
    else if (c->kind != VMIG_BLOCK) describe_in(m, packed, DESC, k, DATA + c->length * k, c->length, flags | (c->queue == 0 ? WRITABLE : 0));
    else if (place == 0) describe_in(m, packed, DESC, k, HEADER, 16, flags);
    else if (place == 1) describe_in(m, packed, DESC, k, DATA, 512, flags | WRITABLE);
    else describe_in(m, packed, DESC, k, STATUS, 1, flags | WRITABLE);
}

static void offer_all(vmig_machine *m, const Case *c, int packed, uint32_t chains)
{
    for (uint32_t entry = 0; entry < c->entries; entry++)
        describe_in(m, packed, TABLE, entry, DATA + c->length * entry, c->length,
                    WRITABLE | (!packed && entry + 1 < c->entries ? HAS_NEXT : 0));
    for (uint32_t k = 0; k < chains * c->descriptors; k++) describe_next(m, c, packed, k, k % c->descriptors);
    if (packed) return;
    for (uint32_t chain = 0; chain < chains; chain++) put(m, DRIVER + 4 + 2 * chain, chain * c->descriptors, 2);
    put(m, DRIVER + 2, chains, 2);
}

/* What is done with a log of the pages that steps write. */
enum { NONE, KEPT, EMPTIED, LOGS };
static const char *const LOG_NAMES[LOGS] = {"none", "kept", "emptied"};

static vmig_machine make_one(const Case *c, int log)
{
    vmig_shape shape = {.kind = (uint8_t)c->kind, .sectors = c->kind == VMIG_BLOCK ? 8 : 0};
    vmig_setup setup = VMIG_SETUP;
    vmig_machine m = VMIG_NONE;

    setup.pages = PAGES, setup.shapes = &shape, setup.count = 1, setup.flags = log == NONE ? 0 : VMIG_LOG;
    expect("make", vmig_make(&setup, &m), VMIG_OK);
    return m;
}

/* Empties the log. What a chain wrote is in it: at least the page of the ring. */
static void empty_log(vmig_machine *m)
{
    uint32_t pages[PAGES];
    size_t count = 0;

    expect("written", vmig_written(m, pages, PAGES, &count), VMIG_OK);
    expect("a page that was written", count > 0, 1);
}

/* Returns how many calls of vmig_step there were. */
static uint32_t run(const Case *c, int packed, int log)
{
    static const uint8_t bytes[RING * 16];
    static uint8_t buf[65536];
    /* An entropy device holds 4,096 bytes: 16 for each descriptor of a ring, and fewer chains where each is a table. */
    uint32_t chains = RING / (c->entries > 0 ? c->entries : c->descriptors), served = 0, calls = 0, number = 0;
    size_t kept = 0;
    vmig_machine m = make_one(c, log);

    set_up_ring(&m, c, packed);
    offer_all(&m, c, packed, chains);
    if (c->kind == VMIG_ENTROPY || c->kind == VMIG_CONSOLE)
        expect("input", vmig_input(&m, 0, bytes, sizeof bytes, &kept), VMIG_OK);
    write_reg(&m, 0x050, c->queue);
    if (log == EMPTIED) empty_log(&m);
    for (uint32_t chain = 0; chain < chains; chain++) {
        if (c->kind == VMIG_NETWORK && c->queue == 0) expect("a frame", vmig_input(&m, 0, bytes, FRAME, &kept), VMIG_OK);
        uint32_t status = vmig_step(&m, 0, (uint8_t)c->queue, buf, sizeof buf, &number);
        calls++;
        if (c->kind == VMIG_BLOCK) {
            expect("taken", status, VMIG_TAKEN);
            expect("moved", vmig_step(&m, 0, 1, buf, sizeof buf, &number), VMIG_MOVED);
            status = vmig_step(&m, 0, 1, buf, sizeof buf, &number);
        }
        served += status == (c->queue == 1 ? VMIG_SENT : VMIG_COMPLETED);
        if (log == EMPTIED) empty_log(&m);
    }
    expect("all served", served, chains);
    vmig_free(&m);
    return calls;
}

int main(int argc, char **argv)
{
    for (size_t i = 0; i < sizeof CASES / sizeof *CASES; i++) {
        if (argc > 1 && strcmp(argv[1], CASES[i].name) != 0) continue;
        for (int packed = 0; packed < 2; packed++) {
            if (argc > 2 && strcmp(argv[2], packed ? "packed" : "split") != 0) continue;
            for (int log = 0; log < LOGS; log++) {
                if (argc > 1 && strcmp(argc > 3 ? argv[3] : "none", LOG_NAMES[log]) != 0) continue;
                uint32_t calls = run(&CASES[i], packed, log);
                if (argc > 1) printf("%u\n", calls);
            }
        }
    }
    if (argc > 1) return failures != 0;
    return ended("steps");
}
