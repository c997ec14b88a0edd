/* A guest whose RAM is this program's own, as one that runs on hardware virtualization: it writes its rings and requests there,
 * and the pages that it wrote are handed in, and those that the devices wrote are handed out. It writes a sector of a disk and
 * reads it back, while the machine is moved to another handle. */
#include <stdlib.h>
#include <string.h>
#include "driver.h"

enum { PAGES = 16, PAGE = 4096, SECTORS = 4, HEADER = 0x7000, OUTCOME = 0x7100, READ = 0, WRITE = 1 };

/* A host: its guest's RAM, the pages that the guest has written since they were handed in, and what it has seen of the machine. */
struct host {
    vmig_machine machine;
    uint8_t ram[PAGES * PAGE];
    uint8_t dirty[PAGES];
    uint64_t seen[PAGES];
};

/* The stream, as it would go over a wire. */
static uint8_t *stream;
static size_t stream_len;

/* The guest writes a number into its RAM, the lowest byte first. The host's hardware notes the page. */
static void store(struct host *h, uint32_t addr, uint64_t value, size_t width)
{
    for (size_t i = 0; i < width; i++) {
        h->ram[addr + i] = (uint8_t)(value >> (8 * i));
        h->dirty[(addr + i) / PAGE] = 1;
    }
}

static uint64_t load(const struct host *h, uint32_t addr, size_t width)
{
    uint64_t value = 0;
    for (size_t i = width; i-- > 0;) value = value << 8 | h->ram[addr + i];
    return value;
}

/* The guest is paused here: its pages go in. */
static void hand_in(struct host *h)
{
    uint32_t pages[PAGES];
    size_t count = 0;

    for (uint32_t page = 0; page < PAGES; page++) {
        if (h->dirty[page]) pages[count++] = page;
        h->dirty[page] = 0;
    }
    expect("push", push_list(&h->machine, pages, count, h->ram, sizeof h->ram, h->seen, PAGES), VMIG_OK);
}

/* What the devices wrote comes out. Returns the number of pages. */
static uint32_t hand_out(struct host *h)
{
    uint32_t count = 77;
    expect("pull", vmig_pull(&h->machine, h->ram, sizeof h->ram, h->seen, PAGES, &count), VMIG_OK);
    return count;
}

/* The host's RAM is the machine's. */
static void mirrors(struct host *h)
{
    static uint8_t page[PAGE];

    for (uint64_t at = 0; at < sizeof h->ram; at += PAGE) {
        expect("read", vmig_ram_read(&h->machine, at, page, PAGE), VMIG_OK);
        expect("the same page", (uint64_t)memcmp(page, h->ram + at, PAGE), 0);
    }
}

static void describe_at(struct host *h, uint32_t number, uint32_t addr, uint32_t len, uint32_t flags, uint32_t next)
{
    uint32_t at = DESC + 16 * number;
    store(h, at, addr, 8);
    store(h, at + 8, len, 4);
    store(h, at + 12, flags, 2);
    store(h, at + 14, next, 2);
}

/* The guest's part of a request of one sector: the chain in its RAM, and its number in the ring. */
static void prepare(struct host *h, uint32_t count, uint32_t type, uint64_t sector)
{
    store(h, HEADER, type, 4);
    store(h, HEADER + 4, 0, 4);
    store(h, HEADER + 8, sector, 8);
    store(h, OUTCOME, 0xff, 1);
    describe_at(h, 0, HEADER, 16, HAS_NEXT, 1);
    describe_at(h, 1, DATA, 512, HAS_NEXT | (type == READ ? WRITABLE : 0), 2);
    describe_at(h, 2, OUTCOME, 1, WRITABLE, 0);
    store(h, AVAIL + 4 + 2 * ((count - 1) % SIZE), 0, 2);
    store(h, AVAIL + 2, count, 2);
}

/* One request, from the guest's pages and its kick to its interrupt and what it finds in its RAM. */
static void request(struct host *h, uint32_t count, uint32_t type, uint64_t sector)
{
    uint32_t len = 77, byte = 77;
    uint8_t none[1];

    prepare(h, count, type, sector);
    hand_in(h);
    expect("kick", vmig_reg_write(&h->machine, 0, 0x050, 4, 0, &byte), VMIG_OK);
    expect("taken", vmig_step(&h->machine, 0, 0, none, 0, &len), VMIG_TAKEN);
    expect("moved", vmig_step(&h->machine, 0, 1, none, 0, &len), VMIG_MOVED);
    expect("completed", vmig_step(&h->machine, 0, 1, none, 0, &len), VMIG_COMPLETED);
    expect("used length", len, type == READ ? 513 : 1);
    expect("nothing left", vmig_step(&h->machine, 0, 1, none, 0, &len), VMIG_IDLE);
    expect("an interrupt", vmig_lines(&h->machine), 1);
    expect("pages that the device wrote", hand_out(h), type == READ ? 3 : 2);
    expect("used ring", load(h, USED + 2, 2), count);
    expect("outcome", load(h, OUTCOME, 1), 0);
    expect("acknowledge", vmig_reg_write(&h->machine, 0, 0x064, 4, 1, &byte), VMIG_OK);
    mirrors(h);
}

/* The guest fills its buffer with bytes that depend on this number. */
static void fill(struct host *h, uint32_t with)
{
    for (uint32_t i = 0; i < 512; i++) store(h, DATA + i, with * i + 1, 1);
}

static void is_filled(const struct host *h, uint32_t with)
{
    for (uint32_t i = 0; i < 512; i++) expect("a byte of the sector", load(h, DATA + i, 1), (uint8_t)(with * i + 1));
}

/* Writes a sector, and reads it back into a buffer that was cleared. */
static void write_and_read(struct host *h, uint32_t count, uint64_t sector, uint32_t with)
{
    fill(h, with);
    request(h, count, WRITE, sector);
    for (uint32_t i = 0; i < 512; i++) store(h, DATA + i, 0, 1);
    request(h, count + 1, READ, sector);
    is_filled(h, with);
}

static void take_all(vmig_machine *m)
{
    uint8_t piece[1000];
    size_t got = 0;

    do {
        expect("take", vmig_send_take(m, piece, sizeof piece, &got), VMIG_OK);
        stream = realloc(stream, stream_len + got + 1);
        if (stream == NULL) exit(2);
        memcpy(stream + stream_len, piece, got);
        stream_len += got;
    } while (got > 0);
}

/* Sends what is due in this round. */
static void send_round(vmig_machine *m)
{
    expect("all that is due", vmig_send_some(m, UINT32_MAX), VMIG_ROUND_DONE);
    take_all(m);
}

/* Nothing is written where the call is refused. */
static void refuses(struct host *h)
{
    static const uint32_t beyond[] = {1, PAGES};
    uint64_t before = h->seen[1];
    uint32_t count = 77;
    vmig_machine none = VMIG_NONE;

    expect("no machine", push_list(&none, beyond, 1, h->ram, sizeof h->ram, h->seen, PAGES), VMIG_NO_MACHINE);
    expect("short RAM", push_list(&h->machine, beyond, 1, h->ram, sizeof h->ram - 1, h->seen, PAGES), VMIG_TOO_SMALL);
    expect("short list", push_list(&h->machine, beyond, 1, h->ram, sizeof h->ram, h->seen, PAGES - 1), VMIG_TOO_SMALL);
    expect("no such page", push_list(&h->machine, beyond, 2, h->ram, sizeof h->ram, h->seen, PAGES), VMIG_OUT_OF_RAM);
    expect("short RAM", vmig_pull(&h->machine, h->ram, sizeof h->ram - 1, h->seen, PAGES, &count), VMIG_TOO_SMALL);
    expect("short list", vmig_pull(&h->machine, h->ram, sizeof h->ram, h->seen, PAGES - 1, &count), VMIG_TOO_SMALL);
    expect("no machine", vmig_pull(&none, h->ram, sizeof h->ram, h->seen, PAGES, &count), VMIG_NO_MACHINE);
    expect("no count", count, 77);
    expect("nothing noted", h->seen[1], before);
    expect("nothing new", hand_out(h), 0);
}

/* A host that has seen no page of its machine. */
static void forget(struct host *h)
{
    memset(h->ram, 0xaa, sizeof h->ram);
    for (uint32_t page = 0; page < PAGES; page++) h->seen[page] = VMIG_UNSEEN;
}

static void move(struct host *source, struct host *target)
{
    uint64_t pages = 77, sectors = 77;
    uint32_t rounds = 77;
    static const uint32_t one[] = {0};

    expect("begin", vmig_send_begin(&source->machine), VMIG_OK);
    send_round(&source->machine);
    write_and_read(source, 3, 2, 11);
    expect("end of the round", vmig_send_round(&source->machine), VMIG_OK);
    send_round(&source->machine);
    write_and_read(source, 5, 3, 13);
    expect("stop", vmig_send_stop(&source->machine, &pages, &sectors), VMIG_OK);
    expect("pages that the guest and the disk wrote", pages, 4);
    expect("the sector that was written", sectors, 1);
    expect("stopped", push_list(&source->machine, one, 1, source->ram, sizeof source->ram, source->seen, PAGES), VMIG_STOPPED);
    expect("stopped", push_list(&source->machine, one, 0, source->ram, sizeof source->ram, source->seen, PAGES), VMIG_STOPPED);
    expect("nothing new", hand_out(source), 0);
    take_all(&source->machine);
    expect("receive", receive(stream, stream_len, &target->machine, &rounds), VMIG_OK);
    expect("rounds", rounds, 1);
    forget(target);
    expect("all pages", hand_out(target), PAGES);
    expect("the same RAM", (uint64_t)memcmp(source->ram, target->ram, sizeof target->ram), 0);
}

int main(void)
{
    static const vmig_shape shapes[] = {{.kind = VMIG_BLOCK, .sectors = SECTORS}};
    static struct host source, target;

    expect("make", make_new(PAGES, shapes, 1, &source.machine), VMIG_OK);
    forget(&source);
    expect("all pages", hand_out(&source), PAGES);
    mirrors(&source);
    set_up(&source.machine, 1);
    write_and_read(&source, 1, 1, 7);
    refuses(&source);
    move(&source, &target);
    write_and_read(&target, 7, 0, 17);

    free(stream);
    vmig_free(&source.machine);
    vmig_free(&target.machine);
    return ended("mirror");
}
