/* A host that translates the guest's code, or keeps anything else that it made of RAM: of each page that is written it has to drop what
 * it has. What the guest writes it sees itself, and vmig_written names the pages that calls wrote: exactly these, also where a device
 * wrote the bytes that were there. Here the host keeps a copy of each page, which is right all the time; in every tenth turn it keeps
 * one of the copies that it was to drop, and finds that one, and no other, to be wrong. The machine is moved meanwhile. */
#include "driver.h"

enum { PAGES = 32, PAGE = 4096, RAM = PAGES * PAGE, HEAP = 16, TURNS = 240, MOVE_EVERY = 40, LENGTH_MAX = 3 * PAGE };

static const vmig_shape SHAPE = {.kind = VMIG_ENTROPY};
static uint8_t rooms[2][RAM], copies[RAM], stream[RAM + RAM / 2];

struct host {
    vmig_machine machine;
    vmig_ram ram;           /* while it is lent */
    uint8_t *room;
    uint16_t made;          /* chains that the guest made available */
    uint8_t drops[PAGES];   /* the copies to be dropped */
};

static uint32_t draw(uint32_t below)
{
    static uint32_t state = 88172645;
    state ^= state << 13;
    state ^= state >> 17;
    state ^= state << 5;
    return state % below;
}

/* The guest writes a number, and the host sees it. */
static void store(struct host *h, uint32_t addr, uint64_t value, size_t width)
{
    for (size_t i = 0; i < width; i++) {
        h->room[addr + i] = (uint8_t)(value >> (8 * i));
        h->drops[(addr + i) / PAGE] = 1;
    }
}

/* The guest asks for random bytes, and the host puts some in that are in no page yet. Returns how many the device will write. */
static uint32_t request(struct host *h, uint32_t addr, uint8_t value)
{
    static uint8_t bytes[PAGE];
    uint32_t asked = 1 + draw(LENGTH_MAX), given = 1 + draw(PAGE);
    size_t kept = 0;

    memset(bytes, value, given);
    store(h, DESC, addr, 8), store(h, DESC + 8, asked, 4), store(h, DESC + 12, WRITABLE, 2);
    store(h, AVAIL + 4 + 2 * (h->made++ % SIZE), 0, 2), store(h, AVAIL + 2, h->made, 2);
    write_reg(&h->machine, 0x050, 0);
    expect("input", vmig_input(&h->machine, 0, bytes, given, &kept), VMIG_OK);
    expect("all of it", kept, given);
    return asked < given ? asked : given;
}

/* The pages that calls wrote, by pieces of a few: those of the buffer, and that of the used ring. The host drops its copies of these, but
 * for one where it is to keep it. Returns the page that it kept, or PAGES. */
static uint32_t hear(struct host *h, uint32_t addr, uint32_t len, int keeps)
{
    uint32_t wanted[PAGES] = {USED / PAGE}, count = 1, found = 0, kept = PAGES, pages[PAGES];
    size_t got, size = 1 + draw(3);

    for (uint32_t page = addr / PAGE; page <= (addr + len - 1) / PAGE; page++) wanted[count++] = page;
    if (keeps) kept = wanted[draw(count)];
    do {
        expect("written", vmig_written(&h->machine, pages, size, &got), VMIG_OK);
        for (size_t k = 0; k < got; k++, found++) {
            expect("a page that was written", found < count ? pages[k] : PAGES, wanted[found % count]);
            if (pages[k] < PAGES && pages[k] != kept) h->drops[pages[k]] = 1;
        }
    } while (got == size);
    expect("all of them", found, count);
    if (kept < PAGES) h->drops[kept] = 0;
    return kept;
}

/* What was dropped is made anew as the guest comes to it. A copy that was kept is wrong. */
static void use(struct host *h, uint32_t kept)
{
    for (uint32_t page = 0; page < PAGES; page++) {
        if (h->drops[page]) memcpy(copies + page * PAGE, h->room + page * PAGE, PAGE);
        expect("a copy that is wrong", memcmp(copies + page * PAGE, h->room + page * PAGE, PAGE) != 0, page == kept);
        h->drops[page] = page == kept;
    }
}

static void turn(struct host *h, int number)
{
    static const vmig_pages all = VMIG_ALL_PAGES;
    uint32_t addr = HEAP * PAGE + draw((PAGES - HEAP) * PAGE - LENGTH_MAX), len, used = 0;
    uint8_t none[1];

    expect("lend", vmig_lend(&h->machine, &h->ram), VMIG_OK);
    store(h, HEAP * PAGE + draw((PAGES - HEAP) * PAGE - 8), (uint64_t)number << 32, 8);
    len = request(h, addr, (uint8_t)(number % 251 + 1));
    expect("give back", vmig_give_back(&h->machine, &h->ram, &all), VMIG_OK);
    expect("step", vmig_step(&h->machine, 0, 0, none, 0, &used), VMIG_COMPLETED);
    expect("its length", used, len);
    expect("drop", vmig_drop(&h->machine, 0), VMIG_OK);
    use(h, hear(h, addr, len, number % 10 == 0));
}

/* The machine arrives in the other room, with a log of its own. All that the host has is to be dropped, as RAM is new to it. */
static void move(struct host *h)
{
    vmig_arrival arrival = VMIG_ARRIVAL;
    vmig_machine target = VMIG_NONE;
    uint64_t pages, sectors;
    uint8_t *room = h->room == rooms[0] ? rooms[1] : rooms[0];
    uint32_t written[PAGES];
    size_t len = 0, got;

    while (vmig_send_some(&h->machine, 5) != VMIG_ROUND_DONE) continue;
    expect("stop", vmig_send_stop(&h->machine, &pages, &sectors), VMIG_OK);
    while (expect("take", vmig_send_take(&h->machine, stream + len, sizeof stream - len, &got), VMIG_OK), got > 0) len += got;
    arrival.ram = (vmig_ram){room, RAM}, arrival.flags = VMIG_LOG;
    expect("arrive", vmig_arrive(&arrival, &target), VMIG_OK);
    expect("feed", vmig_feed(&target, stream, len), VMIG_WHOLE);
    expect("finish", vmig_finish(&target), VMIG_OK);
    expect("written", vmig_written(&target, written, PAGES, &got), VMIG_OK);
    expect("none at an arrival", got, 0);
    vmig_free(&h->machine);
    h->machine = target;
    h->room = room;
    memset(h->drops, 1, sizeof h->drops);
}

int main(void)
{
    static struct host h;
    vmig_setup setup = VMIG_SETUP;

    setup.ram = (vmig_ram){rooms[0], RAM}, setup.shapes = &SHAPE, setup.count = 1, setup.flags = VMIG_LOG;
    expect("make", vmig_make(&setup, &h.machine), VMIG_OK);
    h.room = rooms[0];
    set_up(&h.machine, 1);
    for (int number = 1; number <= TURNS && failures == 0; number++) {
        if (number % MOVE_EVERY == MOVE_EVERY / 2) expect("begin", vmig_send_begin(&h.machine), VMIG_OK);
        turn(&h, number);
        if (number % MOVE_EVERY == 0) move(&h);
    }
    vmig_free(&h.machine);
    return ended("translated");
}
