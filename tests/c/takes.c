/* What waits is taken at random moments and in pieces of random sizes: no byte, one, 4,100, and all; also while RAM is lent, and in some moves
 * nothing before the stop. A twin makes the same calls, and takes all that waits after each of them, so what it writes is digested at
 * once. Both have written the same bytes in the end, and what arrives of them is the machine. Some moves are given up, and the next one
 * begins anew. More waits than the library leaves undigested. */
#include <stdlib.h>
#include "driver.h"

enum { PAGES = 300, PAGE = 4096, RAM = PAGES * PAGE, SECTORS = 40, MOVES = 16, STREAM_MAX = 8 << 20, ALL = STREAM_MAX };

/* The devices, of which each has one queue, and the guest's own pages, from this one on. */
enum { BLOCK, ENTROPY, DEVICES, HEAP = 16, LENGTH = 200 };

/* A header of a request, its outcome and its bytes; a buffer for random ones. */
enum { HEADER = 0x7000, OUTCOME = 0x7100, BYTES = 0x8000, RANDOM = 0x9000, WRITE = 1 };

static const vmig_shape SHAPES[DEVICES] = {{.kind = VMIG_BLOCK, .sectors = SECTORS}, {.kind = VMIG_ENTROPY}};

struct host {
    vmig_machine machine;
    vmig_ram ram;       /* while it is lent */
    uint8_t room[RAM], stream[STREAM_MAX];
    size_t len;         /* of the stream, as far as it was taken */
};

/* The one that takes now and then, and its twin. */
static struct host hosts[2];
static struct host *const MINE = &hosts[0], *const TWIN = &hosts[1], *const END = &hosts[2];

static int is_sent, takes_late;
static uint16_t made[DEVICES];      /* how many chains the guest made available */

static uint32_t draw(uint32_t below)
{
    static uint32_t state = 2463534242;
    state ^= state << 13;
    state ^= state >> 17;
    state ^= state << 5;
    return state % below;
}

static size_t take(struct host *h, size_t size)
{
    size_t got = 77, room = STREAM_MAX - h->len;

    expect("take", vmig_send_take(&h->machine, h->stream + h->len, size < room ? size : room, &got), VMIG_OK);
    h->len += got;
    return got;
}

/* After a call of both: the twin takes all that waits, and the other one something, now and then. */
static void take_some(void)
{
    static const size_t sizes[] = {0, 1, 4100, ALL};

    if (!is_sent) return;
    take(TWIN, ALL);
    if (!takes_late && draw(3) == 0) take(MINE, sizes[draw(4)]);
}

/* A call of both, which they answer alike. */
#define BOTH(what, call, wanted) \
    do { \
        for (struct host *h = hosts; h < END; h++) expect(what, call, wanted); \
        take_some(); \
    } while (0)

/* The guest writes bytes of a page, or a page of zeros, in RAM that is lent. */
static uint32_t store(void)
{
    uint32_t page = HEAP + draw(PAGES - HEAP), at = page * PAGE + draw(PAGE - LENGTH), len = 1 + draw(LENGTH);

    for (uint32_t i = 0; i < len; i++) MINE->room[at + i] = TWIN->room[at + i] = (uint8_t)draw(256);
    if (draw(8) != 0) return page;
    for (struct host *h = hosts; h < END; h++) memset(h->room + page * PAGE, 0, PAGE);
    return page;
}

/* The guest runs on RAM that is lent to it. What it wrote is named as RAM comes back, or later. */
static void run_lent(void)
{
    uint32_t list[8], value;
    uint8_t byte = (uint8_t)draw(256);
    vmig_pages pages, none = VMIG_NO_PAGES;
    int is_marked = draw(2) == 0;
    size_t kept, count = 0;

    BOTH("lend", vmig_lend(&h->machine, &h->ram), VMIG_OK);
    for (uint32_t acts = draw(8); count < acts; take_some()) list[count++] = store();
    pages = vmig_list(list, count);
    BOTH("input while it is lent", vmig_input(&h->machine, ENTROPY, &byte, 1, &kept), VMIG_OK);
    BOTH("register while it is lent", vmig_reg_read(&h->machine, BLOCK, 0x060, 4, &value), VMIG_OK);
    BOTH("give back", vmig_give_back(&h->machine, &h->ram, is_marked ? &none : &pages), VMIG_OK);
    if (is_marked) BOTH("mark", vmig_mark(&h->machine, &pages), VMIG_OK);
}

static void request(vmig_machine *m, uint8_t dev, uint64_t sector)
{
    put(m, HEADER, WRITE, 8);
    put(m, HEADER + 8, sector, 8);
    describe(m, BLOCK, 0, HEADER, 16, HAS_NEXT, 1);
    describe(m, BLOCK, 1, BYTES, 512, HAS_NEXT, 2);
    describe(m, BLOCK, 2, OUTCOME, 1, WRITABLE, 0);
    describe(m, ENTROPY, 0, RANDOM, 16, WRITABLE, 0);
    make_available(m, dev, made[dev], 0);
    write_reg_of(m, dev, 0x050, 0);
}

/* The guest writes a sector, or asks for random bytes, and the devices do their work. */
static void work(void)
{
    uint8_t dev = (uint8_t)draw(DEVICES);
    uint64_t sector = draw(SECTORS), bytes = draw(UINT32_MAX);

    made[dev]++;
    for (struct host *h = hosts; h < END; h++) {
        put(&h->machine, BYTES, bytes, 8);
        request(&h->machine, dev, sector);
        serve(&h->machine);
    }
    take_some();
    expect("an outcome", get(&MINE->machine, OUTCOME, 1), 0);
}

/* Copies what is due in this round, while the guest runs. Bytes that wait are those of the copies. */
static void send_round(void)
{
    vmig_status status;

    do {
        uint32_t most = draw(60);
        if (draw(2) == 0) run_lent();
        if (draw(2) == 0) work();
        status = vmig_send_some(&MINE->machine, most);
        expect("copied alike", vmig_send_some(&TWIN->machine, most), status);
        take_some();
    } while (status == VMIG_OK);
    expect("the round was sent", status, VMIG_ROUND_DONE);
}

/* What was taken is one stream, and what arrives of it is the machine. */
static void arrives(void)
{
    static uint8_t saved[2][PAGES * 4101 + 65536];
    vmig_machine target = VMIG_NONE;
    size_t len = 0, other = 0;
    uint32_t rounds;

    expect("as many bytes", TWIN->len, MINE->len);
    expect("the same bytes", (uint64_t)memcmp(MINE->stream, TWIN->stream, MINE->len), 0);
    expect("receive", receive(MINE->stream, MINE->len, &target, &rounds), VMIG_OK);
    expect("save", vmig_save(&MINE->machine, saved[0], sizeof saved[0], &len), VMIG_OK);
    expect("save what arrived", vmig_save(&target, saved[1], sizeof saved[1], &other), VMIG_OK);
    expect("the same machine", other == len && memcmp(saved[0], saved[1], len) == 0, 1);
    vmig_free(&target);
}

/* A move to its end, or to where it is given up. */
static void move(int is_given_up)
{
    uint64_t pages, sectors;

    MINE->len = TWIN->len = 0;
    is_sent = 1;
    BOTH("begin", vmig_send_begin(&h->machine), VMIG_OK);
    send_round();
    for (uint32_t rounds = draw(4); rounds > 0; rounds--) {
        BOTH("end of the round", vmig_send_round(&h->machine), VMIG_OK);
        send_round();
    }
    if (!is_given_up) BOTH("stop", vmig_send_stop(&h->machine, &pages, &sectors), VMIG_OK);
    while (!is_given_up && take(MINE, 1 + draw(PAGE)) > 0) continue;
    is_sent = 0;
    BOTH("abort", vmig_send_abort(&h->machine), VMIG_OK);
    if (!is_given_up) arrives();
}

int main(void)
{
    for (struct host *h = hosts; h < END; h++) {
        vmig_ram ram = {h->room, RAM};
        memset(h->room, 0x5a, RAM);
        memset(h->room, 0, HEAP * PAGE);
        expect("make", make_over(&ram, SHAPES, DEVICES, NULL, 0, &h->machine), VMIG_OK);
        set_up_device(&h->machine, BLOCK, BLOCK, 1, 0);
        set_up_device(&h->machine, ENTROPY, ENTROPY, 1, 0);
    }
    for (int moves = 0; moves < MOVES && failures == 0; moves++) {
        takes_late = moves % 4 == 3;
        move(moves % 5 == 2);
    }
    for (struct host *h = hosts; h < END; h++) vmig_free(&h->machine);
    return ended("takes");
}
