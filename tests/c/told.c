/* A machine is sent whose digest its host tells. A twin makes the same calls without the flag. What both write is the
 * same but for the digest of the last record, which the host of the first makes of what it took, in pieces of random
 * sizes, also while RAM is lent: the whole stream is that of the twin, byte for byte. Until it is told all but the last
 * 33 bytes can be taken. Some moves are given up after the stop, before the digest is told or after it, and the next
 * one begins anew, with the flag or without it. A wrong digest is refused where the stream arrives.
 *     So is a small machine moved, often: `told CUTTINGS` cuts this number of its streams at random. */
#include <stdlib.h>
#include "driver.h"

enum { PAGE = 4096, PAGES_MAX = 60, MOVES = 60, CUTTINGS = 500, RECORD = 33, STREAM_MAX = 4 << 20, ALL = STREAM_MAX };

/* The devices, of which each has one queue, and the most bytes that the guest writes at once. */
enum { BLOCK, ENTROPY, DEVICES, LENGTH = 200 };

/* A header of a request, its outcome and its bytes. */
enum { HEADER = 0x7000, OUTCOME = 0x7100, BYTES = 0x8000, WRITE = 1 };

/* A machine: its RAM, the guest's own pages, from this one on, and its disk. A small one has no driver. */
struct extent {
    uint32_t pages, heap, sectors;
};
static const struct extent LARGE = {PAGES_MAX, 16, 40}, SMALL = {3, 0, 2};
static struct extent extent;

struct host {
    vmig_machine machine;
    vmig_ram ram;       /* while it is lent */
    uint8_t room[PAGES_MAX * PAGE], stream[STREAM_MAX];
    size_t len;         /* of the stream, as far as it was taken */
};

/* The one whose host tells, and its twin. */
static struct host hosts[2];
static struct host *const MINE = &hosts[0], *const TWIN = &hosts[1], *const END = &hosts[2];

static vmig_digest digest;      /* of what was taken of the first */
static int is_sent;
static uint16_t made;           /* how many chains the guest made available */

static uint32_t draw(uint32_t below)
{
    static uint32_t state = 2463534242;
    state ^= state << 13;
    state ^= state >> 17;
    state ^= state << 5;
    return state % below;
}

static size_t take(struct host *h, size_t size)
{
    size_t got = 77, room = STREAM_MAX - h->len;

    expect("take", vmig_send_take(&h->machine, h->stream + h->len, size < room ? size : room, &got), VMIG_OK);
    if (h == MINE) vmig_digest_add(&digest, h->stream + h->len, got);
    h->len += got;
    return got;
}

static void expect_not_asked(const char *what)
{
    static const uint8_t any[32] = {1};

    expect(what, vmig_send_tell(&MINE->machine, any), VMIG_NOT_ASKED);
    expect("of one that digests", vmig_send_tell(&TWIN->machine, any), VMIG_NOT_ASKED);
}

/* How many bytes are taken at once: within a record, about one, or all. */
static size_t any_size(void)
{
    static const uint32_t below[] = {1, 2, RECORD, 600, 2 * PAGE};
    uint32_t kind = draw(6);

    return kind == 5 ? ALL : draw(below[kind]);
}

/* A call of both, which they answer alike; then some of what waits is taken, now and then. */
static void take_some(void)
{
    if (!is_sent) return;
    for (struct host *h = hosts; h < END; h++)
        if (draw(3) == 0) take(h, any_size());
}

#define BOTH(what, call, wanted) \
    do { \
        for (struct host *h = hosts; h < END; h++) expect(what, call, wanted); \
        take_some(); \
    } while (0)

/* The guest writes the same into the RAM of both, or makes a page one of zeros. */
static uint32_t write_page(void)
{
    uint32_t page = extent.heap + draw(extent.pages - extent.heap);
    uint32_t at = page * PAGE + draw(PAGE - LENGTH), len = 1 + draw(LENGTH);

    for (uint32_t i = 0; i < len; i++) MINE->room[at + i] = TWIN->room[at + i] = (uint8_t)draw(256);
    if (draw(3) > 0) return page;
    for (struct host *h = hosts; h < END; h++) memset(h->room + page * PAGE, 0, PAGE);
    return page;
}

/* Copies the page that is next out of lent RAM, if one is, and hands it in: of both the same. */
static void hand_in(void)
{
    static uint8_t bytes[PAGE];
    uint32_t pages[2] = {77, 77};
    vmig_status status = vmig_send_next(&MINE->machine, &pages[0]);

    expect("the same is next", vmig_send_next(&TWIN->machine, &pages[1]), status);
    expect("the same page", pages[0], pages[1]);
    if (status != VMIG_OK) return;
    vmig_copy_page(MINE->room + pages[0] * PAGE, bytes);
    BOTH("a page", vmig_send_page(&h->machine, pages[0], bytes), VMIG_OK);
}

/* The guest writes into RAM that is lent to it; registers are read, pages handed in and bytes taken, while it is. */
static void run_lent(void)
{
    uint32_t list[8], value;
    vmig_pages pages;
    size_t count = 0;

    BOTH("lend", vmig_lend(&h->machine, &h->ram), VMIG_OK);
    for (uint32_t acts = draw(8); count < acts; take_some()) {
        list[count++] = write_page();
        if (is_sent && draw(2) == 0) hand_in();
    }
    pages = vmig_list(list, count);
    BOTH("register while it is lent", vmig_reg_read(&h->machine, BLOCK, 0x060, 4, &value), VMIG_OK);
    for (struct host *h = hosts; h < END; h++) {
        expect("tell while it is lent", vmig_send_tell(&h->machine, MINE->room), VMIG_LENT);
        expect("begin while it is lent", vmig_send_begin_as(&h->machine, VMIG_TOLD), VMIG_LENT);
    }
    BOTH("give back", vmig_give_back(&h->machine, &h->ram, &pages), VMIG_OK);
}

/* The guest writes a sector. */
static void work(void)
{
    uint64_t sector = draw(extent.sectors), bytes = draw(UINT32_MAX);

    made++;
    for (struct host *h = hosts; h < END; h++) {
        vmig_machine *m = &h->machine;
        put(m, BYTES, bytes, 8);
        put(m, HEADER, WRITE, 8);
        put(m, HEADER + 8, sector, 8);
        describe(m, BLOCK, 0, HEADER, 16, HAS_NEXT, 1);
        describe(m, BLOCK, 1, BYTES, 512, HAS_NEXT, 2);
        describe(m, BLOCK, 2, OUTCOME, 1, WRITABLE, 0);
        make_available(m, BLOCK, made, 0);
        write_reg_of(m, BLOCK, 0x050, 0);
        serve(m);
        expect("an outcome", get(m, OUTCOME, 1), 0);
    }
    take_some();
}

/* Copies what is due in this round, while the guest runs. */
static void send_round(void)
{
    vmig_status status;

    do {
        uint32_t most = draw(60);
        if (draw(2) == 0) run_lent();
        if (draw(2) == 0 && extent.heap > 0) work();
        if (is_sent) expect_not_asked("tell before the stop");
        status = vmig_send_some(&MINE->machine, most);
        expect("copied alike", vmig_send_some(&TWIN->machine, most), status);
        take_some();
    } while (status == VMIG_OK);
    expect("the round was sent", status, VMIG_ROUND_DONE);
}

/* How the stream ends where it arrives, with this digest in its last record. */
static vmig_status fed(const uint8_t *bytes, size_t len)
{
    vmig_machine target = VMIG_NONE;
    vmig_status status = arrive_any(&target);
    size_t piece;

    for (size_t at = 0; at < len && !vmig_refused(status); at += piece) {
        piece = 1 + draw(2 * PAGE);
        if (piece > len - at) piece = len - at;
        status = vmig_feed(&target, bytes + at, piece);
    }
    vmig_free(&target);
    return status;
}

/* What was taken is one stream, that of the twin, and what arrives of it is the machine. */
static void arrives(void)
{
    static uint8_t saved[2][PAGES_MAX * 4101 + 65536];
    vmig_machine target = VMIG_NONE;
    size_t len = 0, other = 0;
    uint32_t rounds;

    expect("as many bytes", MINE->len, TWIN->len);
    expect("the same bytes", (uint64_t)memcmp(MINE->stream, TWIN->stream, MINE->len), 0);
    expect("fed", fed(MINE->stream, MINE->len), VMIG_WHOLE);
    expect("receive", receive(MINE->stream, MINE->len, &target, &rounds), VMIG_OK);
    expect("save", vmig_save(&MINE->machine, saved[0], sizeof saved[0], &len), VMIG_OK);
    expect("save what arrived", vmig_save(&target, saved[1], sizeof saved[1], &other), VMIG_OK);
    expect("the same machine", other == len && memcmp(saved[0], saved[1], len) == 0, 1);
    vmig_free(&target);
}

/* All but the record can be taken, however often it is asked for; then the digest is told, once. */
static void tell(int is_wrong)
{
    uint8_t out[32];
    size_t front;

    while (take(MINE, 1 + any_size()) > 0) continue;
    while (take(TWIN, ALL) > 0) continue;
    front = MINE->len;
    expect("all but the record", front, TWIN->len - RECORD);
    expect("nothing more", take(MINE, ALL), 0);
    vmig_digest_end(&digest, out);
    expect("the digest of the twin", (uint64_t)memcmp(out, TWIN->stream + TWIN->len - 32, 32), 0);
    if (is_wrong) out[draw(32)] ^= (uint8_t)(1 << draw(8));
    expect("tell", vmig_send_tell(&MINE->machine, out), VMIG_OK);
    expect_not_asked("tell twice");
    while (MINE->len < front + RECORD) take(MINE, draw(RECORD));
    expect("the record is all", take(MINE, ALL), 0);
    expect("the record", MINE->stream[front], TWIN->stream[front]);
    expect("its digest", (uint64_t)memcmp(MINE->stream + front + 1, out, 32), 0);
    expect_not_asked("tell after the end");
}

/* A move to its end, or to where it is given up: before the stop, after it, or once the digest was told. */
enum { WHOLE, WRONG, AT_ONCE, UNTOLD, MANNERS };

static void move(uint32_t manner)
{
    uint64_t pages, sectors;

    MINE->len = TWIN->len = 0;
    vmig_digest_begin(&digest);
    is_sent = 1;
    expect("begin", vmig_send_begin_as(&MINE->machine, VMIG_TOLD), VMIG_OK);
    if (draw(2) == 0) expect("begin without it", vmig_send_begin(&TWIN->machine), VMIG_OK);
    else expect("begin with no flag", vmig_send_begin_as(&TWIN->machine, 0), VMIG_OK);
    BOTH("begin again", vmig_send_begin_as(&h->machine, VMIG_TOLD), VMIG_SENDING);
    BOTH("begin again, and badly", vmig_send_begin_as(&h->machine, 3), VMIG_SENDING);
    BOTH("begin again as ever", vmig_send_begin(&h->machine), VMIG_SENDING);
    send_round();
    for (uint32_t rounds = draw(4); rounds > 0; rounds--) {
        BOTH("end of the round", vmig_send_round(&h->machine), VMIG_OK);
        send_round();
    }
    if (manner != AT_ONCE) {
        expect_not_asked("tell before the stop");
        BOTH("stop", vmig_send_stop(&h->machine, &pages, &sectors), VMIG_OK);
        BOTH("begin after the stop", vmig_send_begin_as(&h->machine, VMIG_TOLD), VMIG_STOPPED);
    }
    if (manner == WHOLE || manner == WRONG) tell(manner == WRONG);
    is_sent = 0;
    BOTH("abort", vmig_send_abort(&h->machine), VMIG_OK);
    BOTH("tell of one that is idle", vmig_send_tell(&h->machine, MINE->stream), VMIG_NOT_SENDING);
    if (manner == WHOLE) arrives();
    if (manner == WRONG) expect("a wrong digest", fed(MINE->stream, MINE->len), VMIG_STREAM_BAD_DIGEST);
}

/* After a move with the flag and without its end, one without it is as ever. */
static void move_as_ever(void)
{
    uint64_t pages, sectors;
    struct host *h = MINE;

    h->len = 0;
    expect("begin as ever", vmig_send_begin(&h->machine), VMIG_OK);
    expect("stop as ever", vmig_send_stop(&h->machine, &pages, &sectors), VMIG_OK);
    while (take(h, ALL) > 0) continue;
    expect("its digest is asked of nobody", vmig_send_tell(&h->machine, h->stream), VMIG_NOT_ASKED);
    expect("it is whole", fed(h->stream, h->len), VMIG_WHOLE);
    expect("abort", vmig_send_abort(&h->machine), VMIG_OK);
}

/* What is refused before memory is asked for: unknown flags, and each call of a handle that has no machine. */
static void refuse(void)
{
    static const uint32_t flags[] = {1, 2, 3, 5, 6, 7, 8, 0x80000000, UINT32_MAX};
    static const uint8_t any[32];
    vmig_machine none = VMIG_NONE, target = VMIG_NONE;

    for (size_t i = 0; i < sizeof flags / sizeof *flags; i++) {
        expect("an unknown flag", vmig_send_begin_as(&MINE->machine, flags[i]), VMIG_NOT_KNOWN);
        expect("nothing began", vmig_send_round(&MINE->machine), VMIG_NOT_SENDING);
    }
    expect("arrive", arrive_any(&target), VMIG_OK);
    for (uint32_t i = 0; i < 4; i++) {
        expect("begin of none", vmig_send_begin_as(&none, i), VMIG_NO_MACHINE);
        expect("begin of what arrives", vmig_send_begin_as(&target, i), VMIG_NO_MACHINE);
    }
    expect("tell of none", vmig_send_tell(&none, any), VMIG_NO_MACHINE);
    expect("tell of what arrives", vmig_send_tell(&target, any), VMIG_NO_MACHINE);
    vmig_free(&target);
}

/* Both machines anew, of this size. */
static void make_both(const struct extent *wanted)
{
    vmig_shape shapes[DEVICES] = {{.kind = VMIG_BLOCK, .sectors = wanted->sectors}, {.kind = VMIG_ENTROPY}};

    extent = *wanted, made = 0;
    for (struct host *h = hosts; h < END; h++) {
        vmig_ram ram = {h->room, (size_t)extent.pages * PAGE};
        memset(h->room, extent.heap > 0 ? 0x5a : 0, ram.len);
        memset(h->room, 0, extent.heap * PAGE);
        expect("make", make_over(&ram, shapes, DEVICES, NULL, 0, &h->machine), VMIG_OK);
        if (extent.heap > 0) set_up_device(&h->machine, BLOCK, BLOCK, 1, 0);
    }
}

static void free_both(void)
{
    for (struct host *h = hosts; h < END; h++) vmig_free(&h->machine);
}

int main(int argc, char **argv)
{
    uint32_t cuttings = argc > 1 ? (uint32_t)strtoul(argv[1], NULL, 10) : CUTTINGS;

    make_both(&LARGE);
    refuse();
    for (int moves = 0; moves < MOVES && failures == 0; moves++) {
        move(draw(MANNERS));
        if (draw(4) == 0) move_as_ever();
    }
    free_both();
    make_both(&SMALL);
    while (cuttings > 0 && failures == 0) {
        uint32_t manner = draw(2) == 0 ? WHOLE : draw(MANNERS);
        move(manner);
        cuttings -= manner == WHOLE;
        if (draw(16) == 0) move_as_ever();
    }
    free_both();
    return ended("told");
}
