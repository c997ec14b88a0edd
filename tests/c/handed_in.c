/* Pages are handed in while RAM is lent and the guest writes: within calls of this host, between the halves of a copy,
 * and then on a thread of its own. So a page that is handed in may be a mixture, half written, and of torn words. Loans
 * have all lengths; sectors are sent, pages named and rounds ended while RAM is lent and while it is not; a send fails
 * because memory is refused, a move is given up, and the next one begins anew. What arrives is RAM, byte for byte, and
 * the disk. A host that forgets a page after it has copied the page, and not before, has to be found in each move.
 * `handed_in MOVES` makes this number of moves beside the thread. */
#include <stdlib.h>
#include "guest.h"

enum { SECTORS = 24, MOVES = 300, MOVES_BESIDE = 150, BROKEN_MOVES = 20, STREAM_MAX = 8 << 20 };

/* The devices, of which the disk has a queue. */
enum { BLOCK, ENTROPY, DEVICES };

/* A header of a request, its outcome and its bytes. */
enum { HEADER = 0x7000, OUTCOME = 0x7100, BYTES = 0x8000, WRITE = 1 };

static const vmig_shape SHAPES[DEVICES] = {{.kind = VMIG_BLOCK, .sectors = SECTORS}, {.kind = VMIG_ENTROPY}};

#if defined(__has_feature)
#if __has_feature(thread_sanitizer) || __has_feature(address_sanitizer)
#define IS_SANITIZED
#endif
#endif
#if defined(__SANITIZE_THREAD__) || defined(__SANITIZE_ADDRESS__) || defined(IS_SANITIZED)
/* A sanitizer has an allocator of its own, which refuses nothing. */
enum { CAN_REFUSE = 0 };
static int refuses;
#else
enum { CAN_REFUSE = 1 };

/* The C library's own allocator, under the names that it keeps for a program with its own malloc. */
void *__libc_malloc(size_t size);
void *__libc_calloc(size_t count, size_t size);
void *__libc_realloc(void *at, size_t size);
void __libc_free(void *at);

static int refuses;     /* whether each request for memory is refused */

void *malloc(size_t size) { return refuses ? NULL : __libc_malloc(size); }
void *calloc(size_t count, size_t size) { return refuses ? NULL : __libc_calloc(count, size); }
void *realloc(void *old, size_t size) { return refuses ? NULL : __libc_realloc(old, size); }
void free(void *at) { __libc_free(at); }
#endif

static vmig_machine machine;
static vmig_machine *const m = &machine;
static vmig_ram ram;                    /* while it is lent */
static _Alignas(8) uint8_t target_room[RAM], copy[PAGE];
static uint8_t stream[STREAM_MAX];
static size_t len;                      /* of the stream, as far as it was taken */
static uint16_t made;                   /* how many chains the guest made available */

/* Pages that the guest wrote in earlier loans, and that were not named yet. */
static uint8_t late[PAGES];

static int is_broken;                   /* whether the host forgets after the copy */
static uint32_t handed, torn, halved, sectors_sent, ended_lent, marked_lent, failed;

static uint32_t draw(uint32_t below)
{
    static uint32_t state = 2463534242;
    return draw_by(&state, below);
}

/* Copies a page out of lent RAM, often in two halves, between which the guest writes. */
static void copy_page(uint32_t page)
{
    static _Alignas(8) uint8_t first[PAGE];

    atomic_store(&busy, page);
    vmig_copy_page(room + page * PAGE, first);
    let_guest_write();
    vmig_copy_page(room + page * PAGE, copy);
    if (!has_thread || draw(2) == 0) memcpy(copy, first, PAGE / 2);
    torn += atomic_load(&logged[page]);
    let_guest_write();
    atomic_store(&busy, PAGES);
}

static void forget(uint32_t page)
{
    atomic_exchange(&logged[page], 0);
    late[page] = 0;
}

/* As a host does: the page is forgotten, and then copied. The guest writes between the two, and during the copy. */
static void forget_and_copy(uint32_t page)
{
    uint32_t asked = page < HEAP ? 0 : draw(4);

    forget(page);
    if (asked == 1) tell_guest(A_WORD, page);
    if (asked == 2) tell_guest(FIRST_HALF, page);
    copy_page(page);
    if (asked == 2) tell_guest(SECOND_HALF, page);
    if (asked == 3) tell_guest(A_WORD, page);
    halved += asked == 2;
}

/* The wrong way round. What the guest writes between the two is in no copy and in no log. */
static void copy_and_forget(uint32_t page)
{
    copy_page(page);
    if (page >= HEAP) tell_guest(A_WORD, page);
    forget(page);
}

static void take_some(size_t size)
{
    size_t got = 1;

    while (got > 0) {
        size_t left = STREAM_MAX - len;
        expect("take", vmig_send_take(m, stream + len, size < left ? size : left, &got), VMIG_OK);
        len += got;
        if (size < STREAM_MAX) return;
    }
}

/* No other page is taken, and none that is not there; nothing changes by it. */
static void try_others(uint32_t page)
{
    uint32_t other = draw(PAGES), again = PAGES;

    if (other != page) expect("another page", vmig_send_page(m, other, copy), VMIG_NOT_NEXT);
    expect("no such page", vmig_send_page(m, PAGES + draw(2) * 1000, copy), VMIG_OUT_OF_RAM);
    expect("the same is next", vmig_send_next(m, &again), page < PAGES ? VMIG_OK : VMIG_SECTORS);
    if (page == PAGES) return;
    expect("its number", again, page);
    expect("pages are not sent so", vmig_send_some(m, 1 + draw(9)), VMIG_LENT);
}

/* Hands in the page that is next, if it is one, or sends sectors. Whether the send has failed. */
static int hand_in(int memory)
{
    uint32_t page = PAGES;
    vmig_status status = vmig_send_next(m, &page);

    if (status == VMIG_ROUND_DONE) return 0;
    if (status == VMIG_SECTORS) {
        if (draw(4) == 0) try_others(PAGES);
        refuses = !memory;
        status = vmig_send_some(m, draw(5));
        refuses = 0;
        sectors_sent++;
        if (memory || status != VMIG_SEND_FAILED) expect("sectors", status == VMIG_OK || status == VMIG_ROUND_DONE, 1);
        return status == VMIG_SEND_FAILED;
    }
    expect("what is next", status, VMIG_OK);
    if (draw(8) == 0) try_others(page);
    if (is_broken) copy_and_forget(page);
    else forget_and_copy(page);
    refuses = !memory;
    status = vmig_send_page(m, page, copy);
    refuses = 0;
    handed++;
    if (memory || status != VMIG_SEND_FAILED) expect("a page", status, VMIG_OK);
    return status == VMIG_SEND_FAILED;
}

/* Names the pages that an earlier loan left. */
static void mark_late(void)
{
    uint32_t list[PAGES];
    size_t count = 0;
    vmig_pages pages;

    for (uint32_t page = 0; page < PAGES; page++)
        if (late[page] || (logged[page] && draw(2) == 0)) list[count++] = page;
    pages = vmig_list(list, count);
    expect("mark", vmig_mark(m, &pages), VMIG_OK);
    memset(late, 0, sizeof late);
}

/* RAM comes back. Some of the pages that were written are named, the others stay to be named. */
static void give_back(void)
{
    uint64_t words[1] = {0};
    vmig_pages pages;

    for (uint32_t page = 0; page < PAGES; page++) {
        late[page] |= atomic_exchange(&logged[page], 0);
        if (late[page] && draw(3) > 0) words[0] |= 1ull << page, late[page] = 0;
    }
    pages = vmig_bitmap(words, 1);
    expect("give back", vmig_give_back(m, &ram, &pages), VMIG_OK);
}

/* Nothing is sent any more. */
static void expect_failed(void)
{
    uint32_t page = 77;

    failed++;
    expect("next after it", vmig_send_next(m, &page), VMIG_SEND_FAILED);
    expect("as it was", page, 77);
    expect("a page after it", vmig_send_page(m, draw(2 * PAGES), copy), VMIG_SEND_FAILED);
    expect("sectors after it", vmig_send_some(m, 1), VMIG_SEND_FAILED);
    expect("a round after it", vmig_send_round(m), VMIG_SEND_FAILED);
}

/* A loan, in which the guest runs, and this host sends. Whether the send has failed. */
static int loan(int is_sent)
{
    uint32_t acts = draw(4) == 0 ? draw(120) : draw(12);
    int is_over = 0;

    expect("lend", vmig_lend(m, &ram), VMIG_OK);
    tell_guest(RUN, 0);
    for (; acts > 0 && !is_over; acts--) {
        let_guest_write();
        if (!is_sent) continue;
        is_over = hand_in(draw(60) > 0);
        if (draw(10) == 0) mark_late(), marked_lent++;
        if (!is_over && draw(20) == 0) {
            vmig_status status;
            mark_late();
            status = vmig_send_round(m);
            ended_lent += status == VMIG_OK;
            expect("end of a round while lent", status == VMIG_OK || status == VMIG_ROUND_OPEN, 1);
        }
        if (draw(6) == 0) take_some(draw(3 * PAGE));
    }
    if (is_over) expect_failed();
    tell_guest(REST, 0);
    give_back();
    return is_over;
}

/* The last loan of a move, in which the guest writes only what it is told to, so that nothing that a copy missed is
 * written again. A page of the guest's own is handed in, at least. */
static void last_loan(void)
{
    uint32_t page = HEAP + draw(PAGES - HEAP);
    vmig_pages pages = vmig_list(&page, 1);

    while (vmig_send_some(m, UINT32_MAX) == VMIG_OK) continue;
    mark_late();
    expect("mark for the last loan", vmig_mark(m, &pages), VMIG_OK);
    expect("end of a round before it", vmig_send_round(m), VMIG_OK);
    expect("lend", vmig_lend(m, &ram), VMIG_OK);
    while (vmig_send_next(m, &page) != VMIG_ROUND_DONE) hand_in(1);
    give_back();
}

/* The guest writes a sector, with RAM in. */
static void work(void)
{
    uint64_t sector = draw(SECTORS), bytes = draw(UINT32_MAX);

    made++;
    put(m, BYTES, bytes, 8);
    put(m, HEADER, WRITE, 8);
    put(m, HEADER + 8, sector, 8);
    describe(m, BLOCK, 0, HEADER, 16, HAS_NEXT, 1);
    describe(m, BLOCK, 1, BYTES, 512, HAS_NEXT, 2);
    describe(m, BLOCK, 2, OUTCOME, 1, WRITABLE, 0);
    make_available(m, BLOCK, made, 0);
    write_reg_of(m, BLOCK, 0x050, 0);
    serve(m);
    expect("an outcome", get(m, OUTCOME, 1), 0);
}

/* Sends with RAM in: some items, or the end of a round. */
static void send_here(void)
{
    uint32_t page = 0;
    vmig_status told = vmig_send_next(m, &page), status;

    expect("not lent", vmig_send_page(m, page, copy), VMIG_NOT_LENT);
    status = vmig_send_some(m, 1 + draw(9));
    expect("items", status == VMIG_ROUND_DONE || (status == VMIG_OK && told != VMIG_ROUND_DONE), 1);
    if (draw(3) > 0) return;
    mark_late();
    status = vmig_send_round(m);
    expect("end of a round", status == VMIG_OK || status == VMIG_ROUND_OPEN, 1);
}

/* The machine that arrives has this RAM, and all else. */
static int arrives(void)
{
    static uint8_t saved[2][PAGES * 4101 + 65536];
    vmig_machine target = VMIG_NONE;
    vmig_ram there = {target_room, RAM};
    size_t size[2] = {0, 0};
    int same;

    memset(target_room, 0x33, RAM);
    expect("arrive", arrive_over(&there, NULL, 0, &target), VMIG_OK);
    expect("feed", vmig_feed(&target, stream, len), VMIG_WHOLE);
    expect("finish", vmig_finish(&target), VMIG_OK);
    same = memcmp(room, target_room, RAM) == 0;
    expect("save", vmig_save(m, saved[0], sizeof saved[0], &size[0]), VMIG_OK);
    expect("save what arrived", vmig_save(&target, saved[1], sizeof saved[1], &size[1]), VMIG_OK);
    if (same) expect("the same machine", size[0] == size[1] && memcmp(saved[0], saved[1], size[0]) == 0, 1);
    vmig_free(&target);
    return same;
}

/* How a move ended: it failed or was given up; the machine arrived; or something of it was lost. */
enum { GIVEN_UP, ARRIVED, LOST, ENDS };

static int move(void)
{
    uint64_t pages, sectors;
    int is_over = 0;

    len = 0;
    memset(late, 0, sizeof late);
    expect("begin", vmig_send_begin(m), VMIG_OK);
    for (uint32_t acts = 1 + draw(12); acts > 0 && !is_over; acts--) {
        if (draw(3) == 0) work();
        if (draw(4) == 0) send_here();
        is_over = loan(1);
    }
    if (is_over || draw(8) == 0) {
        expect("abort", vmig_send_abort(m), VMIG_OK);
        return GIVEN_UP;
    }
    last_loan();
    mark_late();
    expect("stop", vmig_send_stop(m, &pages, &sectors), VMIG_OK);
    take_some(STREAM_MAX);
    expect("abort", vmig_send_abort(m), VMIG_OK);
    return arrives() ? ARRIVED : LOST;
}

/* Makes moves, and counts how they ended. */
static void make_moves(uint32_t moves, uint32_t ends[ENDS])
{
    memset(ends, 0, ENDS * sizeof *ends);
    for (; moves > 0 && failures == 0; moves--) {
        ends[move()]++;
        if (draw(3) == 0) loan(0);
    }
}

/* The right host loses nothing, and the wrong one something in each move that came to its end. */
static void try_both(uint32_t moves)
{
    uint32_t ends[ENDS];

    is_broken = 0;
    handed = torn = halved = sectors_sent = marked_lent = ended_lent = failed = 0;
    make_moves(moves, ends);
    expect("lost by a host that forgets first", ends[LOST], 0);
    if (moves >= MOVES_BESIDE) {
        expect("some arrived, and some were given up", ends[ARRIVED] > 0 && ends[GIVEN_UP] > 0, 1);
        expect("pages were torn", torn > 0 && halved > 0 && handed > halved, 1);
        expect("sectors and marks while lent", sectors_sent > 0 && marked_lent > 0, 1);
        expect("ends of rounds while lent", ended_lent > 0, 1);
        expect("sends that failed", failed > 0, CAN_REFUSE);
    }
    is_broken = 1;
    make_moves(BROKEN_MOVES, ends);
    expect("a host that forgets after the copy is found", ends[LOST] > 0 && ends[ARRIVED] == 0, 1);
}

int main(int argc, char **argv)
{
    vmig_ram own = {room, RAM};

    memset(room, 0x5a, RAM);
    memset(room, 0, HEAP * PAGE);
    expect("make", make_over(&own, SHAPES, DEVICES, NULL, 0, m), VMIG_OK);
    set_up_device(m, BLOCK, BLOCK, 1, 0);
    try_both(MOVES);
    begin_thread();
    try_both(argc > 1 ? (uint32_t)strtoul(argv[1], NULL, 10) : MOVES_BESIDE);
    vmig_free(m);
    return ended("handed_in");
}
