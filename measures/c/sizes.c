/* What grows with a machine: `sizes times PAGES SECTORS` makes one with RAM of so many pages and a disk of so many sectors, or none where
 * that is 0, and prints how much memory the library takes for it, and the nanoseconds of processor time of its calls, the least of some;
 * `sizes move PAGES 0` sends it, until nothing is left, to one that arrives. `sizes begin PAGES SECTORS`, `sizes list ..` and `sizes
 * bitmap ..` make only these calls, TURNS times, and print TURNS: `count` counts their instructions. With no words it does all of it
 * with a small machine, and prints nothing. RAM and the disk are mapped without reserve and all but never written: they take no room. */
#define _DEFAULT_SOURCE
#include <malloc.h>
#include <stdlib.h>
#include <time.h>
#include "driver.h"
#include "../../tests/c/mapping.h"

enum { SECTOR = 512, TURNS = 5, IDLE_TURNS = 30, SOME = 100, A_COPY = 1024 };

/* The C library's own allocator, under the names that it keeps for a program with its own malloc. */
void *__libc_malloc(size_t size);
void *__libc_calloc(size_t count, size_t size);
void *__libc_realloc(void *at, size_t size);
void __libc_free(void *at);

static size_t in_use;           /* the bytes that are allocated */

static void *counted(void *at)
{
    in_use += malloc_usable_size(at);
    return at;
}

void *malloc(size_t size) { return counted(__libc_malloc(size)); }
void *calloc(size_t count, size_t size) { return counted(__libc_calloc(count, size)); }

void *realloc(void *old, size_t size)
{
    in_use -= malloc_usable_size(old);
    return counted(__libc_realloc(old, size));
}

void free(void *at)
{
    in_use -= malloc_usable_size(at);
    __libc_free(at);
}

static int is_long;

static uint64_t now(void)
{
    struct timespec t;
    clock_gettime(CLOCK_PROCESS_CPUTIME_ID, &t);
    return (uint64_t)t.tv_sec * 1000000000u + (uint64_t)t.tv_nsec;
}

static void tell(const char *what, uint64_t ns)
{
    if (is_long) printf("%s: %llu ns\n", what, (unsigned long long)ns);
}

static void tell_memory(const char *what, size_t before)
{
    if (is_long) printf("%s: %zu bytes\n", what, in_use - before);
}

/* The least that a call takes. */
#define LEAST(what, turns, call)                                        \
    do {                                                                \
        uint64_t least = UINT64_MAX;                                    \
        for (int turn = 0; turn < (turns); turn++) {                    \
            uint64_t begun = now();                                     \
            call;                                                       \
            uint64_t took = now() - begun;                              \
            if (took < least) least = took;                             \
        }                                                               \
        tell(what, least);                                              \
    } while (0)

/* A machine, and its RAM while that is lent. */
struct host {
    vmig_machine machine;
    vmig_ram ram;
    uint8_t *room, *disk;
    uint32_t pages;
    uint64_t sectors;
    uint64_t *words;            /* a bitmap of all pages */
};

static void list(struct host *h)
{
    expect("lend", vmig_lend(&h->machine, &h->ram), VMIG_OK);
    expect("return", give_back_list(&h->machine, &h->ram, NULL, 0), VMIG_OK);
}

static void bitmap(struct host *h)
{
    expect("lend", vmig_lend(&h->machine, &h->ram), VMIG_OK);
    expect("a bitmap", give_back_marked(&h->machine, &h->ram, h->words, (h->pages + 63) / 64), VMIG_OK);
}

static void begin_and_abort(struct host *h)
{
    expect("begin", vmig_send_begin(&h->machine), VMIG_OK);
    expect("abort", vmig_send_abort(&h->machine), VMIG_OK);
}

static void begins(struct host *h)
{
    for (int turn = 0; turn < TURNS; turn++) {
        size_t before = in_use;
        uint64_t begun = now();
        expect("begin", vmig_send_begin(&h->machine), VMIG_OK);
        tell("begin", now() - begun);
        if (turn == 0) tell_memory("memory while it is sent", before);
        expect("abort", vmig_send_abort(&h->machine), VMIG_OK);
    }
}

/* What is left to be sent, where all of it is. */
static void ask_left(struct host *h)
{
    vmig_left left;

    expect("begin", vmig_send_begin(&h->machine), VMIG_OK);
    LEAST("what is left", IDLE_TURNS, expect("left", vmig_send_left(&h->machine, &left), VMIG_OK));
    expect("pages that are due", left.due_pages, h->pages);
    expect("sectors that are due", left.due_sectors, h->sectors);
    expect("abort", vmig_send_abort(&h->machine), VMIG_OK);
}

/* Some pages all over RAM are marked. */
static void mark_some(struct host *h)
{
    for (uint64_t i = 0; i < SOME; i++) {
        uint64_t page = i * h->pages / SOME;
        h->words[page / 64] |= UINT64_C(1) << page % 64;
    }
}

static void loans(struct host *h)
{
    LEAST("a loan, and its return with a list of none", IDLE_TURNS, list(h));
    LEAST("with a bitmap of none", IDLE_TURNS, bitmap(h));
    mark_some(h);
    LEAST("with a bitmap of 100", IDLE_TURNS, bitmap(h));
    memset(h->words, 0, (h->pages + 63) / 64 * sizeof *h->words);
}

/* The bytes that wait go to the other side, if there is one. */
static void hand_over(struct host *h, vmig_machine *target)
{
    static uint8_t piece[65536];
    size_t got = 0;

    do {
        expect("take", vmig_send_take(&h->machine, piece, sizeof piece, &got), VMIG_OK);
        if (vmig_refused(vmig_feed(target, piece, got))) exit(2);
    } while (got > 0);
}

/* Copies all pages, and hands them over: how long each of the two takes, for a page. */
static void send_all(struct host *h, vmig_machine *target)
{
    uint64_t copies = 0, rest = 0, begun;
    vmig_status status;

    do {
        begun = now();
        status = vmig_send_some(&h->machine, A_COPY);
        copies += now() - begun;
        begun = now();
        hand_over(h, target);
        rest += now() - begun;
    } while (status == VMIG_OK);
    expect("all of it", status, VMIG_ROUND_DONE);
    tell("a page of zeros, copied", copies / h->pages);
    tell("taken and received", rest / h->pages);
}

static void quiet_round(struct host *h)
{
    expect("end of a round", vmig_send_round(&h->machine), VMIG_OK);
}

static void quiet_copy(struct host *h)
{
    expect("nothing due", vmig_send_some(&h->machine, 1), VMIG_ROUND_DONE);
}

/* A round in which the last page alone is due. */
static void last_page(struct host *h)
{
    uint8_t zero = 0;

    expect("a write", vmig_ram_write(&h->machine, (uint64_t)h->pages * PAGE - 1, &zero, 1), VMIG_OK);
    quiet_round(h);
    expect("the last page", vmig_send_some(&h->machine, 1), VMIG_ROUND_DONE);
}

static void move(struct host *h, uint8_t *to)
{
    uint64_t pages = 77, sectors = 77, begun;
    vmig_machine target = VMIG_NONE;
    vmig_arrival arrival = VMIG_ARRIVAL;
    size_t before = in_use;

    arrival.ram = (vmig_ram){to, (size_t)h->pages * PAGE}, arrival.flags = VMIG_LARGE;
    expect("arrive", vmig_arrive(&arrival, &target), VMIG_OK);
    expect("begin", vmig_send_begin(&h->machine), VMIG_OK);
    hand_over(h, &target);
    tell_memory("memory while it is sent, and of the one that arrives", before);
    send_all(h, &target);
    LEAST("a copy, nothing due", IDLE_TURNS, quiet_copy(h));
    LEAST("end of a round, nothing dirty", IDLE_TURNS, quiet_round(h));
    LEAST("a write, end of the round and copy of the last page", IDLE_TURNS, last_page(h));
    hand_over(h, &target);
    begun = now();
    expect("stop", vmig_send_stop(&h->machine, &pages, &sectors), VMIG_OK);
    tell("stop, nothing due", now() - begun);
    expect("nothing was due", pages + sectors, 0);
    hand_over(h, &target);
    LEAST("finish", 1, expect("finish", vmig_finish(&target), VMIG_OK));
    vmig_free(&target);
    expect("abort", vmig_send_abort(&h->machine), VMIG_OK);
}

static void make_one(struct host *h)
{
    vmig_shape shape = {.kind = h->sectors > 0 ? VMIG_BLOCK : VMIG_ENTROPY, .sectors = h->sectors};
    vmig_image image = {h->disk, h->sectors};
    vmig_setup setup = VMIG_SETUP;
    size_t before = in_use;
    uint64_t begun = now();

    setup.ram = (vmig_ram){h->room, (size_t)h->pages * PAGE}, setup.shapes = &shape, setup.count = 1, setup.flags = VMIG_LARGE;
    setup.images = &image, setup.count_images = h->sectors > 0;
    expect("make", vmig_make(&setup, &h->machine), VMIG_OK);
    tell("make", now() - begun);
    tell_memory("memory of the machine", before);
}

/* The machine is freed, and one like it arrives in the same memory, as far as its header: what is taken for it is there then. */
static void let_arrive(struct host *h)
{
    vmig_image image = {h->disk, h->sectors};
    vmig_arrival arrival = VMIG_ARRIVAL;
    uint8_t header[64];
    size_t got = 0, before;

    expect("begin", vmig_send_begin(&h->machine), VMIG_OK);
    expect("its header", vmig_send_take(&h->machine, header, sizeof header, &got), VMIG_OK);
    vmig_free(&h->machine);
    arrival.ram = (vmig_ram){h->room, (size_t)h->pages * PAGE}, arrival.flags = VMIG_LARGE;
    arrival.images = &image, arrival.count_images = h->sectors > 0;
    before = in_use;
    expect("arrive", vmig_arrive(&arrival, &h->machine), VMIG_OK);
    expect("its header", vmig_feed(&h->machine, header, got), VMIG_OK);
    tell_memory("memory of one that arrives", before);
}

/* All of it, or one call alone. */
static void run(struct host *h, const char *what, uint8_t *to)
{
    make_one(h);
    for (int turn = 0; turn < TURNS && strcmp(what, "begin") == 0; turn++) begin_and_abort(h);
    for (int turn = 0; turn < TURNS && strcmp(what, "list") == 0; turn++) list(h);
    for (int turn = 0; turn < TURNS && strcmp(what, "bitmap") == 0; turn++) bitmap(h);
    if (strcmp(what, "times") == 0) {
        loans(h);
        begins(h);
        ask_left(h);
        let_arrive(h);
    }
    if (strcmp(what, "move") == 0) move(h, to);
    vmig_free(&h->machine);
}

/* Where memory is mapped for it. */
static int run_mapped(const char *what, uint32_t pages, uint64_t sectors)
{
    size_t len = (size_t)pages * PAGE;
    int is_sent = strcmp(what, "move") == 0;
    uint8_t *room = map_unreserved(len), *to = is_sent ? map_unreserved(len) : NULL;
    uint8_t *disk = sectors > 0 ? map_unreserved(sectors * SECTOR) : NULL;
    struct host h = {.room = room, .disk = disk, .pages = pages, .sectors = sectors, .words = calloc((pages + 63) / 64, sizeof(uint64_t))};
    int is_there = room != NULL && h.words != NULL && (to != NULL || !is_sent) && (disk != NULL || sectors == 0);

    if (is_there) run(&h, what, to);
    else printf("sizes: not run: the system maps no memory without reserve\n");
    unmap_unreserved(room, len);
    unmap_unreserved(to, len);
    unmap_unreserved(disk, sectors * SECTOR);
    free(h.words);
    return is_there;
}

int main(int argc, char **argv)
{
    static const char *const names[] = {"begin", "list", "bitmap", "times", "move"};

    if (argc == 4) {
        is_long = strcmp(argv[1], "times") == 0 || strcmp(argv[1], "move") == 0;
        if (!run_mapped(argv[1], (uint32_t)strtoul(argv[2], NULL, 10), strtoull(argv[3], NULL, 10))) return 2;
        if (!is_long) printf("%d\n", TURNS);
        return failures != 0;
    }
    for (size_t i = 0; i < sizeof names / sizeof *names; i++) {
        run_mapped(names[i], 20000, 0);
        if (strcmp(names[i], "move") != 0) run_mapped(names[i], 100, 3000000);
    }
    return ended("sizes");
}
