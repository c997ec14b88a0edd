/* How long the calls of a move take, beside plain loops in the same run: `rounds PAGES DISKS` moves a machine of these pages and
 * of these disks, of 1 GiB each, in rounds. It prints the nanoseconds of processor time of each call: the least, and the mean.
 * With no words it moves a small machine and prints nothing. The disks are anonymous memory that is mapped and all but never
 * written: it is zeros, and takes no room. Measure with `CFLAGS=-O2`. */
#define _DEFAULT_SOURCE
#include <stdlib.h>
#include <sys/mman.h>
#include <time.h>
#include "driver.h"

enum { PAGE = 4096, SECTOR = 512, SECTORS_MAX = 2097152, DISKS_MAX = 16, PAGES_MIN = 16, TURNS = 30, GROUP = 64 };

/* Where the driver keeps the header of a request and the byte of its verdict. */
enum { HEADER = 0x7000, VERDICT = 0x7100 };

static int is_long;

/* What calls took: each, or, for the calls that are made for each item, the mean of each 64. */
typedef struct {
    uint64_t least, sum, count, group;
} times;

static uint64_t now(void)
{
    struct timespec t;
    clock_gettime(CLOCK_PROCESS_CPUTIME_ID, &t);
    return (uint64_t)t.tv_sec * 1000000000u + (uint64_t)t.tv_nsec;
}

static void note(times *t, uint64_t took)
{
    if (t->count == 0 || took < t->least) t->least = took;
    t->sum += took;
    t->count++;
}

static void note_item(times *t, uint64_t took)
{
    t->group += took;
    t->sum += took;
    t->count++;
    if (t->count % GROUP != 0) return;
    if (t->count == GROUP || t->group / GROUP < t->least) t->least = t->group / GROUP;
    t->group = 0;
}

static void tell(const char *what, times t)
{
    if (is_long && t.count > 0)
        printf("%s: %llu ns, mean of %llu: %llu\n", what, (unsigned long long)t.least, (unsigned long long)t.count,
               (unsigned long long)(t.sum / t.count));
}

/* Two looks at the clock, one after another: so much of each number below is the clock's. */
static void clock_alone(void)
{
    times t = {0};

    for (int turn = 0; turn < TURNS; turn++) {
        uint64_t begun = now();
        note(&t, now() - begun);
    }
    tell("plain: the clock", t);
}

/* A list of a byte for each item, of which the last one is set, and the plain loop that finds it. */
static void plain_list(uint64_t items)
{
    uint8_t *list = malloc(items);
    uint64_t at = 0;
    times t = {0};

    if (list == NULL) exit(2);
    memset(list, 0, items);
    list[items - 1] = 1;
    for (int turn = 0; turn < TURNS; turn++) {
        uint64_t begun = now();
        for (at = 0; list[at] == 0; at++) {}
        note(&t, now() - begun);
        expect("found", at, items - 1);
    }
    tell("plain: the last of a list of bytes is found", t);
    free(list);
}

/* The pages of a RAM, one after another, copied by memcpy. */
static void plain_copies(uint64_t pages)
{
    static uint8_t to[PAGE];
    uint8_t *ram = malloc(pages * PAGE);
    times t = {0};

    if (ram == NULL) exit(2);
    memset(ram, 1, pages * PAGE);
    for (uint64_t page = 0; page < pages; page++) {
        uint64_t begun = now();
        memcpy(to, ram + page * PAGE, PAGE);
        note_item(&t, now() - begun);
        expect("copied", to[page % PAGE], 1);
    }
    tell("plain: memcpy of a page", t);
    free(ram);
}

/* The whole machine, saved at once: the same digest and the same bytes as its pages one by one. */
static void save_whole(vmig_machine *m, uint64_t pages)
{
    size_t len = 0, written = 0;
    times t = {0};

    expect("length", vmig_save(m, NULL, 0, &len), VMIG_MORE);
    uint8_t *stream = malloc(len);
    if (stream == NULL) exit(2);
    for (int turn = 0; turn < 3; turn++) {
        uint64_t begun = now();
        expect("save", vmig_save(m, stream, len, &written), VMIG_OK);
        note(&t, (now() - begun) / pages);
    }
    expect("length of the save", written, len);
    tell("a save, for each of its pages", t);
    free(stream);
}

static void throw_away(vmig_machine *m)
{
    static uint8_t piece[65536];
    size_t got = 0;

    do expect("take", vmig_send_take(m, piece, sizeof piece, &got), VMIG_OK);
    while (got > 0);
}

/* What the copies of a round took: of pages, of sectors, the call that finds nothing due, and the last sector's. */
typedef struct {
    times pages, sectors, none;
    uint64_t last;
} round_times;

/* Sends what is due: these pages, and then these sectors. What is written is thrown away after each call, outside the time. */
static void send_round(vmig_machine *m, round_times *t, uint64_t pages, uint64_t sectors)
{
    uint64_t items = pages + sectors;
    vmig_status status = VMIG_OK;

    for (uint64_t item = 0; item <= items; item++) {
        uint64_t begun = now();
        status = vmig_send_some(m, 1);
        uint64_t took = now() - begun;
        expect("copied", status, item + 1 < items ? VMIG_OK : VMIG_ROUND_DONE);
        if (item == items) note(&t->none, took);
        else if (item < pages) note_item(&t->pages, took);
        else note_item(&t->sectors, t->last = took);
        throw_away(m);
    }
}

static void end_round(vmig_machine *m, times *t)
{
    uint64_t begun = now();

    expect("end of a round", vmig_send_round(m), VMIG_OK);
    note(t, now() - begun);
    throw_away(m);
}

/* Rounds in which nothing was written, every hundredth page, and the last page alone. */
static void send_rounds(vmig_machine *m, uint32_t pages)
{
    times quiet = {0}, some = {0}, last = {0};
    round_times copies = {0};

    for (int turn = 0; turn < TURNS; turn++) {
        end_round(m, &quiet);
        for (uint64_t page = 0; page < pages; page += 100)
            expect("write", vmig_ram_write(m, page * PAGE, (const uint8_t *)"!", 1), VMIG_OK);
        end_round(m, &some);
        send_round(m, &copies, (pages + 99) / 100, 0);
        expect("write", vmig_ram_write(m, (uint64_t)pages * PAGE - 1, (const uint8_t *)"!", 1), VMIG_OK);
        end_round(m, &last);
        send_round(m, &copies, 1, 0);
    }
    tell("end of a round, nothing dirty", quiet);
    tell("end of a round, 1 % of the pages dirty", some);
    tell("end of a round, the last page dirty", last);
    tell("copy of a page, 1 % of them due", copies.pages);
    tell("copy, nothing due", copies.none);
}

static void write_of(vmig_machine *m, uint8_t dev, uint32_t off, uint32_t value)
{
    uint32_t byte = 0;
    expect("register", vmig_reg_write(m, dev, off, 4, value, &byte), VMIG_OK);
}

/* The driver of a disk takes it over, and makes its queue ready (VIRTIO 1.2, 3.1.1). */
static void set_up_disk(vmig_machine *m, uint8_t dev)
{
    static const uint32_t writes[][2] = {
        {0x070, 0}, {0x070, 3}, {0x024, 1}, {0x020, 1}, {0x070, 0xb}, {0x030, 0}, {0x038, SIZE},
        {0x080, DESC}, {0x090, AVAIL}, {0x0a0, USED}, {0x044, 1}, {0x070, 0xf},
    };
    for (size_t i = 0; i < sizeof writes / sizeof *writes; i++) write_of(m, dev, writes[i][0], writes[i][1]);
    describe(m, 0, 0, HEADER, 16, HAS_NEXT, 1);
    describe(m, 0, 1, DATA, SECTOR, HAS_NEXT, 2);
    describe(m, 0, 2, VERDICT, 1, WRITABLE, 0);
}

/* The guest writes the last sector of the last disk, which is the last item of all, and it is sent. The pages of its ring and of
 * its request are sent before. */
static void send_last(vmig_machine *m, uint8_t dev, uint64_t sector)
{
    times last = {0}, ended = {0};
    round_times copies = {0};

    set_up_disk(m, dev);
    for (uint32_t turn = 1; turn <= TURNS; turn++) {
        put(m, HEADER, 1, 8);
        put(m, HEADER + 8, sector, 8);
        make_available(m, 0, turn, 0);
        write_of(m, dev, 0x050, 0);
        expect("steps of a write", serve(m), 4);
        end_round(m, &ended);
        send_round(m, &copies, turn == 1 ? 3 : 2, 1);
        note(&last, copies.last);
    }
    tell("copy of the last sector of all, after a page at the front", last);
}

/* Makes each page one that is sent with its bytes: the last of them is not 0. */
static void fill(vmig_machine *m, uint32_t pages)
{
    for (uint64_t page = 0; page < pages; page++)
        expect("write", vmig_ram_write(m, page * PAGE + PAGE - 1, (const uint8_t *)"!", 1), VMIG_OK);
}

static void move(vmig_machine *m, uint32_t pages, uint64_t disks, uint64_t sectors)
{
    uint64_t sent_pages = 77, sent_sectors = 77, begun = now();
    times begin = {0}, stop = {0};
    round_times copies = {0};

    expect("begin", vmig_send_begin(m), VMIG_OK);
    note(&begin, now() - begun);
    throw_away(m);
    send_round(m, &copies, pages, disks * sectors);
    tell("begin", begin);
    tell("copy of a page, all due", copies.pages);
    tell("copy of a sector, all due", copies.sectors);
    send_rounds(m, pages);
    if (disks > 0) send_last(m, (uint8_t)(disks - 1), sectors - 1);
    begun = now();
    expect("stop", vmig_send_stop(m, &sent_pages, &sent_sectors), VMIG_OK);
    note(&stop, now() - begun);
    tell("stop, nothing due", stop);
    expect("pages of the stop", sent_pages, 0);
    expect("sectors of the stop", sent_sectors, 0);
}

static void make(uint32_t pages, const vmig_shape *shapes, vmig_image *images, size_t disks, vmig_machine *m)
{
    vmig_setup setup = VMIG_SETUP;

    setup.pages = pages, setup.shapes = shapes, setup.count = disks > 0 ? disks : 1, setup.images = images, setup.count_images = disks;
    setup.flags = VMIG_LARGE;
    expect("make", vmig_make(&setup, m), VMIG_OK);
}

int main(int argc, char **argv)
{
    vmig_shape shapes[DISKS_MAX] = {{.kind = VMIG_ENTROPY}};
    vmig_image images[DISKS_MAX] = {VMIG_NO_IMAGE};
    vmig_machine m = VMIG_NONE;
    is_long = argc > 2;
    uint32_t pages = is_long ? (uint32_t)strtoul(argv[1], NULL, 10) : 128;
    size_t disks = is_long ? strtoul(argv[2], NULL, 10) : 2, sectors = is_long ? SECTORS_MAX : 8;

    if (pages < PAGES_MIN || disks > DISKS_MAX) return 2;
    for (size_t i = 0; i < disks; i++) {
        void *at = mmap(NULL, sectors * SECTOR, PROT_READ | PROT_WRITE, MAP_PRIVATE | MAP_ANONYMOUS | MAP_NORESERVE, -1, 0);
        if (at == MAP_FAILED) return 2;
        shapes[i] = (vmig_shape){.kind = VMIG_BLOCK, .sectors = sectors};
        images[i] = (vmig_image){at, sectors};
    }
    clock_alone();
    plain_list(pages + disks * sectors);
    plain_copies(pages);
    make(pages, shapes, images, disks, &m);
    fill(&m, pages);
    if (disks == 0 || !is_long) save_whole(&m, pages);
    move(&m, pages, disks, sectors);
    vmig_free(&m);
    return ended("rounds");
}
