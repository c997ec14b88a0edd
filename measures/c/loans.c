/* What it costs to lend RAM and to give it back, to name pages and to access registers meanwhile, beside handing pages in and out: `loans
 * CASE COUNT` does this TURNS times, of a machine of 64 MiB of which COUNT pages were written, and prints TURNS. `count` counts the
 * instructions of the calls. Without words it goes through all cases, and checks what each did. */
#include <stdlib.h>
#include "driver.h"

enum { PAGES = 16384, PAGE = 4096, WORDS = PAGES / 64, TURNS = 16 };

/* A host that lends RAM of its own, and one that mirrors it. What was written are the pages with these numbers. */
typedef struct {
    vmig_machine over, mirrored;
    vmig_ram ram;
    uint8_t *copy;
    uint64_t seen[PAGES], words[WORDS];
    uint32_t pages[PAGES];
    size_t count;
} host;

static void list(host *h)
{
    expect("lend", vmig_lend(&h->over, &h->ram), VMIG_OK);
    expect("a list", give_back_list(&h->over, &h->ram, h->pages, h->count), VMIG_OK);
}

static void bitmap(host *h)
{
    expect("lend", vmig_lend(&h->over, &h->ram), VMIG_OK);
    expect("a bitmap", give_back_marked(&h->over, &h->ram, h->words, WORDS), VMIG_OK);
}

static void all(host *h)
{
    expect("lend", vmig_lend(&h->over, &h->ram), VMIG_OK);
    expect("all pages", give_back_all(&h->over, &h->ram), VMIG_OK);
}

static void mark(host *h)
{
    vmig_pages written = vmig_list(h->pages, h->count);

    expect("a mark", vmig_mark(&h->over, &written), VMIG_OK);
}

/* A register is written and read while RAM is lent, and whether there is work is asked. */
static void access(host *h)
{
    uint8_t dev = 0, pick = 0;

    expect("lend", vmig_lend(&h->over, &h->ram), VMIG_OK);
    write_reg(&h->over, 0x030, (uint32_t)h->count);
    expect("no step", vmig_next(&h->over, &dev, &pick), VMIG_IDLE);
    expect("a register", read_reg(&h->over, 0x060), 0);
    expect("no line", vmig_lines(&h->over), 0);
    expect("return", give_back_list(&h->over, &h->ram, NULL, 0), VMIG_OK);
}

/* The pages that calls wrote are handed out. */
static void log_out(host *h)
{
    static uint32_t pages[PAGES];
    size_t count = 77;

    for (size_t i = 0; i < h->count; i++) put(&h->over, (uint64_t)h->pages[i] * PAGE, i, 8);
    expect("written", vmig_written(&h->over, pages, PAGES, &count), VMIG_OK);
    expect("pages that were written", count, h->count);
}

static void hand_in(host *h)
{
    expect("push", push_list(&h->mirrored, h->pages, h->count, h->copy, (size_t)PAGES * PAGE, h->seen, PAGES), VMIG_OK);
}

/* The devices wrote into the pages. */
static void hand_out(host *h)
{
    uint32_t count = 77;

    for (size_t i = 0; i < h->count; i++) put(&h->mirrored, (uint64_t)h->pages[i] * PAGE, i, 8);
    expect("pull", vmig_pull(&h->mirrored, h->copy, (size_t)PAGES * PAGE, h->seen, PAGES, &count), VMIG_OK);
    expect("pages that came", count, h->count);
}

static const struct {
    const char *name;
    void (*run)(host *);
} CASES[] = {{"list", list}, {"bitmap", bitmap}, {"all", all},      {"mark", mark},
             {"access", access}, {"written", log_out}, {"push", hand_in}, {"pull", hand_out}};

static const size_t COUNTS[] = {0, 1, 100};

static void make(host *h)
{
    static const vmig_shape shapes[] = {{.kind = VMIG_ENTROPY}};
    vmig_setup setup = VMIG_SETUP;

    h->ram = (vmig_ram){calloc(PAGES, PAGE), (size_t)PAGES * PAGE};
    h->copy = calloc(PAGES, PAGE);
    if (h->ram.at == NULL || h->copy == NULL) exit(2);
    setup.ram = h->ram, setup.shapes = shapes, setup.count = 1, setup.flags = VMIG_LOG;
    expect("make over", vmig_make(&setup, &h->over), VMIG_OK);
    h->ram = setup.ram;
    expect("make", make_new(PAGES, shapes, 1, &h->mirrored), VMIG_OK);
    expect("versions", vmig_pull(&h->mirrored, h->copy, (size_t)PAGES * PAGE, h->seen, PAGES, &(uint32_t){0}), VMIG_OK);
}

/* The pages that were written lie all over RAM. */
static void write(host *h, size_t count)
{
    memset(h->words, 0, sizeof h->words);
    h->count = count;
    for (uint32_t i = 0; i < count; i++) {
        h->pages[i] = i * (PAGES / (uint32_t)count);
        h->words[h->pages[i] / 64] |= (uint64_t)1 << h->pages[i] % 64;
    }
}

int main(int argc, char **argv)
{
    static host h;

    make(&h);
    for (size_t i = 0; i < sizeof CASES / sizeof *CASES; i++) {
        if (argc > 1 && strcmp(argv[1], CASES[i].name) != 0) continue;
        for (size_t k = 0; k < sizeof COUNTS / sizeof *COUNTS; k++) {
            if (argc > 2 && strtoul(argv[2], NULL, 10) != COUNTS[k]) continue;
            write(&h, COUNTS[k]);
            for (int turn = 0; turn < TURNS; turn++) CASES[i].run(&h);
        }
    }
    if (argc > 1) printf("%d\n", TURNS);
    expect("lend", vmig_lend(&h.over, &h.ram), VMIG_OK);
    vmig_free(&h.over);
    vmig_free(&h.mirrored);
    free(h.ram.at);
    free(h.copy);
    if (argc > 1) return failures != 0;
    return ended("loans");
}
