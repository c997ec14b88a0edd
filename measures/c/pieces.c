/* How long a stream takes to be received in pieces of some size: `pieces PAGES SIZE..` saves a machine of these pages, feeds its
 * stream in pieces of each size, and prints the nanoseconds of processor time for a piece and for a byte. With no words it feeds
 * a small machine in pieces of all sizes up to 64, and in larger ones, and prints nothing. Every byte of RAM has to arrive. */
#include <stdlib.h>
#include <time.h>
#include "driver.h"

enum { PAGE = 4096, PAGES_SHORT = 2 };

/* Bytes that differ from page to page and within a page. */
static uint8_t byte_at(uint64_t addr)
{
    return (uint8_t)(addr * 31 + addr / PAGE * 7);
}

static void fill(vmig_machine *m, uint64_t len)
{
    uint8_t page[PAGE];

    for (uint64_t at = 0; at < len; at += PAGE) {
        for (uint64_t i = 0; i < PAGE; i++) page[i] = byte_at(at + i);
        expect("write", vmig_ram_write(m, at, page, PAGE), VMIG_OK);
    }
}

static void has_arrived(vmig_machine *m, uint64_t len)
{
    uint8_t page[PAGE];
    uint64_t same = 0;

    for (uint64_t at = 0; at < len; at += PAGE) {
        expect("read", vmig_ram_read(m, at, page, PAGE), VMIG_OK);
        for (uint64_t i = 0; i < PAGE; i++) same += page[i] == byte_at(at + i);
    }
    expect("bytes that are the same", same, len);
}

/* Feeds a stream in pieces of one size. */
static void feed(const uint8_t *stream, size_t len, size_t size, uint64_t ram, int is_long)
{
    vmig_machine m = VMIG_NONE;
    uint64_t pieces = 0;
    clock_t begun = clock();

    expect("arrive", arrive_any(&m), VMIG_OK);
    for (size_t at = 0; at < len; at += size, pieces++) {
        size_t more = len - at < size ? len - at : size;
        vmig_status status = vmig_feed(&m, stream + at, more), wanted = at + more < len ? VMIG_OK : VMIG_WHOLE;
        if (status != wanted) expect("feed", status, wanted);
    }
    expect("finish", vmig_finish(&m), VMIG_OK);
    double took = (double)(clock() - begun) * 1e9 / CLOCKS_PER_SEC;
    if (is_long) printf("pieces of %zu: %.1f ns a piece, %.2f ns a byte\n", size, took / (double)pieces, took / (double)len);
    has_arrived(&m, ram);
    vmig_free(&m);
}

int main(int argc, char **argv)
{
    vmig_shape shape = {.kind = VMIG_ENTROPY};
    vmig_machine m = VMIG_NONE;
    int is_long = argc > 2;
    uint32_t pages = is_long ? (uint32_t)strtoul(argv[1], NULL, 10) : PAGES_SHORT;
    uint64_t ram = (uint64_t)pages * PAGE;
    size_t room = ram + pages * 5 + 256, len = 0;
    uint8_t *stream = malloc(room);

    if (stream == NULL) return 2;
    expect("make", make_new(pages, &shape, 1, &m), VMIG_OK);
    fill(&m, ram);
    expect("save", vmig_save(&m, stream, room, &len), VMIG_OK);
    vmig_free(&m);
    for (int i = 2; i < argc; i++)
        if (strtoul(argv[i], NULL, 10) == 0) return 2;
    for (int i = 2; i < argc; i++) feed(stream, len, strtoul(argv[i], NULL, 10), ram, is_long);
    for (size_t size = 1; !is_long && size <= 64; size++) feed(stream, len, size, ram, 0);
    for (size_t size = 4094; !is_long && size <= 4102; size++) feed(stream, len, size, ram, 0);
    free(stream);
    return ended("pieces");
}
