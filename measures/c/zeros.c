/* What pages of zeros cost: `zeros PAGES USED` makes a machine of these pages, of which the first USED have a byte that is not 0, the
 * last one of the page. It prints the length of its stream, and the nanoseconds of processor time for each page: of
 * vmig_save of no buffer, which looks at each page once, of vmig_save, and of memcmp and of a loop over words that look at as many pages of
 * zeros. With no words it takes a small machine, and prints nothing. */
#define _POSIX_C_SOURCE 200809L
#include <stdlib.h>
#include <time.h>
#include "driver.h"

enum { PAGE = 4096, TURNS = 30, FRONT = 17, DEVICE = 70, DIGEST = 33, ZEROS = 5, FULL = 4101 };

static int is_long;

static uint64_t now(void)
{
    struct timespec t;
    clock_gettime(CLOCK_PROCESS_CPUTIME_ID, &t);
    return (uint64_t)t.tv_sec * 1000000000u + (uint64_t)t.tv_nsec;
}

/* The least time of some turns, for each page. */
static void tell(const char *what, uint64_t least, uint64_t pages)
{
    if (is_long) printf("%s: %.1f ns a page\n", what, (double)least / (double)pages);
}

static uint64_t less(uint64_t least, uint64_t took)
{
    return took < least ? took : least;
}

static void lengths(vmig_machine *m, uint64_t pages, size_t wanted)
{
    uint64_t least = UINT64_MAX;
    size_t len = 0;

    for (int turn = 0; turn < TURNS; turn++) {
        uint64_t begun = now();
        expect("length", vmig_save(m, NULL, 0, &len), VMIG_MORE);
        least = less(least, now() - begun);
        expect("length of the stream", len, wanted);
    }
    tell("the length of a save", least, pages);
}

static void saves(vmig_machine *m, uint64_t pages, size_t wanted)
{
    uint8_t *stream = malloc(wanted);
    uint64_t least = UINT64_MAX;
    size_t len = 0;

    if (stream == NULL) exit(2);
    for (int turn = 0; turn < 3; turn++) {
        uint64_t begun = now();
        expect("save", vmig_save(m, stream, wanted, &len), VMIG_OK);
        least = less(least, now() - begun);
        expect("length of the save", len, wanted);
    }
    tell("vmig_save", least, pages);
    free(stream);
}

static int words_are_zero(const uint64_t *words)
{
    uint64_t sum = 0;

    for (int i = 0; i < PAGE / 8; i++) sum |= words[i];
    return sum == 0;
}

static int bytes_are_zero(const uint64_t *words)
{
    static const uint64_t zeros[PAGE / 8];

    return memcmp(words, zeros, PAGE) == 0;
}

/* As many pages of zeros, looked at in C. */
static void plain(const char *what, int (*is_zero)(const uint64_t *), uint64_t pages)
{
    uint64_t *ram = calloc(pages, PAGE), least = UINT64_MAX;

    if (ram == NULL) exit(2);
    for (uint64_t page = 0; page < pages; page++) ((volatile uint64_t *)ram)[page * (PAGE / 8)] = 0;
    for (int turn = 0; turn < TURNS; turn++) {
        uint64_t found = 0, begun = now();
        for (uint64_t page = 0; page < pages; page++) found += (uint64_t)is_zero(ram + page * (PAGE / 8));
        least = less(least, now() - begun);
        expect("pages of zeros", found, pages);
    }
    tell(what, least, pages);
    free(ram);
}

int main(int argc, char **argv)
{
    vmig_shape shape = {.kind = VMIG_ENTROPY};
    vmig_machine m = VMIG_NONE;
    is_long = argc > 2;
    uint32_t pages = is_long ? (uint32_t)strtoul(argv[1], NULL, 10) : 64;
    uint64_t used = is_long ? strtoul(argv[2], NULL, 10) : 3;

    expect("make", make_new(pages, &shape, 1, &m), VMIG_OK);
    for (uint64_t page = 0; page < used; page++)
        expect("write", vmig_ram_write(&m, page * PAGE + PAGE - 1, (const uint8_t *)"!", 1), VMIG_OK);
    size_t wanted = FRONT + FULL * used + ZEROS * (pages - used) + DEVICE + DIGEST;
    if (is_long) printf("a stream of %zu bytes\n", wanted);
    lengths(&m, pages, wanted);
    saves(&m, pages, wanted);
    plain("plain: memcmp of a page", bytes_are_zero, pages);
    plain("plain: a loop over words", words_are_zero, pages);
    vmig_free(&m);
    return ended("zeros");
}
