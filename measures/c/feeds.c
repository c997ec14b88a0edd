/* What a record costs to receive: `feeds CASE` saves a machine whose stream has many records of one kind, and feeds it in one piece. It
 * prints how many these are. `count` counts the instructions inside `vmig_feed` for each of them. Without words it goes through all
 * cases, and prints nothing. */
#include <stdlib.h>
#include "driver.h"

enum { PAGE = 4096 };

/* A machine with these pages and sectors. Where `full` is 1, the first byte of each page is not 0. */
typedef struct {
    const char *name;
    uint32_t pages, sectors, full;
} Case;

static const Case CASES[] = {
    {"sector", 1, 4096, 0},
    {"page", 256, 1, 1},
    {"zero-page", 16384, 1, 0},
};

/* Returns how many records of the kind there were. */
static uint32_t run(const Case *c)
{
    vmig_shape shape = {.kind = VMIG_BLOCK, .sectors = c->sectors};
    vmig_machine m = VMIG_NONE;
    uint8_t one = 1, first = 0;
    size_t len = 0;

    expect("make", make_new(c->pages, &shape, 1, &m), VMIG_OK);
    for (uint64_t page = 0; c->full && page < c->pages; page++) expect("write", vmig_ram_write(&m, page * PAGE, &one, 1), VMIG_OK);
    expect("length", vmig_save(&m, NULL, 0, &len), VMIG_MORE);
    uint8_t *stream = malloc(len);
    if (stream == NULL) exit(2);
    expect("save", vmig_save(&m, stream, len, &len), VMIG_OK);
    vmig_free(&m);
    expect("arrive", arrive_any(&m), VMIG_OK);
    expect("feed", vmig_feed(&m, stream, len), VMIG_WHOLE);
    expect("finish", vmig_finish(&m), VMIG_OK);
    expect("read", vmig_ram_read(&m, (uint64_t)(c->pages - 1) * PAGE, &first, 1), VMIG_OK);
    expect("the first byte of the last page", first, c->full);
    vmig_free(&m);
    free(stream);
    return c->sectors > 1 ? c->sectors : c->pages;
}

int main(int argc, char **argv)
{
    for (size_t i = 0; i < sizeof CASES / sizeof *CASES; i++) {
        if (argc > 1 && strcmp(argv[1], CASES[i].name) != 0) continue;
        uint32_t records = run(&CASES[i]);
        if (argc > 1) printf("%u\n", records);
    }
    if (argc > 1) return failures != 0;
    return ended("feeds");
}
