/* What a request of a disk costs: `requests outside read SECTORS` makes many of them, of a disk outside that is asked for all of it in one call, and prints how
 * many these were; `inside` is a disk in memory of the library, and `write` writes. `copy - SECTORS` copies as many bytes. `count` counts the instructions of
 * one, from the step that takes it to the one that ends it, calls included. `time` in front of these words prints the nanoseconds of one. With no words it
 * makes a few of each kind, and prints nothing. */
#define _POSIX_C_SOURCE 200809L
#include <stdlib.h>
#include <string.h>
#include <time.h>
#include "driver.h"

enum { PAGES = 64, SECTOR = 512, MOST = 256, HEADER = 0x7000, OUTCOME = 0x7100, BYTES = 0x10000, READ = 0, WRITE = 1, TURNS = 64 };

static uint8_t bytes[MOST * SECTOR], copied[MOST * SECTOR];

struct way {
    int is_outside, is_read;
    uint32_t sectors;
};

/* The host serves the one call that is there. */
static void serve_call(vmig_machine *m, const struct way *w)
{
    vmig_call call = {0};

    expect("a call", vmig_disk_call(m, &call, bytes, sizeof bytes), VMIG_CALL);
    expect("for all of it", call.count, w->sectors);
    expect("done", vmig_disk_done(m, call.number, call.count, bytes, w->is_read ? call.count * SECTOR : 0), VMIG_OK);
}

/* The driver offers a request, which is brought to its end. */
static void request(vmig_machine *m, const struct way *w, uint32_t number)
{
    uint8_t none[1];
    uint32_t len;

    put(m, OUTCOME, 0xff, 1);
    offer(m, 0, number, 0);
    expect("taken", vmig_step(m, 0, 0, none, 0, &len), VMIG_TAKEN);
    if (w->is_outside) serve_call(m, w);
    for (uint32_t i = 0; !w->is_outside && i < w->sectors; i++) expect("moved", vmig_step(m, 0, 1, none, 0, &len), VMIG_MOVED);
    expect("completed", vmig_step(m, 0, 1, none, 0, &len), VMIG_COMPLETED);
    expect("it is well", get(m, OUTCOME, 1), 0);
}

static void make_requests(const struct way *w, uint32_t turns)
{
    vmig_shape shape = {.kind = w->is_outside ? VMIG_BLOCK_OUTSIDE : VMIG_BLOCK, .sectors = MOST};
    vmig_machine m = VMIG_NONE;

    expect("make", make_new(PAGES, &shape, 1, &m), VMIG_OK);
    set_up_with(&m, 1, 1 << 9);
    put(&m, HEADER, w->is_read ? READ : WRITE, 8);
    put(&m, HEADER + 8, 0, 8);
    describe(&m, 0, 0, HEADER, 16, HAS_NEXT, 1);
    describe(&m, 0, 1, BYTES, w->sectors * SECTOR, HAS_NEXT | (w->is_read ? WRITABLE : 0), 2);
    describe(&m, 0, 2, OUTCOME, 1, WRITABLE, 0);
    for (uint32_t i = 1; i <= turns; i++) request(&m, w, i);
    vmig_free(&m);
}

/* Of its own, so that the instructions inside are counted. */
__attribute__((noinline)) void copy_once(uint32_t sectors);
void copy_once(uint32_t sectors)
{
    memcpy(copied, bytes, sectors * SECTOR);
    __asm__ volatile("" : : "r"(copied) : "memory");
}

static void do_turns(const char *where, const struct way *w, uint32_t turns)
{
    if (strcmp(where, "copy") != 0) make_requests(w, turns);
    for (uint32_t i = 0; strcmp(where, "copy") == 0 && i < turns; i++) copy_once(w->sectors);
}

static double nanoseconds(void)
{
    struct timespec now;
    clock_gettime(CLOCK_PROCESS_CPUTIME_ID, &now);
    return (double)now.tv_sec * 1e9 + (double)now.tv_nsec;
}

int main(int count, char **words)
{
    int is_timed = count > 1 && strcmp(words[1], "time") == 0;
    char **word = words + is_timed;

    if (count == 4 + is_timed) {
        struct way w = {strcmp(word[1], "outside") == 0, strcmp(word[2], "write") != 0, (uint32_t)strtoul(word[3], NULL, 10)};
        double before = nanoseconds();
        uint32_t turns = is_timed ? 100 * TURNS : TURNS;

        do_turns(word[1], &w, turns);
        if (is_timed) printf("%.0f\n", (nanoseconds() - before) / turns);
        else printf("%d\n", TURNS);
        return failures != 0;
    }
    for (int i = 0; i < 4; i++) do_turns("request", &(struct way){i & 1, i & 2, 1 + (uint32_t)i * 50}, 3);
    return failures != 0;
}
