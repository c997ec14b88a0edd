/* The pool of threads by itself: `pool FILE OTHER`, over files of 1 MiB, where the sixth sync fails (failing.c). OTHER
 * hangs at first, with as many writes under way as it may have, and FILE is served as ever. What is written is read
 * back, cleared sectors are zeros, a read past the end fails, and after the sync that failed no flush and no durable
 * write ends well. */
#define _DEFAULT_SOURCE
#include <errno.h>
#include <stdio.h>
#include <stdlib.h>
#include <string.h>
#include <unistd.h>
#include "pool.h"
#include "say.h"

enum { RUN = 512, RUNS = 4, DISK_SECTORS = RUN * RUNS };

static struct pool pool;
static struct disk disk, other;

static void check(int is_right, const char *what)
{
    if (!is_right) fail("pool: %s", what);
}

static struct slot *submit_to(struct disk *d, uint8_t what, uint64_t first, uint32_t count, int is_durable,
                              uint8_t filling)
{
    struct slot *s = pool_free(&pool);

    check(s != NULL, "no slot is free");
    s->disk = d;
    s->call = (vmig_call){.first = first, .count = count, .what = what, .durable = (uint8_t)is_durable};
    memset(s->bytes, filling, (size_t)count * SECTOR);
    pool_submit(&pool, s);
    return s;
}

static struct slot *submit(uint8_t what, uint64_t first, uint32_t count, int is_durable, uint8_t filling)
{
    return submit_to(&disk, what, first, count, is_durable, filling);
}

/* Waits until `count` calls of a disk are done, and returns how many of them failed. */
static unsigned finish_of(struct disk *d, unsigned count)
{
    unsigned failed = 0;

    while (count > 0) {
        struct slot *s = pool_done(&pool, d);

        if (s == NULL) {
            pool_wait(&pool, d);
            continue;
        }
        failed += s->error != 0;
        pool_release(&pool, s);
        count--;
    }
    return failed;
}

static unsigned finish(unsigned count)
{
    return finish_of(&disk, count);
}

static int has_bytes(const struct slot *s, uint8_t byte)
{
    for (size_t i = 0; i < (size_t)s->call.count * SECTOR; i++)
        if (s->bytes[i] != byte) return 0;
    return 1;
}

static void read_all(const uint8_t expected[RUNS])
{
    struct slot *s[RUNS];

    for (uint32_t k = 0; k < RUNS; k++) s[k] = submit(VMIG_DISK_READ, k * RUN, RUN, 0, 0xee);
    check(finish(RUNS) == 0, "a read failed");
    for (uint32_t k = 0; k < RUNS; k++) check(has_bytes(s[k], expected[k]), "other bytes are read than were written");
}

static void open_disk(struct disk *d, const char *name)
{
    const char *why;

    disk_look(d, name);
    check(d->sectors == DISK_SECTORS, "the file has another length");
    why = disk_open(d);
    if (why == NULL) why = pool_add(&pool, d);
    if (why != NULL) fail("pool: %s", why);
}

/* OTHER hangs as long as the file of HANGS is there. */
static void hang_beside(void)
{
    for (uint32_t k = 0; k < SLOTS_A_DISK; k++) submit_to(&other, VMIG_DISK_WRITE, k, 1, 0, (uint8_t)(k + 1));
    for (int turn = 0; turn < 3; turn++) {
        for (uint32_t k = 0; k < SLOTS_A_DISK; k++) submit(VMIG_DISK_WRITE, k, 1, 0, 0xaa);
        check(finish(SLOTS_A_DISK) == 0, "a write beside a disk that hangs failed");
        submit(VMIG_DISK_FLUSH, 0, 0, 0, 0);
        check(finish(1) == 0, "a flush beside a disk that hangs failed");
    }
    check(pool_done(&pool, &other) == NULL, "the other disk did not hang");
    check(unlink(getenv("HANGS")) == 0, "there is no file that says that it hangs");
    check(finish_of(&other, SLOTS_A_DISK) == 0, "a write failed that had hung");
}

int main(int count, char **words)
{
    const char *why = pool_begin(&pool);

    check(count == 3, "it is pool FILE OTHER");
    if (why != NULL) fail("pool: %s", why);
    open_disk(&disk, words[1]);
    open_disk(&other, words[2]);
    hang_beside();
    for (uint32_t k = 0; k < RUNS; k++) submit(VMIG_DISK_WRITE, k * RUN, RUN, 0, (uint8_t)(k + 1));
    check(finish(RUNS) == 0, "a write failed");
    submit(VMIG_DISK_CLEAR, RUN, RUN, 0, 0);
    check(finish(1) == 0, "a clearing failed");
    read_all((const uint8_t[RUNS]){1, 0, 3, 4});
    submit(VMIG_DISK_FLUSH, 0, 0, 0, 0);
    check(finish(1) == 0, "the first flush failed");
    submit(VMIG_DISK_WRITE, 0, RUN, 1, 5);
    check(finish(1) == 0, "the first durable write failed");
    submit(VMIG_DISK_READ, DISK_SECTORS, 1, 0, 0);
    check(finish(1) == 1, "a read past the end did not fail");
    submit(VMIG_DISK_FLUSH, 0, 0, 0, 0);
    check(finish(1) == 1, "the flush whose sync failed ended well");
    for (int k = 0; k < 3; k++) submit(VMIG_DISK_FLUSH, 0, 0, 0, 0);
    submit(VMIG_DISK_WRITE, 0, RUN, 1, 6);
    check(finish(4) == 4, "a flush or a durable write ended well after a sync that failed");
    submit(VMIG_DISK_WRITE, 0, RUN, 0, 7);
    check(finish(1) == 0, "a write that need not be durable failed");
    read_all((const uint8_t[RUNS]){7, 0, 3, 4});
    pool_end(&pool);
    disk_close(&disk);
    disk_close(&other);
    puts("pool: all as expected");
    return 0;
}
