/* A snapshot: a machine is written to a file while its guest runs, and stands still for the stop alone. No more of it is in memory than what a
 * copy writes. The guest goes on, and a second machine begins from the file, where it was. The random bytes that the host put in are
 * dropped before the stop, and each of the two gets its own. */
#include <stdlib.h>
#include "driver.h"

enum { PAGES = 64, PAGE = 4096, A_COPY = 16, POOL = 64, HEAP = 16 };

static size_t most;     /* that were taken at once */

/* The guest counts, in one page after another. */
static void run_guest(vmig_machine *m)
{
    static uint64_t count;

    for (int i = 0; i < 3; i++, count++) put(m, (HEAP + count % (PAGES - HEAP)) * PAGE + 8 * (count % 512), count + 1, 8);
}

static void fill_pool(vmig_machine *m, uint8_t byte)
{
    uint8_t bytes[POOL];
    size_t kept = 0;

    memset(bytes, byte, POOL);
    expect("input", vmig_input(m, 0, bytes, POOL, &kept), VMIG_OK);
    expect("all of it", kept, POOL);
}

/* Takes what waits, and writes it to the file: 1 where that went well. */
static int write_out(vmig_machine *m, FILE *file)
{
    static uint8_t piece[A_COPY * (PAGE + 5)];
    size_t got = 0, written = 0;

    do {
        if (vmig_send_take(m, piece, sizeof piece, &got) != VMIG_OK) return 0;
        written = fwrite(piece, 1, got, file);
        if (got > most) most = got;
    } while (got > 0 && written == got);
    return written == got;
}

/* All that is due is copied, some pages at a time, between which the guest runs. */
static int copy_out(vmig_machine *m, FILE *file)
{
    vmig_status status;

    do {
        run_guest(m);
        status = vmig_send_some(m, A_COPY);
        if (vmig_refused(status) || !write_out(m, file)) return 0;
    } while (status != VMIG_ROUND_DONE);
    return 1;
}

/* The machine goes to a file: 1 where all of it is there. What waits is taken before the stop, which then digests its own items alone. From the
 * stop to the abort the guest stands still; it goes on here in any case. */
static int snapshot(vmig_machine *m, FILE *file)
{
    uint64_t pages, sectors;
    int is_whole;

    if (vmig_send_begin(m) != VMIG_OK) return 0;
    is_whole = copy_out(m, file) && vmig_send_round(m) == VMIG_OK && copy_out(m, file);
    is_whole = is_whole && vmig_drop(m, 0) == VMIG_OK && vmig_send_stop(m, &pages, &sectors) == VMIG_OK && write_out(m, file);
    return vmig_send_abort(m) == VMIG_OK && is_whole && fflush(file) == 0;
}

/* The machine of a file, fed as it is read. */
static void begin_again(FILE *file, vmig_machine *m)
{
    uint8_t piece[1000];
    size_t got;
    vmig_status status = arrive_any(m);

    rewind(file);
    while (!vmig_refused(status) && (got = fread(piece, 1, sizeof piece, file)) > 0) status = vmig_feed(m, piece, got);
    expect("it is whole", status, VMIG_WHOLE);
    expect("finish", vmig_finish(m), VMIG_OK);
}

int main(void)
{
    static const vmig_shape shapes[] = {{.kind = VMIG_ENTROPY}};
    vmig_machine m = VMIG_NONE, second = VMIG_NONE;
    FILE *file = tmpfile();

    if (file == NULL) return 2;
    expect("make", make_new(PAGES, shapes, 1, &m), VMIG_OK);
    set_up(&m, 1);
    for (uint64_t page = HEAP; page < PAGES; page++) put(&m, page * PAGE, page, 8);
    fill_pool(&m, 1);
    expect("all of it is in the file", (uint64_t)snapshot(&m, file), 1);
    expect("no more than a copy was in memory", most <= A_COPY * (PAGE + 5), 1);
    begin_again(file, &second);
    equal_ram(&m, &second, PAGES);
    fill_pool(&m, 2);
    fill_pool(&second, 3);
    ask(&m, 1);
    ask(&second, 1);
    expect("random bytes of the first", get(&m, DATA, 1), 2);
    expect("and of the second", get(&second, DATA, 1), 3);
    run_guest(&m);
    fclose(file);
    vmig_free(&m);
    vmig_free(&second);
    return ended("snapshot");
}
