/* The code of docs/hosts/snapshots.md as it stands there: a guest that writes its RAM and asks for random bytes while it is saved; and the hosts that
 * continue it. */
#define _POSIX_C_SOURCE 200809L
#include <stdint.h>
#include <stdio.h>
#include <stdlib.h>
#include <unistd.h>
#include "vmig.h"

enum { ENTROPY, DEVICES };                          /* the numbers of your devices */
enum { PAGES = 64, SECTORS = 2048, A_COPY = 16, PIECE = 65536 };

/* What your host has beside this. Each of these returns 0 where it fails. */
int run_guest(vmig_machine *m);                     /* for a while: its exits and the devices' turns. Then every vCPU is outside, and
                                                     * what disks on request were asked for is answered */
int mark_pages(vmig_machine *m);                    /* with RAM of yours: vmig_mark of its dirty bitmap; else there is nothing to do */
int flush_storage(void);                            /* of disks on request: an fdatasync; else there is nothing to do */
int sync_images(void);                              /* msync of each mapped disk; else there is nothing to do */
int fill_pool(vmig_machine *m);                     /* random bytes for the entropy device, by vmig_input */

/* Takes what waits, and writes it to the file. */
static int write_out(vmig_machine *m, FILE *file)
{
    static uint8_t piece[PIECE];
    size_t got = 0;

    do {
        if (vmig_send_take(m, piece, sizeof piece, &got) != VMIG_OK) return 0;
        if (fwrite(piece, 1, got, file) != got) return 0;
    } while (got > 0);
    return 1;
}

/* Copies all that is due in this round, some pages at a time, between which the guest runs. */
static int copy_out(vmig_machine *m, FILE *file)
{
    vmig_status status;

    do {
        if (!run_guest(m)) return 0;
        status = vmig_send_some(m, A_COPY);
        if (vmig_refused(status) || !write_out(m, file)) return 0;
    } while (status != VMIG_ROUND_DONE);
    return mark_pages(m);
}

/* Stops the guest, and copies what is left. Two guests of one snapshot take no byte of one pool. */
static int stop(vmig_machine *m, FILE *file)
{
    uint64_t pages, sectors;

    return vmig_drop(m, ENTROPY) == VMIG_OK && vmig_send_stop(m, &pages, &sectors) == VMIG_OK && write_out(m, file);
}

/* The machine goes to a file: 1 where all of it is there, and on its storage. The guest runs on in any case, once this has returned. */
static int snapshot(vmig_machine *m, FILE *file)
{
    int is_whole;

    if (vmig_send_begin(m) != VMIG_OK) return 0;
    is_whole = copy_out(m, file) && vmig_send_round(m) == VMIG_OK && copy_out(m, file) && stop(m, file);
    if (vmig_send_abort(m) != VMIG_OK || !fill_pool(m)) return 0;
    return is_whole && fflush(file) == 0 && fsync(fileno(file)) == 0 && flush_storage();
}

/* The machine of a file, fed as it is read: 1 where it is there. Then read the lines, do the devices' work, and run the guest. */
static int continue_from(FILE *file, vmig_machine *m)
{
    static uint8_t piece[PIECE];
    vmig_arrival arrival = VMIG_ARRIVAL;
    size_t got;
    vmig_status status;

    arrival.most_pages = PAGES, arrival.most_sectors = SECTORS;
    status = vmig_arrive(&arrival, m);
    while (!vmig_refused(status) && (got = fread(piece, 1, sizeof piece, file)) > 0) status = vmig_feed(m, piece, got);
    if (status == VMIG_WHOLE && vmig_finish(m) == VMIG_OK && sync_images() && fill_pool(m)) return 1;
    vmig_free(m);
    return 0;
}

/* The whole stream of a guest that stands still, *len bytes, which the caller frees. NULL: there is no memory for it, or RAM is lent. */
static uint8_t *stream_of(vmig_machine *m, size_t *len)
{
    uint8_t *stream = NULL;

    if (vmig_save(m, NULL, 0, len) == VMIG_MORE) stream = malloc(*len);
    if (stream == NULL || vmig_save(m, stream, *len, len) == VMIG_OK) return stream;
    free(stream);
    return NULL;
}

/* ---- the host's own parts, and the guest ---- */
#include "driver.h"

enum { HEAP = 16, PAGE = 4096 };

static uint64_t ran, flushed, synced;
static uint8_t random_byte = 1;

/* The guest writes a number into a page of its own. */
int run_guest(vmig_machine *m)
{
    ran++;
    put(m, (HEAP + ran % (PAGES - HEAP)) * PAGE, ran, 8);
    return 1;
}

int mark_pages(vmig_machine *m)
{
    (void)m;
    return 1;
}

int flush_storage(void)
{
    flushed++;
    return 1;
}

int sync_images(void)
{
    synced++;
    return 1;
}

/* Each host has random bytes of its own: here these are a number. */
int fill_pool(vmig_machine *m)
{
    uint8_t bytes[32];
    size_t kept = 0;

    memset(bytes, random_byte, sizeof bytes);
    return vmig_input(m, ENTROPY, bytes, sizeof bytes, &kept) == VMIG_OK && kept == sizeof bytes;
}

/* A file that cannot be written: the snapshot fails, and the guest runs on. */
static void fails(vmig_machine *m)
{
    FILE *full = fopen("/dev/full", "w");

    if (full == NULL) return;
    expect("no snapshot", (uint64_t)snapshot(m, full), 0);
    fclose(full);
    expect("idle again", description_of(m).state, VMIG_IS_IDLE);
    expect("the guest runs", (uint64_t)run_guest(m), 1);
}

/* Both hosts have the same machine, and random bytes of their own. */
static void continues(vmig_machine *m, FILE *file)
{
    vmig_machine second = VMIG_NONE;

    rewind(file);
    random_byte = 3;
    expect("continued", (uint64_t)continue_from(file, &second), 1);
    expect("disks were synced", synced, 1);
    equal_ram(m, &second, PAGES);
    ask(m, 1);
    ask(&second, 1);
    expect("random bytes of the first", get(m, DATA, 1), 2);
    expect("and of the second", get(&second, DATA, 1), 3);
    vmig_free(&second);
}

/* A file that was cut is refused, at each of these places. */
static void is_cut(FILE *file)
{
    vmig_machine none = VMIG_NONE;
    long length;

    fseek(file, 0, SEEK_END);
    length = ftell(file);
    for (long at = length - 1; at > 0; at = at / 2) {
        expect("cut", (uint64_t)ftruncate(fileno(file), at), 0);
        rewind(file);
        expect("refused", (uint64_t)continue_from(file, &none), 0);
        expect("no machine", description_of(&none).state, VMIG_IS_NONE);
    }
}

static void stands_still(vmig_machine *m)
{
    vmig_machine other = VMIG_NONE;
    uint32_t rounds;
    size_t len = 0;
    uint8_t *stream = stream_of(m, &len);

    expect("a stream", stream != NULL, 1);
    if (stream == NULL) return;
    expect("received", receive(stream, len, &other, &rounds), VMIG_OK);
    equal_ram(m, &other, PAGES);
    free(stream);
    vmig_free(&other);
}

int main(void)
{
    static const vmig_shape shapes[DEVICES] = {[ENTROPY] = {.kind = VMIG_ENTROPY}};
    vmig_machine m = VMIG_NONE;
    FILE *file = tmpfile();

    if (file == NULL) {
        puts("pages/snapshots: there is no file to be had");
        return 0;
    }
    expect("make", make_new(PAGES, shapes, DEVICES, &m), VMIG_OK);
    set_up(&m, 1);
    expect("fill", (uint64_t)fill_pool(&m), 1);
    fails(&m);
    random_byte = 2;
    expect("no snapshot yet was flushed", flushed, 0);
    expect("all of it is in the file", (uint64_t)snapshot(&m, file), 1);
    expect("storage was flushed", flushed, 1);
    continues(&m, file);
    is_cut(file);
    stands_still(&m);
    fclose(file);
    vmig_free(&m);
    return ended("pages/snapshots");
}
