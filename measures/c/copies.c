/* How long a page takes that is copied while RAM is lent: `copies MIB` hands in MIB mebibytes of the program's RAM, as
 * a host does beside its guest: what is next, a copy, and the handing in. It prints the microseconds of processor time
 * for a page: of memcpy of the same pages, of vmig_copy_page alone, of the three calls, and of the taking, which
 * without VMIG_TOLD digests. With no word it hands in 2 MiB, and prints nothing. What arrives has to be RAM, byte for
 * byte. */
#define _POSIX_C_SOURCE 200809L
#include <stdlib.h>
#include <time.h>
#include "driver.h"

/* Bytes are taken, and the clock is read, after each BATCH pages. */
enum { PAGE = 4096, BATCH = 256, MIB_SHORT = 2, PIECE = 65536 };

static const vmig_shape ENTROPY = {.kind = VMIG_ENTROPY};

struct seconds {
    double copied, copied_by_word, handed, taken;
};

static uint8_t bytes[PAGE];     /* of the page that is copied */

static double now(void)
{
    struct timespec t;
    clock_gettime(CLOCK_PROCESS_CPUTIME_ID, &t);
    return (double)t.tv_sec + (double)t.tv_nsec / 1e9;
}

/* The copies alone, of each page of RAM in its turn. A byte of each is added up, so that no compiler leaves one out. */
static void copy_alone(const uint8_t *from, size_t len, struct seconds *s)
{
    uint64_t sums[2] = {0, 0};
    double begun = now();

    for (size_t at = 0; at < len; at += PAGE) memcpy(bytes, from + at, PAGE), sums[0] += bytes[at / PAGE % PAGE];
    s->copied = now() - begun;
    begun = now();
    for (size_t at = 0; at < len; at += PAGE) vmig_copy_page(from + at, bytes), sums[1] += bytes[at / PAGE % PAGE];
    s->copied_by_word = now() - begun;
    expect("the same was copied", sums[0], sums[1]);
}

/* What waits goes to the target, in pieces; only the taking is measured. A digest that is told is made of it. */
static void carry(vmig_machine *source, vmig_machine *target, vmig_digest *digest, struct seconds *s)
{
    static uint8_t piece[PIECE];
    size_t got = 1;

    while (got > 0) {
        double begun = now();
        expect("take", vmig_send_take(source, piece, sizeof piece, &got), VMIG_OK);
        s->taken += now() - begun;
        if (digest != NULL) vmig_digest_add(digest, piece, got);
        if (got > 0) expect("feed", vmig_refused(vmig_feed(target, piece, got)), 0);
    }
}

/* Hands in up to BATCH pages. How the last of them ended. */
static vmig_status hand_in(vmig_machine *source, const uint8_t *from)
{
    uint32_t page = 0;
    vmig_status status = VMIG_OK;

    for (int left = BATCH; left > 0 && status == VMIG_OK; left--) {
        status = vmig_send_next(source, &page);
        if (status != VMIG_OK) break;
        vmig_copy_page(from + (size_t)page * PAGE, bytes);
        status = vmig_send_page(source, page, bytes);
    }
    return status;
}

/* Moves the machine: all of RAM while it is lent. */
static void move(vmig_machine *source, vmig_machine *target, int is_told, struct seconds *s)
{
    vmig_digest told;
    vmig_digest *digest = is_told ? &told : NULL;
    uint64_t pages = 77, sectors = 77;
    vmig_status status = VMIG_OK;
    vmig_ram ram;
    uint8_t out[32];

    vmig_digest_begin(&told);
    expect("begin", vmig_send_begin_as(source, is_told ? VMIG_TOLD : 0), VMIG_OK);
    expect("lend", vmig_lend(source, &ram), VMIG_OK);
    while (status == VMIG_OK) {
        double begun = now();
        status = hand_in(source, ram.at);
        s->handed += now() - begun;
        carry(source, target, digest, s);
    }
    expect("all was handed in", status, VMIG_ROUND_DONE);
    expect("return", give_back_list(source, &ram, NULL, 0), VMIG_OK);
    expect("stop", vmig_send_stop(source, &pages, &sectors), VMIG_OK);
    expect("nothing was left", pages, 0);
    carry(source, target, digest, s);
    if (!is_told) return;
    vmig_digest_end(&told, out);
    expect("tell", vmig_send_tell(source, out), VMIG_OK);
    carry(source, target, NULL, s);
}

static void measure(uint8_t *from, uint8_t *to, size_t len, int is_told, int is_long)
{
    vmig_machine source = VMIG_NONE, target = VMIG_NONE;
    vmig_setup setup = VMIG_SETUP;
    vmig_arrival arrival = VMIG_ARRIVAL;
    struct seconds s = {0};
    double each = 1e6 / (double)(len / PAGE);

    setup.shapes = &ENTROPY, setup.count = 1, setup.ram = (vmig_ram){from, len}, setup.flags = VMIG_LARGE;
    arrival.ram = (vmig_ram){to, len}, arrival.flags = VMIG_LARGE;
    memset(to, 1, len);
    expect("make", vmig_make(&setup, &source), VMIG_OK);
    expect("arrive", vmig_arrive(&arrival, &target), VMIG_OK);
    copy_alone(from, len, &s);
    move(&source, &target, is_told, &s);
    expect("finish", vmig_finish(&target), VMIG_OK);
    vmig_free(&source);
    vmig_free(&target);
    expect("what arrived", (uint64_t)memcmp(from, to, len), 0);
    if (is_long)
        printf("%s: memcpy %.2f us a page, vmig_copy_page %.2f, handed in %.2f (%.1f times memcpy), taken %.2f\n",
               is_told ? "told" : "own", s.copied * each, s.copied_by_word * each, s.handed * each, s.handed / s.copied,
               s.taken * each);
}

int main(int argc, char **argv)
{
    int is_long = argc > 1;
    size_t mib = is_long ? strtoul(argv[1], NULL, 10) : MIB_SHORT, len = mib << 20;
    uint8_t *from = malloc(len), *to = malloc(len);

    if (len == 0 || from == NULL || to == NULL) return 2;
    for (size_t i = 0; i < len; i++) from[i] = (uint8_t)(i * 31 + i / 4096 * 7 + 1);
    for (int is_told = 0; is_told < 2; is_told++) measure(from, to, len, is_told, is_long);
    free(from);
    free(to);
    return ended("copies");
}
