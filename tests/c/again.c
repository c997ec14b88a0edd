/* A machine whose disk is a mapped file moves to another file and back, ten times, while its driver writes. Its twin never moves. In the
 * end both disks have the same bytes, and so has RAM. Streams that do not fit, or are cut, give the images back. */
#define _POSIX_C_SOURCE 200809L
#include <stdlib.h>
#include <string.h>
#include <sys/mman.h>
#include <unistd.h>
#include "driver.h"

enum { HEADER = 0x7000, OUTCOME = 0x7100, WRITE = 1, PAGES = 16, SECTORS = 40, SECTOR = 512, LENGTH = SECTORS * SECTOR, MOVES = 10 };

static const vmig_shape SHAPES[] = {{.kind = VMIG_BLOCK, .sectors = SECTORS}, {.kind = VMIG_ENTROPY}};

static uint8_t stream[1 << 20];

/* A file of zeros of the disk's length, mapped. */
static uint8_t *mapped_file(int *file)
{
    char name[] = "/tmp/vmig-again-XXXXXX";
    uint8_t *at;

    *file = mkstemp(name);
    unlink(name);
    expect("length", (uint64_t)ftruncate(*file, LENGTH), 0);
    at = mmap(NULL, LENGTH, PROT_READ | PROT_WRITE, MAP_SHARED, *file, 0);
    expect("mapped", at != MAP_FAILED, 1);
    return at;
}

/* The driver writes one sector, as its `count`-th request. */
static void write_sector(vmig_machine *m, uint32_t count, uint64_t sector, uint8_t byte)
{
    uint8_t bytes[SECTOR];

    memset(bytes, byte, sizeof bytes);
    expect("put", vmig_ram_write(m, DATA, bytes, SECTOR), VMIG_OK);
    put(m, HEADER, WRITE, 4);
    put(m, HEADER + 4, 0, 4);
    put(m, HEADER + 8, sector, 8);
    put(m, OUTCOME, 0xff, 1);
    describe(m, 0, 0, HEADER, 16, HAS_NEXT, 1);
    describe(m, 0, 1, DATA, SECTOR, HAS_NEXT, 2);
    describe(m, 0, 2, OUTCOME, 1, WRITABLE, 0);
    offer(m, 0, count, 0);
    serve(m);
    expect("the driver's status", get(m, OUTCOME, 1), 0);
}

/* Takes what waits, and feeds it to the machine that arrives, if there is one. Returns how many bytes these were. */
static size_t hand_over(vmig_machine *source, vmig_machine *target, uint8_t *to)
{
    size_t all = 0, got = 0;

    do {
        expect("take", vmig_send_take(source, to + all, 4099, &got), VMIG_OK);
        if (target != NULL) expect("feed", (uint64_t)vmig_refused(vmig_feed(target, to + all, got)), 0);
        all += got;
    } while (got > 0);
    return all;
}

/* Moves a machine over the image at `to`, while its driver writes. The images of the source come back, and its bytes are no more
 * needed. The driver has made `count` requests before, and makes two more. */
static vmig_machine move(vmig_machine *source, vmig_machine *twin, uint32_t count, uint8_t *from, uint8_t *to)
{
    vmig_machine target = VMIG_NONE;
    vmig_image image = {to, SECTORS}, back = VMIG_NO_IMAGE;
    uint64_t pages = 0, sectors = 0;

    memset(to, 0xee, LENGTH);
    expect("arrive", arrive_mapped(&image, 1, &target), VMIG_OK);
    expect("taken", image.sectors, 0);
    expect("begin", vmig_send_begin(source), VMIG_OK);
    expect("all pages, and some sectors", vmig_send_some(source, PAGES + SECTORS / 2), VMIG_OK);
    write_sector(source, count + 1, count % SECTORS, (uint8_t)(count + 1));
    write_sector(twin, count + 1, count % SECTORS, (uint8_t)(count + 1));
    hand_over(source, &target, stream);
    expect("the rest", vmig_send_some(source, PAGES + SECTORS), VMIG_ROUND_DONE);
    write_sector(source, count + 2, SECTORS - 1, (uint8_t)(count + 2));
    write_sector(twin, count + 2, SECTORS - 1, (uint8_t)(count + 2));
    expect("stop", vmig_send_stop(source, &pages, &sectors), VMIG_OK);
    hand_over(source, &target, stream);
    expect("no round ended", description_of(&target).rounds, 0);
    expect("it is whole", description_of(&target).whole, 1);
    expect("finish", vmig_finish(&target), VMIG_OK);
    expect("durable before the guest runs", (uint64_t)msync(to, LENGTH, MS_SYNC), 0);
    expect("release", vmig_release(source, &back, 1), VMIG_OK);
    expect("the source's image", back.at == from && back.sectors == SECTORS, 1);
    return target;
}

/* A whole stream of the machine. Its images are back, at the same place, and it is gone. */
static size_t stream_of(vmig_machine *m, uint8_t *at)
{
    vmig_image back = VMIG_NO_IMAGE;
    size_t len = 0;

    expect("save", vmig_save(m, stream, sizeof stream, &len), VMIG_OK);
    expect("release", vmig_release(m, &back, 1), VMIG_OK);
    expect("its image", back.at == at, 1);
    return len;
}

/* What does not arrive gives its images back. */
static void refuses(size_t len, uint8_t *at)
{
    vmig_machine m = VMIG_NONE;
    vmig_image few = {at, SECTORS - 1}, two[] = {{at, SECTORS - 1}, {at + LENGTH - SECTOR, 1}}, right = {at, SECTORS};
    vmig_image back[2] = {VMIG_NO_IMAGE, VMIG_NO_IMAGE};
    uint8_t held[LENGTH];

    memset(at, 0x3c, LENGTH);
    memcpy(held, at, LENGTH);
    expect("a sector too few", arrive_mapped(&few, 1, &m), VMIG_OK);
    expect("is told by the header", vmig_feed(&m, stream, len), VMIG_STREAM_MISMATCH);
    expect("and stays so", vmig_feed(&m, stream, len), VMIG_STREAM_FAILED);
    expect("no machine", vmig_finish(&m), VMIG_STREAM_FAILED);
    expect("no slot", vmig_release(&m, back, 0), VMIG_TOO_SMALL);
    expect("its image", vmig_release(&m, back, 2), VMIG_OK);
    expect("is back", back[0].at == at && back[0].sectors == SECTORS - 1 && back[1].sectors == 0, 1);

    expect("an image too many", arrive_mapped(two, 2, &m), VMIG_OK);
    expect("is told by the header", vmig_feed(&m, stream, len), VMIG_STREAM_MISMATCH);
    back[0] = (vmig_image)VMIG_NO_IMAGE;
    expect("both", vmig_release(&m, back, 2), VMIG_OK);
    expect("are back", back[0].sectors == SECTORS - 1 && back[1].sectors == 1, 1);
    expect("no sector was written", (uint64_t)memcmp(at, held, LENGTH), 0);

    expect("a stream that is cut", arrive_mapped(&right, 1, &m), VMIG_OK);
    expect("comes in part", vmig_feed(&m, stream, len - 1), VMIG_OK);
    expect("in use", arrive_mapped(&right, 0, &m), VMIG_IN_USE);
    expect("whose sectors came", (uint64_t)(memcmp(at, held, LENGTH) != 0), 1);
    memcpy(held, at, LENGTH);
    expect("and is no machine", vmig_finish(&m), VMIG_STREAM_TRUNCATED);
    expect("which changes no sector", (uint64_t)memcmp(at, held, LENGTH), 0);
    expect("its image", vmig_release(&m, &right, 1), VMIG_OK);
    expect("is back", right.at == at && right.sectors == SECTORS, 1);
    expect("nothing is left", m.at == NULL, 1);
    expect("given up on the way", arrive_mapped(&right, 1, &m), VMIG_OK);
    expect("after a part", vmig_feed(&m, stream, len / 2), VMIG_OK);
    vmig_free(&m);
}

int main(void)
{
    vmig_machine m = VMIG_NONE, twin = VMIG_NONE;
    int files[3];
    uint8_t *ats[3];
    uint32_t count = 1;
    size_t len;

    for (int i = 0; i < 3; i++) ats[i] = mapped_file(&files[i]);
    vmig_image first = {ats[0], SECTORS}, other = {ats[2], SECTORS};
    expect("make", make_mapped(PAGES, SHAPES, 2, &first, 1, &m), VMIG_OK);
    expect("make", make_mapped(PAGES, SHAPES, 2, &other, 1, &twin), VMIG_OK);
    set_up(&m, 1);
    set_up(&twin, 1);
    write_sector(&m, 1, 7, 1);
    write_sector(&twin, 1, 7, 1);
    for (int i = 0; i < MOVES; i++, count += 2) m = move(&m, &twin, count, ats[i % 2], ats[1 - i % 2]);
    equal_ram(&m, &twin, PAGES);
    expect("lines", vmig_lines(&m), vmig_lines(&twin));
    expect("the same disk", (uint64_t)memcmp(ats[MOVES % 2], ats[2], LENGTH), 0);
    len = stream_of(&m, ats[MOVES % 2]);
    refuses(len, ats[1]);
    vmig_free(&twin);
    for (int i = 0; i < 3; i++) {
        expect("unmapped", (uint64_t)munmap(ats[i], LENGTH), 0);
        close(files[i]);
    }
    return ended("again");
}
