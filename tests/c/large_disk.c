/* A disk of 2^31 + 8 sectors, in an image of this program that is mapped without reserve: 1 TiB. Its driver writes, reads and clears sectors on
 * both sides of 2^31 and at the end, and gets an error one past it. What arrives for such a disk lies there too. A whole move would be of 2^31
 * records, which takes hours, so what arrives is written here record by record. Where the system maps no TiB without reserve, or the
 * library gets no memory for a mark for each sector, the program says so, and ends. */
#define _DEFAULT_SOURCE
#include <stdlib.h>
#include "driver.h"
#include "mapping.h"

enum { SECTOR = 512, PAGES = 16, IN = 0, OUT = 1, WRITE_ZEROES = 13, HAS_WRITE_ZEROES = 1 << 14 };

/* What a request was answered (VIRTIO 1.2, 5.2.6). */
enum { DONE = 0, IOERR = 1 };

#define EDGE (UINT64_C(1) << 31)
#define SECTORS (EDGE + 8)
#define LEN ((size_t)SECTORS * SECTOR)

/* Where the driver keeps a header, the range that is to be cleared, an outcome, and what it writes and reads. */
enum { HEADER = 0x7000, RANGE = 0x7100, OUTCOME = 0x7200, BYTES = 0x8000, PLACE = 0x9000 };

static const uint64_t NUMBERS[] = {0, EDGE - 1, EDGE, SECTORS - 1};
enum { COUNT = sizeof NUMBERS / sizeof *NUMBERS };

static const vmig_shape SHAPE = {.kind = VMIG_BLOCK, .sectors = SECTORS, .id = "large"};
static uint16_t made;           /* how many requests the driver made available */

static void fill(uint8_t bytes[SECTOR], uint64_t sector)
{
    for (size_t i = 0; i < SECTOR; i++) bytes[i] = (uint8_t)(sector * 7 + i * 13 + 1);
}

static int is_filled(const uint8_t *image, uint64_t sector, int with_zeros)
{
    uint8_t bytes[SECTOR];

    fill(bytes, sector);
    if (with_zeros) memset(bytes, 0, SECTOR);
    return memcmp(image + sector * SECTOR, bytes, SECTOR) == 0;
}

/* The driver makes a request of a part that has the sector, or the range, and the device does it. Returns the outcome. */
static uint64_t ask_for(vmig_machine *m, uint32_t type, uint64_t sector, uint64_t part, uint32_t len)
{
    put(m, HEADER, type, 8);
    put(m, HEADER + 8, sector, 8);
    put(m, OUTCOME, 0xff, 1);
    describe(m, 0, 0, HEADER, 16, HAS_NEXT, 1);
    describe(m, 0, 1, part, len, HAS_NEXT | (type == IN ? WRITABLE : 0), 2);
    describe(m, 0, 2, OUTCOME, 1, WRITABLE, 0);
    offer(m, 0, ++made, 0);
    serve(m);
    return get(m, OUTCOME, 1);
}

static uint64_t clear(vmig_machine *m, uint64_t sector, uint32_t count)
{
    put(m, RANGE, sector, 8);
    put(m, RANGE + 8, count, 4);
    put(m, RANGE + 12, 0, 4);
    return ask_for(m, WRITE_ZEROES, 0, RANGE, 16);
}

static void write_and_read(vmig_machine *m, const uint8_t *image, uint64_t sector)
{
    uint8_t bytes[SECTOR], got[SECTOR];

    fill(bytes, sector);
    expect("to RAM", vmig_ram_write(m, BYTES, bytes, SECTOR), VMIG_OK);
    expect("a write", ask_for(m, OUT, sector, BYTES, SECTOR), DONE);
    expect("it is in the image", (uint64_t)is_filled(image, sector, 0), 1);
    expect("a read", ask_for(m, IN, sector, PLACE, SECTOR), DONE);
    expect("from RAM", vmig_ram_read(m, PLACE, got, SECTOR), VMIG_OK);
    expect("the same", (uint64_t)memcmp(got, bytes, SECTOR), 0);
    expect("from outside", vmig_sector_read(m, 0, sector, got), VMIG_OK);
    expect("the same", (uint64_t)memcmp(got, bytes, SECTOR), 0);
}

/* Past the end, by one, by a number of which the lower 32 bits are inside, and by a range that ends there. Nothing is written. */
static void past_the_end(vmig_machine *m, const uint8_t *image)
{
    static const uint64_t numbers[] = {SECTORS, UINT64_C(1) << 32, UINT64_MAX};
    uint8_t bytes[SECTOR];

    for (size_t i = 0; i < sizeof numbers / sizeof *numbers; i++) {
        expect("a write", ask_for(m, OUT, numbers[i], BYTES, SECTOR), IOERR);
        expect("a read", ask_for(m, IN, numbers[i], PLACE, SECTOR), IOERR);
        expect("a clearing", clear(m, numbers[i], 1), IOERR);
        expect("from outside", vmig_sector_read(m, 0, numbers[i], bytes), VMIG_NO_SECTOR);
    }
    expect("two, of which the second is past it", clear(m, SECTORS - 1, 2), IOERR);
    expect("a write of two", ask_for(m, OUT, SECTORS - 1, BYTES, 2 * SECTOR), IOERR);
    for (size_t i = 0; i < COUNT; i++) expect("as it was", (uint64_t)is_filled(image, NUMBERS[i], 0), 1);
}

/* Each sector is cleared by a range that has it, and none beside the range is. */
static void cleared(vmig_machine *m, const uint8_t *image)
{
    expect("across 2^31", clear(m, EDGE - 4, 8), DONE);
    expect("below", (uint64_t)is_filled(image, EDGE - 1, 1), 1);
    expect("above", (uint64_t)is_filled(image, EDGE, 1), 1);
    expect("the last one is as it was", (uint64_t)is_filled(image, SECTORS - 1, 0), 1);
    expect("the last one", clear(m, SECTORS - 1, 1), DONE);
    expect("it is cleared", (uint64_t)is_filled(image, SECTORS - 1, 1), 1);
    expect("the first one is as it was", (uint64_t)is_filled(image, 0, 0), 1);
}

static vmig_status make_one(uint8_t *image, uint32_t flags, vmig_machine *m)
{
    vmig_image slot = {image, SECTORS};
    vmig_setup setup = VMIG_SETUP;

    setup.pages = PAGES, setup.shapes = &SHAPE, setup.count = 1, setup.flags = flags;
    setup.images = &slot, setup.count_images = 1;
    return vmig_make(&setup, m);
}

/* Returns whether the library got memory for it. */
static int makes(uint8_t *image)
{
    vmig_machine m = VMIG_NONE;
    vmig_image back = VMIG_NO_IMAGE;
    vmig_status status;

    expect("without VMIG_LARGE", make_one(image, 0, &m), VMIG_BAD_SHAPE);
    status = make_one(image, VMIG_LARGE, &m);
    if (status == VMIG_NO_MEMORY) return 0;
    expect("make", status, VMIG_OK);
    expect("its sectors", description_of(&m).shapes[0].sectors, SECTORS);
    set_up_with(&m, 1, HAS_WRITE_ZEROES);
    expect("the capacity that its driver reads", read_reg(&m, 0x100), (uint32_t)SECTORS);
    for (size_t i = 0; i < COUNT; i++) write_and_read(&m, image, NUMBERS[i]);
    past_the_end(&m, image);
    cleared(&m, image);
    expect("release", vmig_release(&m, &back, 1), VMIG_OK);
    expect("the image", back.at == image && back.sectors == SECTORS, 1);
    return 1;
}

/* ---- what arrives, by docs/stream-format.md ----------------------------------------------------------------------------------------- */

enum { FRONT = 16, HEAD = 7 };

static size_t put_number(uint8_t *at, uint64_t value, size_t width)
{
    for (size_t i = 0; i < width; i++) at[i] = (uint8_t)(value >> (8 * i));
    return width;
}

/* The header of a machine of one page and this disk. */
static size_t write_header(uint8_t *at)
{
    static const uint8_t front[FRONT] = {'V', 'M', 'I', 'G', 2, 0, 0, 0, 1, 0, 0, 0, 1, 0, 0, 0};
    size_t len = FRONT;

    memcpy(at, front, FRONT);
    at[len++] = VMIG_BLOCK;
    len += put_number(at + len, SECTORS, 8);
    at[len++] = 0;
    memcpy(at + len, SHAPE.id, sizeof SHAPE.id);
    return len + sizeof SHAPE.id;
}

/* The record of a good sector. */
static size_t write_sector(uint8_t *at, uint64_t sector)
{
    at[0] = 2, at[1] = 0, at[6] = 1;
    put_number(at + 2, sector, 4);
    fill(at + HEAD, sector);
    return HEAD + SECTOR;
}

static vmig_status let_arrive(uint8_t *image, uint32_t flags, vmig_machine *m)
{
    vmig_image slot = {image, SECTORS};
    vmig_arrival arrival = VMIG_ARRIVAL;

    arrival.most_pages = 1, arrival.flags = flags, arrival.images = &slot, arrival.count_images = 1;
    return vmig_arrive(&arrival, m);
}

/* An arrival that was fed the header, of which a mark and a bit for each sector are taken. Returns whether there was memory for them. */
static int begins(uint8_t *image, vmig_machine *m)
{
    uint8_t header[64];
    vmig_status status = let_arrive(image, VMIG_LARGE, m);

    if (status == VMIG_OK) status = vmig_feed(m, header, write_header(header));
    if (status == VMIG_NO_MEMORY || status == VMIG_STREAM_NO_MEMORY) return 0;
    expect("its header", status, VMIG_OK);
    expect("its sectors", description_of(m).shapes[0].sectors, SECTORS);
    return 1;
}

/* Each sector's record comes, and is written to its place; then this record, or the end, which shows what did not come. */
static void arrives(uint8_t *image, const uint8_t *last, size_t len, vmig_status wanted)
{
    uint8_t bytes[HEAD + SECTOR];
    vmig_machine m = VMIG_NONE;
    vmig_image back = VMIG_NO_IMAGE;
    size_t part;

    if (!begins(image, &m)) {
        printf("large_disk: an arrival is not run: no memory for a bit and a mark for each sector\n");
        vmig_free(&m);
        return;
    }
    for (size_t i = 0; i < COUNT; i++) {
        memset(image + NUMBERS[i] * SECTOR, 0xee, SECTOR);
        part = write_sector(bytes, NUMBERS[i]);
        expect("a record, but for a byte", vmig_feed(&m, bytes, part - 1), VMIG_OK);
        expect("its last byte", vmig_feed(&m, bytes + part - 1, 1), VMIG_OK);
    }
    expect("what comes before", vmig_feed(&m, last, len - 1), VMIG_OK);
    expect("the byte that shows it", vmig_feed(&m, last + len - 1, 1), wanted);
    expect("release", vmig_release(&m, &back, 1), VMIG_OK);
    expect("the image", back.at == image && back.sectors == SECTORS, 1);
    for (size_t i = 0; i < COUNT; i++) expect("it lies there", (uint64_t)is_filled(image, NUMBERS[i], 0), 1);
}

/* What shows a fault: the record of the sector past the last, as far as its good byte, and the one after the last record of a page. */
static void receives(uint8_t *image)
{
    static const uint8_t page[] = {6, 0, 0, 0, 0, 4};
    uint8_t record[HEAD + SECTOR], header[64];
    vmig_machine m = VMIG_NONE;

    write_sector(record, SECTORS);
    arrives(image, record, HEAD, VMIG_STREAM_BAD_SECTOR);
    write_sector(record, UINT32_MAX);
    arrives(image, record, HEAD, VMIG_STREAM_BAD_SECTOR);
    arrives(image, page, sizeof page, VMIG_STREAM_MISSING);
    expect("arrive without VMIG_LARGE", let_arrive(image, 0, &m), VMIG_OK);
    size_t len = write_header(header);
    expect("its header, but for a byte", vmig_feed(&m, header, len - 1), VMIG_OK);
    expect("its last byte", vmig_feed(&m, header + len - 1, 1), VMIG_STREAM_BAD_SHAPE);
    vmig_free(&m);
}

int main(void)
{
    uint8_t *image = map_unreserved(LEN);

    if (image == NULL) printf("large_disk: not run: the system maps no TiB without reserve\n");
    else if (!makes(image)) printf("large_disk: not run: no memory for a mark for each sector\n");
    else receives(image);
    unmap_unreserved(image, LEN);
    return ended("large_disk");
}
