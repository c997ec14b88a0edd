/* Statuses that no other program in C meets, each once.
 *
 * One is met by none: VMIG_NO_ROUND_LEFT, which comes after 4,294,967,294 rounds. */
#include <stdlib.h>
#include <sys/resource.h>
#include "driver.h"

enum { HEADER_LEN = 46, PAGE_LEN = 4101, BODY_LEN = 63 };

static uint8_t stream[8192];
static size_t stream_len;

static void append(const void *bytes, size_t len)
{
    memcpy(stream + stream_len, bytes, len);
    stream_len += len;
}

/* The stream, in version 1, of a machine of one page of zeros and a disk of one sector, which is bad. The digest was computed by
 * another program. */
static void spell_bad_sector(void)
{
    static const uint8_t front[] = {'V', 'M', 'I', 'G', 1, 0, 0, 0, 1, 0, 0, 0, 1, 0, 0, 0, 2, 1};
    static const uint8_t zeros[PAGE_LEN];
    static const uint8_t page[] = {1}, sector[] = {2, 0, 0, 0, 0, 0, 0}, device[] = {4, 0, BODY_LEN, 0, 0, 0};
    static const uint8_t wraps[] = {1, 0, 0, 1, 0}, commit[] = {5};
    static const uint8_t digest[] = {0x88, 0xc6, 0x4c, 0x0b, 0x27, 0xb6, 0x09, 0xac, 0xd0, 0x16, 0x8b, 0xfc, 0x7a, 0xfc, 0x93, 0xda,
                                     0xbe, 0xd3, 0x42, 0xc1, 0x0a, 0x63, 0x18, 0x3c, 0x0a, 0x83, 0x31, 0x10, 0x05, 0xbd, 0xab, 0x84};

    append(front, sizeof front);
    append(zeros, HEADER_LEN - sizeof front);
    append(page, 1);
    append(zeros, PAGE_LEN - 1);
    append(sector, sizeof sector);
    append(device, sizeof device);
    append(zeros, BODY_LEN - sizeof wraps);
    append(wraps, sizeof wraps);
    append(commit, 1);
    append(digest, sizeof digest);
}

/* The stream with one byte changed, or cut, is refused with this status. */
static void refuses(const char *what, size_t at, uint8_t value, uint32_t status)
{
    vmig_machine m = VMIG_NONE;
    uint32_t rounds = 77;
    uint8_t was = stream[at];

    stream[at] = value;
    expect(what, receive(stream, stream_len, &m, &rounds), status);
    stream[at] = was;
    expect("no rounds", rounds, 77);
}

static void streams(void)
{
    vmig_machine m = VMIG_NONE;
    uint32_t rounds = 77;
    uint8_t buf[512];
    size_t len = 77, kept = 77;

    spell_bad_sector();
    refuses("version", 4, 3, VMIG_STREAM_BAD_VERSION);
    refuses("pages", 8, 0, VMIG_STREAM_BAD_SHAPE);
    refuses("page", HEADER_LEN + 1, 1, VMIG_STREAM_BAD_PAGE);
    refuses("round", HEADER_LEN, 3, VMIG_STREAM_BAD_ROUND);
    refuses("missing", HEADER_LEN, 4, VMIG_STREAM_MISSING);
    refuses("sector", HEADER_LEN + PAGE_LEN + 1, 1, VMIG_STREAM_BAD_SECTOR);
    refuses("device", HEADER_LEN + PAGE_LEN + 8, 1, VMIG_STREAM_BAD_DEVICE);
    stream_len++;
    refuses("trailing", stream_len - 1, 0, VMIG_STREAM_TRAILING);
    stream_len--;

    expect("receive", receive(stream, stream_len, &m, &rounds), VMIG_OK);
    expect("a bad sector", vmig_sector_read(&m, 0, 0, buf), VMIG_BAD_SECTOR);
    expect("length with a bad sector", vmig_save(&m, NULL, 0, &len), VMIG_MORE);
    /* The stream above is of version 1. In version 2 a page of zeros has 5 bytes. */
    expect("as that of its stream in version 2", len, stream_len - PAGE_LEN + 5);
    expect("no input", vmig_input(&m, 0, buf, 1, &kept), VMIG_WRONG_KIND);
    expect("no room", vmig_room(&m, 0, &kept), VMIG_WRONG_KIND);
    expect("nothing to drop", vmig_drop(&m, 0), VMIG_WRONG_KIND);
    expect("no number", kept, 77);
    expect("no such device", vmig_input(&m, 1, buf, 1, &kept), VMIG_NO_DEVICE);
    expect("no such device", vmig_room(&m, 1, &kept), VMIG_NO_DEVICE);
    expect("no such device", vmig_drop(&m, 1), VMIG_NO_DEVICE);
    vmig_free(&m);
}

static void network(void)
{
    static const vmig_shape shapes[] = {{.kind = VMIG_NETWORK, .mac = {2, 0, 0, 0, 0, 1}}};
    static uint8_t frame[4097];
    vmig_machine m = VMIG_NONE;
    uint32_t number = 77;
    size_t kept = 77;

    expect("make", make_new(16, shapes, 1, &m), VMIG_OK);
    expect("first bytes of the MAC", read_reg(&m, 0x100), 2);
    expect("short frame", vmig_input(&m, 0, frame, 13, &kept), VMIG_BAD_FRAME);
    expect("long access", vmig_ram_write(&m, 0, frame, sizeof frame), VMIG_TOO_LONG);
    set_up(&m, 2);
    describe(&m, 0, 0, DATA, 100, WRITABLE, 0);
    offer(&m, 0, 1, 0);
    expect("room", vmig_room(&m, 0, &kept), VMIG_OK);
    expect("for frames", kept, 64);
    expect("frame", vmig_input(&m, 0, frame, 1514, &kept), VMIG_OK);
    expect("kept", kept, 1514);
    expect("room", vmig_room(&m, 0, &kept), VMIG_OK);
    expect("for frames", kept, 63);
    expect("a small buffer of the guest", vmig_step(&m, 0, 0, frame, 0, &number), VMIG_DROPPED);
    expect("a small buffer of the host", vmig_step(&m, 0, 1, frame, 1513, &number), VMIG_TOO_SMALL);
    for (int pick = 2; pick < 256; pick++) expect("no such work", vmig_step(&m, 0, (uint8_t)pick, frame, 0, &number), VMIG_IDLE);
    expect("no length", number, 77);
    vmig_free(&m);
}

/* Both contents and images for one disk: which of them would it be? Nothing is taken. */
static vmig_status make_both(vmig_machine *m, const uint8_t *sector)
{
    static const vmig_shape shapes[] = {{.kind = VMIG_BLOCK, .sectors = 1}};
    static uint8_t image_bytes[512];
    vmig_image image = {image_bytes, 1};
    vmig_setup setup = VMIG_SETUP;

    setup.pages = 1, setup.shapes = shapes, setup.count = 1, setup.contents = sector, setup.len = 512, setup.images = &image, setup.count_images = 1;
    vmig_status status = vmig_make(&setup, m);
    expect("the image is left", image.at == image_bytes && image.sectors == 1, 1);
    return status;
}

/* A word that has to be 0 is not, in a struct that is right otherwise. It is refused before all else that is wrong. */
static void word_of_setup(uint32_t *word, vmig_setup *setup)
{
    vmig_machine m = VMIG_NONE;

    *word ^= 1u << 31;
    expect("a word that has to be 0", vmig_make(setup, &m), VMIG_NOT_KNOWN);
    setup->pages = 0, setup->base = 1;
    expect("before the rest", vmig_make(setup, &m), VMIG_NOT_KNOWN);
    *word ^= 1u << 31;
    expect("without it", vmig_make(setup, &m), VMIG_BAD_RAM);
    setup->pages = 1, setup->base = 0;
    expect("nothing was made", m.at == NULL, 1);
}

static void word_of_arrival(uint32_t *word, vmig_arrival *arrival)
{
    vmig_machine m = VMIG_NONE;

    *word ^= 1u << 31;
    expect("a word that has to be 0", vmig_arrive(arrival, &m), VMIG_NOT_KNOWN);
    arrival->base = 1;
    expect("before the rest", vmig_arrive(arrival, &m), VMIG_NOT_KNOWN);
    *word ^= 1u << 31;
    expect("without it", vmig_arrive(arrival, &m), VMIG_BAD_BASE);
    arrival->base = 0;
    expect("nothing arrives", m.at == NULL, 1);
}

/* Every half of a word of 64 bits. */
static uint32_t *half(uint64_t *words, size_t i)
{
    return (uint32_t *)(void *)words + i;
}

/* A struct that asks for what this library does not know is refused, before anything else but a handle that is in use. */
static void asked_for_more(void)
{
    static const uint8_t sector[512];
    static const vmig_shape shapes[] = {{.kind = VMIG_ENTROPY}};
    vmig_machine m = VMIG_NONE;
    vmig_setup setup = VMIG_SETUP, later = VMIG_SETUP;
    vmig_arrival arrival = VMIG_ARRIVAL, later_arrival = VMIG_ARRIVAL;

    setup.pages = 1, setup.shapes = shapes, setup.count = 1;
    expect("no version", vmig_make(&(vmig_setup){.pages = 1}, &m), VMIG_NOT_KNOWN);
    expect("no version", vmig_arrive(&(vmig_arrival){.most_pages = 1}, &m), VMIG_NOT_KNOWN);
    later.version = later_arrival.version = 2;
    expect("a later version", vmig_make(&later, &m), VMIG_NOT_KNOWN);
    expect("a later version", vmig_arrive(&later_arrival, &m), VMIG_NOT_KNOWN);
    word_of_setup(&setup.flags, &setup);
    for (size_t i = 0; i < 2 * sizeof setup.reserved / sizeof *setup.reserved; i++) word_of_setup(half(setup.reserved, i), &setup);
    word_of_arrival(&arrival.flags, &arrival);
    word_of_arrival(&arrival.frame, &arrival);
    word_of_arrival(&arrival.zero, &arrival);
    for (size_t i = 0; i < 2 * sizeof arrival.reserved / sizeof *arrival.reserved; i++)
        word_of_arrival(half(arrival.reserved, i), &arrival);
    expect("contents and images", make_both(&m, sector), VMIG_BAD_IMAGES);
    expect("nothing was made", m.at == NULL, 1);
    expect("arrive", vmig_arrive(&arrival, &m), VMIG_OK);
    expect("in use", vmig_make(&later, &m), VMIG_IN_USE);
    expect("in use", vmig_arrive(&later_arrival, &m), VMIG_IN_USE);
    vmig_free(&m);
}

/* What the kind of a device does not need is 0, and each kind has its limits. */
static void shapes_of(void)
{
    static const vmig_shape wrong[] = {
        {.kind = 0}, {.kind = 5}, {.kind = 130}, {.kind = VMIG_BLOCK}, {.kind = VMIG_BLOCK, .sectors = 2097153},
        {.kind = VMIG_BLOCK, .sectors = 1, .read_only = 2}, {.kind = VMIG_BLOCK, .sectors = 1, .mac = {1}},
        {.kind = VMIG_BLOCK, .sectors = 1, .frame = 1}, {.kind = VMIG_BLOCK, .sectors = 1, .reserved = {0, 1}},
        {.kind = VMIG_CONSOLE, .sectors = 1}, {.kind = VMIG_CONSOLE, .mac = {0, 0, 0, 0, 0, 1}},
        {.kind = VMIG_ENTROPY, .id = {[19] = 1}}, {.kind = VMIG_ENTROPY, .read_only = 1}, {.kind = VMIG_ENTROPY, .reserved = {1}},
        {.kind = VMIG_NETWORK, .sectors = 1}, {.kind = VMIG_NETWORK, .id = {1}}, {.kind = VMIG_NETWORK, .frame = 1513},
        {.kind = VMIG_NETWORK, .frame = 1515}, {.kind = VMIG_CONSOLE, .frame = 1514}, {.kind = VMIG_NETWORK, .read_only = 1}};
    vmig_shape many[17] = {{.kind = VMIG_ENTROPY}};
    vmig_machine m = VMIG_NONE;
    vmig_arrival arrival = VMIG_ARRIVAL;

    for (size_t i = 0; i < 17; i++) many[i] = many[0];
    for (size_t i = 0; i < sizeof wrong / sizeof *wrong; i++) {
        many[1] = wrong[i];
        expect("a shape that cannot be", make_new(1, many, 2, &m), VMIG_BAD_SHAPE);
        arrival.shapes = many, arrival.count = 2;
        expect("a shape that cannot be", vmig_arrive(&arrival, &m), VMIG_BAD_SHAPE);
        expect("of one that is not looked at", make_new(1, many, 1, &m), VMIG_OK);
        vmig_free(&m);
    }
    many[1] = many[0];
    expect("seventeen devices", make_new(1, many, 17, &m), VMIG_BAD_SHAPE);
    arrival.count = 17;
    expect("seventeen devices", vmig_arrive(&arrival, &m), VMIG_BAD_SHAPE);
    expect("sixteen", make_new(1, many, 16, &m), VMIG_OK);
    vmig_free(&m);
}

/* RAM of this program, of two pages, and the pages that are asked for beside it. */
static vmig_status make_of(uint32_t pages, vmig_ram *ram, vmig_machine *m)
{
    static const vmig_shape shapes[] = {{.kind = VMIG_ENTROPY}};
    vmig_setup setup = VMIG_SETUP;

    setup.pages = pages, setup.shapes = shapes, setup.count = 1, setup.ram = *ram;
    vmig_status status = vmig_make(&setup, m);
    *ram = setup.ram;
    return status;
}

static void pages_and_ram(void)
{
    static uint8_t two[2 * 4096];
    vmig_machine m = VMIG_NONE;
    vmig_ram ram = {two, sizeof two};

    expect("a page too few", make_of(1, &ram, &m), VMIG_BAD_RAM);
    expect("a page too many", make_of(3, &ram, &m), VMIG_BAD_RAM);
    expect("very many", make_of(UINT32_MAX, &ram, &m), VMIG_BAD_RAM);
    expect("nothing was taken", ram.at == two && ram.len == sizeof two && m.at == NULL, 1);
    for (uint32_t asked = 0; asked <= 2; asked += 2) {
        ram = (vmig_ram){two, sizeof two};
        expect("as many", make_of(asked, &ram, &m), VMIG_OK);
        expect("taken", ram.at == NULL && ram.len == 0, 1);
        expect("pages", description_of(&m).pages, 2);
        vmig_free(&m);
    }
}

/* RAM of this program, and disks of the library that hold what this program gives. */
static void contents_over_ram(void)
{
    static const vmig_shape shapes[] = {{.kind = VMIG_BLOCK, .sectors = 1}, {.kind = VMIG_CONSOLE}, {.kind = VMIG_BLOCK, .sectors = 2}};
    static uint8_t page[4096], contents[3 * 512], got[512];
    vmig_machine m = VMIG_NONE;
    vmig_setup setup = VMIG_SETUP;

    for (size_t i = 0; i < sizeof contents; i++) contents[i] = (uint8_t)(1 + i / 512 + 16 * (i % 7));
    page[4095] = 9;
    setup.shapes = shapes, setup.count = 3, setup.contents = contents, setup.len = sizeof contents - 512, setup.ram = (vmig_ram){page, sizeof page};
    expect("a sector too few", vmig_make(&setup, &m), VMIG_BAD_IMAGES);
    setup.len = sizeof contents;
    setup.ram.len = 4095;
    expect("no whole page", vmig_make(&setup, &m), VMIG_BAD_RAM);
    setup.ram.len = 4096;
    setup.count = 0;
    expect("no device", vmig_make(&setup, &m), VMIG_BAD_SHAPE);
    expect("nothing was taken", setup.ram.at == page && setup.ram.len == 4096, 1);
    setup.count = 3;
    expect("make", vmig_make(&setup, &m), VMIG_OK);
    expect("taken", setup.ram.at == NULL && setup.ram.len == 0 && setup.len == sizeof contents && setup.contents == contents, 1);
    expect("its RAM", get(&m, 4095, 1), 9);
    expect("first disk", vmig_sector_read(&m, 0, 0, got), VMIG_OK);
    expect("its sector", (uint64_t)memcmp(got, contents, 512), 0);
    expect("second disk", vmig_sector_read(&m, 2, 1, got), VMIG_OK);
    expect("its sector", (uint64_t)memcmp(got, contents + 1024, 512), 0);
    expect("a guest writes", vmig_ram_write(&m, 0, got, 1), VMIG_OK);
    expect("into this program's memory", page[0], got[0]);
    expect("disks of the library", vmig_release(&m, NULL, 0), VMIG_OK);
}

/* The stream of one page and one sector arrives within these limits, over the image and in the RAM, if there are any, which are their own
 * limit. It comes in pieces of this length, and is refused by the one that completes its header, if it is. Returns whether it arrived. */
static int arrives_within(uint32_t pages, uint64_t sectors, uint8_t *disk, uint8_t *room, size_t piece)
{
    vmig_machine m = VMIG_NONE;
    vmig_image image = {disk, disk != NULL};
    vmig_arrival arrival = VMIG_ARRIVAL;
    int is_let = (room != NULL || pages >= 1) && (disk != NULL || sectors >= 1);
    vmig_status status = VMIG_OK;
    size_t at = 0;

    arrival.most_pages = room != NULL ? 0 : pages, arrival.most_sectors = sectors;
    arrival.images = &image, arrival.count_images = disk != NULL, arrival.ram = (vmig_ram){room, room != NULL ? 4096 : 0};
    expect("arrive", vmig_arrive(&arrival, &m), VMIG_OK);
    expect("taken", arrival.ram.len + image.sectors, 0);
    for (; at < stream_len && status == VMIG_OK; at += piece) {
        size_t more = stream_len - at < piece ? stream_len - at : piece;
        status = vmig_feed(&m, stream + at, more);
        if (at + more < HEADER_LEN) expect("a piece of the header", status, VMIG_OK);
        else expect("a piece", status, !is_let ? VMIG_STREAM_TOO_LARGE : at + more < stream_len ? VMIG_OK : VMIG_WHOLE);
    }
    if (is_let) expect("finish", vmig_finish(&m), VMIG_OK);
    else {
        expect("refused for good", vmig_feed(&m, stream, stream_len), VMIG_STREAM_FAILED);
        expect("and its end", vmig_finish(&m), VMIG_STREAM_FAILED);
        expect("why", description_of(&m).fault, VMIG_STREAM_TOO_LARGE);
        expect("no rounds", description_of(&m).rounds, 0);
        expect("in use", make_new(1, NULL, 0, &m), VMIG_IN_USE);
    }
    expect("slots that are needed", description_of(&m).images, disk != NULL);
    expect("its image", vmig_release(&m, &image, 1), VMIG_OK);
    expect("is back", image.at == disk && image.sectors == (disk != NULL), 1);
    return is_let;
}

static void too_large(void)
{
    static uint8_t disk[512], room[4096];
    static const size_t pieces[] = {1, 17, HEADER_LEN - 1, HEADER_LEN, 1000, sizeof stream};

    for (size_t i = 0; i < sizeof pieces / sizeof *pieces; i++)
        for (uint32_t pages = 0; pages <= 2; pages++)
            for (uint64_t sectors = 0; sectors <= 2; sectors++) {
                memset(disk, 0x5a, sizeof disk), memset(room, 0x5a, sizeof room);
                expect("in neither", (uint64_t)arrives_within(pages, sectors, NULL, NULL, pieces[i]), pages > 0 && sectors > 0);
                expect("on the disk", (uint64_t)arrives_within(pages, sectors, disk, NULL, pieces[i]), pages > 0);
                expect("nothing was written", disk[0], 0x5a);
                expect("in RAM", (uint64_t)arrives_within(pages, sectors, NULL, room, pieces[i]), sectors > 0);
                expect("a page was written, or none", room[4095], sectors > 0 ? 0 : 0x5a);
                expect("in both", (uint64_t)arrives_within(pages, sectors, disk, room, pieces[i]), 1);
                expect("a page was written", room[4095], 0);
            }
}

/* A stream that is no stream at all is refused by its first bytes, within limits too. */
static void no_stream_within(void)
{
    vmig_machine m = VMIG_NONE;
    vmig_arrival arrival = VMIG_ARRIVAL;

    expect("arrive", vmig_arrive(&arrival, &m), VMIG_OK);
    expect("three bytes", vmig_feed(&m, (const uint8_t *)"vmi", 3), VMIG_OK);
    expect("and the fourth", vmig_feed(&m, (const uint8_t *)"g", 1), VMIG_STREAM_BAD_MAGIC);
    expect("refused for good", vmig_feed(&m, stream, stream_len), VMIG_STREAM_FAILED);
    vmig_free(&m);
    expect("arrive", vmig_arrive(&arrival, &m), VMIG_OK);
    expect("cut off", vmig_feed(&m, stream, HEADER_LEN - 1), VMIG_OK);
    expect("in its header", vmig_finish(&m), VMIG_STREAM_TRUNCATED);
    expect("refused for good", vmig_finish(&m), VMIG_STREAM_FAILED);
    vmig_free(&m);
}

static void names(void)
{
    static const uint32_t unknown[] = {6, 13, 14, 16, 19, 46, 50, 63, 64, 74, 75, 85, 255, UINT32_MAX};
    uint32_t known = 0;

    expect("name of a success", (uint64_t)strcmp(vmig_status_name(VMIG_OK), "VMIG_OK"), 0);
    expect("name of a refusal", (uint64_t)strcmp(vmig_status_name(VMIG_NO_DEVICE), "VMIG_NO_DEVICE"), 0);
    expect("name of the last status", (uint64_t)strcmp(vmig_status_name(VMIG_SECTORS), "VMIG_SECTORS"), 0);
    for (uint32_t status = 0; status < 256; status++) {
        if (strncmp(vmig_status_name(status), "VMIG_", 5) == 0) known++;
        expect("refused", (uint64_t)vmig_refused(status), status >= 1 && status <= 63);
    }
    expect("refused", (uint64_t)vmig_refused(UINT32_MAX), 0);
    expect("statuses that have a name", known, 62);
    for (size_t i = 0; i < sizeof unknown / sizeof *unknown; i++)
        expect("no name", (uint64_t)strcmp(vmig_status_name(unknown[i]), "unknown status"), 0);
}

/* RAM in memory of this program: two pages. */
static uint8_t room[2 * 4096];
static const vmig_shape over_shapes[] = {{.kind = VMIG_BLOCK, .sectors = 1}};

/* All that vmig_make refuses, in the order of its tests: each with the later faults there too. */
static void making_in_order(void)
{
    static uint8_t sector[512];
    static const vmig_shape none = {.kind = 5};
    vmig_machine m = VMIG_NONE;
    vmig_image few = {sector, 2}, image = {sector, 1};
    vmig_setup setup = VMIG_SETUP;

    setup.ram = (vmig_ram){room, sizeof room - 1}, setup.flags = 4, setup.shapes = &none, setup.count = 1, setup.base = 1;
    setup.images = &few, setup.count_images = 1;
    expect("a flag", vmig_make(&setup, &m), VMIG_NOT_KNOWN);
    setup.flags = 0;
    expect("no whole page", vmig_make(&setup, &m), VMIG_BAD_RAM);
    setup.ram.len = sizeof room, setup.pages = 1;
    expect("a page too few", vmig_make(&setup, &m), VMIG_BAD_RAM);
    setup.pages = 2;
    expect("an unknown kind", vmig_make(&setup, &m), VMIG_BAD_SHAPE);
    setup.shapes = over_shapes;
    expect("within a page", vmig_make(&setup, &m), VMIG_BAD_BASE);
    setup.base = (uint64_t)0 - 4096;
    expect("past the last address", vmig_make(&setup, &m), VMIG_BAD_BASE);
    setup.base = (uint64_t)0 - 8192;
    expect("a sector too many", vmig_make(&setup, &m), VMIG_BAD_IMAGES);
    setup.images = &image;
    expect("nothing was taken", setup.ram.at == room && few.sectors == 2 && m.at == NULL, 1);
    expect("made", vmig_make(&setup, &m), VMIG_OK);
    expect("taken", setup.ram.at == NULL && setup.ram.len == 0 && image.sectors == 0, 1);
    vmig_free(&m);
}

/* The same of vmig_arrive. */
static void arriving_in_order(void)
{
    static uint8_t sector[512];
    static const vmig_shape none = {.kind = 5};
    vmig_machine m = VMIG_NONE;
    vmig_image few = {sector, 2}, image = {sector, 1};
    vmig_arrival arrival = VMIG_ARRIVAL;

    arrival.ram = (vmig_ram){room, sizeof room - 1}, arrival.flags = 8, arrival.shapes = &none, arrival.count = 1, arrival.base = 1;
    arrival.images = &few, arrival.count_images = 1;
    expect("a flag", vmig_arrive(&arrival, &m), VMIG_NOT_KNOWN);
    arrival.flags = 0;
    expect("no whole page", vmig_arrive(&arrival, &m), VMIG_BAD_RAM);
    arrival.ram.len = sizeof room, arrival.most_pages = 2;
    expect("a limit beside it", vmig_arrive(&arrival, &m), VMIG_BAD_RAM);
    arrival.most_pages = 0;
    expect("an unknown kind", vmig_arrive(&arrival, &m), VMIG_BAD_SHAPE);
    arrival.shapes = over_shapes;
    expect("within a page", vmig_arrive(&arrival, &m), VMIG_BAD_BASE);
    arrival.base = (uint64_t)0 - 4096;
    expect("past the last address", vmig_arrive(&arrival, &m), VMIG_BAD_BASE);
    arrival.base = 0;
    expect("a sector too many", vmig_arrive(&arrival, &m), VMIG_BAD_IMAGES);
    arrival.images = &image;
    expect("nothing was taken", arrival.ram.at == room && few.sectors == 2 && m.at == NULL, 1);
    expect("arrive", vmig_arrive(&arrival, &m), VMIG_OK);
    expect("taken", arrival.ram.at == NULL && arrival.ram.len == 0 && image.sectors == 0, 1);
    vmig_free(&m);
}

/* What vmig_make and vmig_arrive refuse of RAM of this program. */
static void making_over(void)
{
    static uint8_t sector[512];
    vmig_machine m = VMIG_NONE;
    vmig_ram none = VMIG_NO_RAM, odd = {room, sizeof room - 1}, large = {malloc(16385 * 4096), 16385 * 4096}, right = {room, sizeof room};
    vmig_image few = {sector, 0}, image = {sector, 1};

    expect("make", make_new(1, over_shapes, 1, &m), VMIG_OK);
    expect("in use", make_over(&none, NULL, 0, &few, 1, &m), VMIG_IN_USE);
    expect("in use", arrive_over(&none, &few, 1, &m), VMIG_IN_USE);
    vmig_free(&m);
    expect("neither RAM nor pages", make_over(&none, over_shapes, 1, &few, 1, &m), VMIG_BAD_RAM);
    expect("more pages than can be", make_new(16385, over_shapes, 1, &m), VMIG_BAD_RAM);
    expect("no whole page", make_over(&odd, NULL, 0, &few, 1, &m), VMIG_BAD_RAM);
    expect("a page too many", make_over(&large, NULL, 0, &few, 1, &m), VMIG_BAD_RAM);
    expect("no whole page", arrive_over(&odd, &few, 1, &m), VMIG_BAD_RAM);
    expect("a page too many", arrive_over(&large, &few, 1, &m), VMIG_BAD_RAM);
    expect("no device", make_over(&right, NULL, 0, &few, 1, &m), VMIG_BAD_SHAPE);
    expect("no sector", make_over(&right, over_shapes, 1, &few, 1, &m), VMIG_BAD_IMAGES);
    expect("nothing changed", right.at == room && right.len == sizeof room && odd.at == room && m.at == NULL, 1);
    expect("over an image", make_over(&right, over_shapes, 1, &image, 1, &m), VMIG_OK);
    expect("taken", right.at == NULL && right.len == 0 && image.sectors == 0, 1);
    expect("lend", vmig_lend(&m, &right), VMIG_OK);
    expect("is not released", vmig_release(&m, &image, 1), VMIG_LENT);
    expect("give back", give_back_list(&m, &right, NULL, 0), VMIG_OK);
    expect("release", vmig_release(&m, &image, 1), VMIG_OK);
    free(large.at);
}

/* All that vmig_lend refuses. The machine that it is asked of has RAM in memory of this program, and is lent in the end. */
static void lending(vmig_machine *m)
{
    vmig_machine none = VMIG_NONE, own = VMIG_NONE;
    vmig_ram ram = VMIG_NO_RAM, full = {room, 4096};
    uint64_t pages = 77, sectors = 77;

    expect("no machine", vmig_lend(&none, &full), VMIG_NO_MACHINE);
    expect("one that arrives", arrive_any(&none), VMIG_OK);
    expect("is none", vmig_lend(&none, &full), VMIG_NO_MACHINE);
    expect("nor is it given back", give_back_list(&none, &ram, NULL, 0), VMIG_NO_MACHINE);
    vmig_free(&none);
    expect("make its own", make_new(1, over_shapes, 1, &own), VMIG_OK);
    expect("a vmig_ram that is in use", vmig_lend(&own, &full), VMIG_BAD_RAM);
    expect("RAM of the library", vmig_lend(&own, &ram), VMIG_NOT_YOURS);
    vmig_free(&own);
    expect("begin", vmig_send_begin(m), VMIG_OK);
    expect("stop", vmig_send_stop(m, &pages, &sectors), VMIG_OK);
    expect("stopped", vmig_lend(m, &full), VMIG_STOPPED);
    expect("abort", vmig_send_abort(m), VMIG_OK);
    expect("a vmig_ram that is in use", vmig_lend(m, &full), VMIG_BAD_RAM);
    expect("no RAM is out", ram.at == NULL && ram.len == 0 && full.at == room && full.len == 4096 && description_of(m).lent == 0, 1);
    expect("lend", vmig_lend(m, &ram), VMIG_OK);
    expect("RAM", ram.at == room && ram.len == sizeof room, 1);
    expect("it is out", description_of(m).lent, 1);
    expect("lent already", vmig_lend(m, &full), VMIG_LENT);
    expect("a call of a lent machine", vmig_send_begin(m), VMIG_LENT);
}

/* A bitmap of a part of RAM, and pages beside a list. */
static vmig_pages part_of(const uint64_t *words, uint32_t first, uint32_t span)
{
    vmig_pages pages = vmig_bitmap(words, 1);

    pages.first = first, pages.span = span;
    return pages;
}

static vmig_pages and_list(vmig_pages pages, const uint32_t *list, size_t count)
{
    pages.list = list, pages.count = count;
    return pages;
}

/* Pages that no call takes, each with this status. RAM has two pages. */
static void refused_pages(vmig_machine *m, vmig_ram *ram)
{
    static const uint32_t list[] = {1, 2};
    static const uint64_t words[] = {~(uint64_t)0};
    const struct { vmig_pages pages; vmig_status status; } cases[] = {
        {{.zero = 1}, VMIG_NOT_KNOWN}, {{.reserved = {1}}, VMIG_NOT_KNOWN}, {{.reserved = {0, 1}}, VMIG_NOT_KNOWN}, {{.all = 2}, VMIG_NOT_KNOWN},
        {vmig_list(list, 2), VMIG_OUT_OF_RAM}, {and_list((vmig_pages)VMIG_ALL_PAGES, list, 2), VMIG_OUT_OF_RAM},
        {part_of(words, 0, 65), VMIG_TOO_SMALL}, {part_of(words, 0, 3), VMIG_OUT_OF_RAM}, {part_of(words, 1, 2), VMIG_OUT_OF_RAM},
        {part_of(words, 3, 0), VMIG_OUT_OF_RAM}, {part_of(words, UINT32_MAX, UINT32_MAX), VMIG_TOO_SMALL}};
    uint8_t byte = 77;
    vmig_ram less = {room, 4096};

    for (size_t i = 0; i < sizeof cases / sizeof *cases; i++) {
        expect("pages that it does not take", vmig_give_back(m, ram, &cases[i].pages), cases[i].status);
        expect("of less RAM", vmig_give_back(m, &less, &cases[i].pages), cases[i].status == VMIG_NOT_KNOWN ? VMIG_NOT_KNOWN : VMIG_BAD_RAM);
        expect("still lent", vmig_ram_read(m, 0, &byte, 1), VMIG_LENT);
    }
    expect("and this program's", ram->at == room && ram->len == sizeof room && less.len == 4096 && byte == 77, 1);
}

/* All that vmig_give_back refuses of a machine that is lent, and all ways to name pages. */
static void giving_back(vmig_machine *m)
{
    static const uint32_t list[] = {0, 0};
    static const uint64_t words[] = {~(uint64_t)1, ~(uint64_t)0};
    const vmig_pages all = VMIG_ALL_PAGES;
    const vmig_pages done[] = {
        all, vmig_bitmap(words, 1), vmig_bitmap(words, 2), part_of(words, 0, 2), part_of(words, 1, 1), part_of(words, 2, 0),
        and_list(vmig_bitmap(words, 1), list, 2), and_list(all, list, 2)};
    vmig_machine none = VMIG_NONE;
    vmig_ram ram = {room, sizeof room}, less = {room, 4096};

    expect("no machine", give_back_list(&none, &less, list, 2), VMIG_NO_MACHINE);
    expect("a page less", give_back_list(m, &less, list, 2), VMIG_BAD_RAM);
    expect("a page less", give_back_marked(m, &less, words, 1), VMIG_BAD_RAM);
    expect("a page less", give_back_all(m, &less), VMIG_BAD_RAM);
    refused_pages(m, &ram);
    room[4096] = 5;
    for (size_t i = 0; i < sizeof done / sizeof *done; i++) {
        expect("pages", vmig_give_back(m, &ram, &done[i]), VMIG_OK);
        expect("taken", ram.at == NULL && ram.len == 0, 1);
        expect("the byte", get(m, 4096, 1), 5);
        expect("not lent", give_back_list(m, &less, list, 2), VMIG_NOT_LENT);
        expect("lend", vmig_lend(m, &ram), VMIG_OK);
    }
    expect("none", give_back_list(m, &ram, NULL, 0), VMIG_OK);
}

/* Which pages are named, shown by what is dirty while the machine is sent. RAM has two pages. */
static void names_pages(vmig_machine *m)
{
    static const uint32_t list[] = {1};
    static const uint64_t both[] = {3}, high[] = {2};
    const struct { vmig_pages pages; uint64_t dirty; } cases[] = {
        {VMIG_NO_PAGES, 0}, {vmig_list(list, 1), 1}, {vmig_bitmap(both, 1), 2}, {vmig_bitmap(high, 1), 1}, {part_of(both, 0, 1), 1},
        {part_of(high, 0, 1), 0}, {part_of(both, 1, 0), 1}, {and_list(vmig_bitmap(high, 1), list, 1), 1}, {VMIG_ALL_PAGES, 2}};
    vmig_ram ram = VMIG_NO_RAM;
    vmig_left left;

    for (size_t i = 0; i < sizeof cases / sizeof *cases; i++) {
        expect("begin", vmig_send_begin(m), VMIG_OK);
        expect("all", vmig_send_some(m, 100), VMIG_ROUND_DONE);
        expect("lend", vmig_lend(m, &ram), VMIG_OK);
        expect("pages", vmig_give_back(m, &ram, &cases[i].pages), VMIG_OK);
        expect("left", vmig_send_left(m, &left), VMIG_OK);
        expect("dirty pages", left.dirty_pages, cases[i].dirty);
        expect("abort", vmig_send_abort(m), VMIG_OK);
    }
}

/* A stream of one page and one sector does not arrive in two pages, nor on another disk. What the pages held is there. */
static void arriving_over(void)
{
    static uint8_t sectors[2 * 512];
    vmig_machine m = VMIG_NONE;
    vmig_ram two = {room, sizeof room}, one = {room, 4096};
    vmig_image image = {sectors, 1}, larger = {sectors, 2};
    vmig_arrival both = VMIG_ARRIVAL;

    memset(room, 0x5a, sizeof room);
    expect("arrive", arrive_over(&two, &image, 1, &m), VMIG_OK);
    expect("a page too few", vmig_feed(&m, stream, stream_len), VMIG_STREAM_MISMATCH);
    expect("refused for good", vmig_feed(&m, stream, stream_len), VMIG_STREAM_FAILED);
    expect("release", vmig_release(&m, &image, 1), VMIG_OK);
    expect("arrive", arrive_over(&one, &larger, 1, &m), VMIG_OK);
    expect("a disk too small", vmig_feed(&m, stream, stream_len), VMIG_STREAM_MISMATCH);
    vmig_free(&m);
    both.ram = (vmig_ram){room, sizeof room};
    expect("arrive", vmig_arrive(&both, &m), VMIG_OK);
    expect("another RAM, and too large a disk", vmig_feed(&m, stream, stream_len), VMIG_STREAM_TOO_LARGE);
    vmig_free(&m);
    for (size_t i = 0; i < sizeof room; i++) expect("no page was written", room[i], 0x5a);
    one = (vmig_ram){room, 4096};
    expect("arrive", arrive_over(&one, &image, 1, &m), VMIG_OK);
    expect("feed", vmig_feed(&m, stream, stream_len), VMIG_WHOLE);
    expect("and again", vmig_feed(&m, stream, 0), VMIG_WHOLE);
    expect("finish", vmig_finish(&m), VMIG_OK);
    expect("its page of zeros", room[0] + room[4095], 0);
    expect("and no more", room[4096], 0x5a);
    vmig_free(&m);
}

static void loans(void)
{
    vmig_machine m = VMIG_NONE;
    vmig_ram ram = {room, sizeof room};

    making_in_order();
    arriving_in_order();
    making_over();
    expect("make over", make_over(&ram, over_shapes, 1, NULL, 0, &m), VMIG_OK);
    lending(&m);
    giving_back(&m);
    names_pages(&m);
    vmig_free(&m);
    arriving_over();
}

/* Under a sanitizer the address space is no measure of memory, nor is it under valgrind, which this program is not for. */
#if defined(__has_feature)
#if __has_feature(address_sanitizer) || __has_feature(thread_sanitizer)
#define IS_SANITIZED
#endif
#endif
#if defined(__SANITIZE_ADDRESS__) || defined(__SANITIZE_THREAD__) || defined(IS_SANITIZED)
static void memory(void) {}
#else
/* Takes all memory that is left, as a list, and gives it back. */
static void *take_all(void)
{
    void *all = NULL, *block;

    for (size_t size = 1 << 20; size >= sizeof all; size /= 2)
        while ((block = malloc(size)) != NULL) all = memcpy(block, &all, sizeof all);
    return all;
}

static void give_all(void *all)
{
    for (void *next; all != NULL; all = next) {
        memcpy(&next, all, sizeof next);
        free(all);
    }
}

/* The calls of RAM in memory of this program while there is no memory, and again when there is. */
static void loans_without_memory(void)
{
    static const uint64_t words[] = {3};
    vmig_machine m = VMIG_NONE, other = VMIG_NONE;
    vmig_ram ram = {room, 4096}, rest = {room + 4096, 4096};
    void *all;

    expect("make over", make_over(&ram, over_shapes, 1, NULL, 0, &m), VMIG_OK);
    all = take_all();
    expect("another", make_over(&rest, over_shapes, 1, NULL, 0, &other), VMIG_NO_MEMORY);
    expect("one that arrives", arrive_over(&rest, NULL, 0, &other), VMIG_NO_MEMORY);
    expect("lend takes none", vmig_lend(&m, &ram), VMIG_OK);
    expect("a bitmap", give_back_marked(&m, &ram, words, 1), VMIG_NO_MEMORY);
    expect("all pages", give_back_all(&m, &ram), VMIG_NO_MEMORY);
    expect("nothing changed", rest.at == room + 4096 && rest.len == 4096 && ram.at == room && other.at == NULL, 1);
    expect("a list takes none", give_back_list(&m, &ram, &(uint32_t){0}, 1), VMIG_OK);
    give_all(all);
    expect("lend", vmig_lend(&m, &ram), VMIG_OK);
    expect("all pages", give_back_all(&m, &ram), VMIG_OK);
    expect("one that arrives", arrive_over(&rest, NULL, 0, &other), VMIG_OK);
    vmig_free(&other);
    vmig_free(&m);
}

static void memory(void)
{
    static const vmig_shape shapes[] = {{.kind = VMIG_ENTROPY}};
    static const uint8_t head[] = {'V', 'M', 'I', 'G', 1, 0, 0, 0, 0, 64, 0, 0, 1, 0, 0, 0, 4};
    struct rlimit limit = {.rlim_cur = 48u << 20, .rlim_max = RLIM_INFINITY};
    vmig_machine small = VMIG_NONE, large = VMIG_NONE, arriving = VMIG_NONE;
    vmig_status status = VMIG_OK;

    expect("make", make_new(2048, shapes, 1, &small), VMIG_OK);
    expect("limit", (uint64_t)setrlimit(RLIMIT_AS, &limit), 0);
    loans_without_memory();
    expect("64 MiB", make_new(16384, shapes, 1, &large), VMIG_NO_MEMORY);
    expect("arrive", arrive_any(&arriving), VMIG_OK);
    expect("64 MiB that arrive", vmig_feed(&arriving, head, sizeof head), VMIG_STREAM_NO_MEMORY);
    expect("refused for good", vmig_feed(&arriving, head, 0), VMIG_STREAM_FAILED);
    expect("begin", vmig_send_begin(&small), VMIG_OK);
    for (uint32_t round = 1; round < 64 && status == VMIG_OK; round++) {
        for (uint32_t page = 0; page < 2048; page++) put(&small, 4096u * page, round, 4);
        status = vmig_send_some(&small, 2048);
        if (status == VMIG_ROUND_DONE) status = vmig_send_round(&small);
    }
    expect("nobody takes what waits", status, VMIG_SEND_FAILED);
    expect("its guest continues", vmig_ram_write(&small, 0, head, 4), VMIG_OK);
    expect("abort", vmig_send_abort(&small), VMIG_OK);
    limit.rlim_cur = RLIM_INFINITY;
    expect("no limit", (uint64_t)setrlimit(RLIMIT_AS, &limit), 0);
    expect("the call made again", make_new(16384, shapes, 1, &large), VMIG_OK);
    vmig_free(&small);
    vmig_free(&large);
    vmig_free(&arriving);
}
#endif

int main(void)
{
    streams();
    network();
    asked_for_more();
    shapes_of();
    pages_and_ram();
    contents_over_ram();
    too_large();
    no_stream_within();
    names();
    loans();
    memory();
    return ended("statuses");
}
