/* A host that accepts machines from a network says the most that it expects, or looks at the first bytes of a stream itself, and what it
 * does not expect is refused before memory is taken for it. What arrived then says what it is. What is taken is counted by a malloc of
 * this program, before the C library's. */
#include <stdlib.h>
#include <string.h>
#include "driver.h"

enum { PAGES = 4, SECTORS = 2, MOST_PAGES = (4 << 20) / 4096, MOST_SECTORS = (1 << 20) / 512 };

static const vmig_shape EXPECTED[] = {
    {.kind = VMIG_NETWORK, .mac = {2, 0, 0, 0, 0, 1}},
    {.kind = VMIG_BLOCK, .read_only = 1, .sectors = SECTORS, .id = "a disk"},
    {.kind = VMIG_CONSOLE},
    {.kind = VMIG_ENTROPY},
};
enum { COUNT = sizeof EXPECTED / sizeof EXPECTED[0] };

/* The C library's own allocator, under the names that it keeps for a program with its own malloc. */
void *__libc_malloc(size_t size);
void *__libc_calloc(size_t count, size_t size);
void *__libc_realloc(void *at, size_t size);
void __libc_free(void *at);

static size_t taken, largest;   /* all bytes that were asked for, and the most at once */

static void count_in(size_t size)
{
    taken += size;
    if (size > largest) largest = size;
}

void *malloc(size_t size)
{
    count_in(size);
    return __libc_malloc(size);
}

void *calloc(size_t count, size_t size)
{
    count_in(count * size);
    return __libc_calloc(count, size);
}

void *realloc(void *old, size_t size)
{
    count_in(size);
    return __libc_realloc(old, size);
}

void free(void *at)
{
    __libc_free(at);
}

static void expect_shape(const char *what, const vmig_shape *got, const vmig_shape *wanted)
{
    expect(what, got->kind, wanted->kind);
    expect(what, got->read_only, wanted->read_only);
    expect(what, got->sectors, wanted->sectors);
    expect(what, (uint64_t)memcmp(got->mac, wanted->mac, sizeof got->mac), 0);
    expect(what, (uint64_t)memcmp(got->id, wanted->id, sizeof got->id), 0);
}

/* Whether the machine that announces itself is the one that this host expects. */
static int is_expected(const uint8_t *bytes, size_t len)
{
    vmig_description announced;
    if (vmig_stream_describe(bytes, len, &announced) != VMIG_OK || announced.pages != PAGES || announced.count != COUNT) return 0;
    for (uint32_t dev = 0; dev < COUNT; dev++)
        if (memcmp(&announced.shapes[dev], &EXPECTED[dev], sizeof EXPECTED[dev]) != 0) return 0;
    return 1;
}

/* Fewer bytes than the header has announce nothing yet. */
static void ask_for_more(const uint8_t *stream, size_t header_len)
{
    vmig_description announced = {.state = 77, .pages = 77, .count = 77, .shapes = {{.kind = 77}}};

    for (size_t len = 0; len < header_len; len++) expect("a cut header", vmig_stream_describe(stream, len, &announced), VMIG_MORE);
    expect("its pages", announced.pages, 77);
    expect("its devices", announced.count, 77);
    expect("its shape", announced.shapes[0].kind, 77);
    expect("a whole one", vmig_stream_describe(stream, header_len, &announced), VMIG_OK);
    expect("its base is not told", announced.base, 0);
    expect("no device more", announced.shapes[COUNT].kind, 0);
}

/* What this host expects: at most 4 MiB of RAM, and 1 MiB of all disks together. */
static vmig_arrival expected_at_most(void)
{
    vmig_arrival arrival = VMIG_ARRIVAL;

    arrival.most_pages = MOST_PAGES;
    arrival.most_sectors = MOST_SECTORS;
    return arrival;
}

/* What this host expects: exactly these devices. */
static vmig_arrival expected_devices(const vmig_shape *shapes)
{
    vmig_arrival arrival = expected_at_most();

    arrival.shapes = shapes;
    arrival.count = COUNT;
    return arrival;
}

static int is_told;     /* whether the host tells the digest of what arrives */

static vmig_status feed(vmig_machine *m, const uint8_t *bytes, size_t len)
{
    size_t used;

    return is_told ? vmig_feed_some(m, bytes, len, &used) : vmig_feed(m, bytes, len);
}

/* It is fed the header of a machine that it did not expect, in pieces of this length, and refuses it in each kind of memory. */
static void is_refused(vmig_status wanted, const uint8_t *header, size_t len, size_t piece, uint8_t *disk, uint8_t *room)
{
    vmig_machine m = VMIG_NONE;
    vmig_image image = {disk, disk != NULL ? MOST_SECTORS : 0};
    vmig_arrival arrival = expected_at_most();
    vmig_status status = VMIG_OK;
    size_t at = 0;

    arrival.images = &image, arrival.count_images = disk != NULL;
    arrival.ram = (vmig_ram){room, room != NULL ? 4 << 20 : 0};
    if (room != NULL) arrival.most_pages = 0;
    if (is_told) arrival.flags = VMIG_TOLD;
    expect("arrive", vmig_arrive(&arrival, &m), VMIG_OK);
    taken = largest = 0;
    for (; status == VMIG_OK && at < len; at += piece) status = feed(&m, header + at, len - at < piece ? len - at : piece);
    expect("another one", status, wanted);
    expect("is refused at the end of its header", at >= len, 1);
    if (piece >= len && wanted == VMIG_STREAM_TOO_LARGE && !is_told) expect("with little memory", taken < 4096, 1);
    else expect("with the receiver's buffer at most", largest < 132 << 10, 1);
    expect("for good", feed(&m, header, len), VMIG_STREAM_FAILED);
    if (disk != NULL) expect("the image", vmig_release(&m, &image, 1), VMIG_OK);
    vmig_free(&m);
}

/* A peer asks for 64 MiB and sixteen disks of 1 GiB: the host sees it in the header, and nothing was taken. */
static void refuse_a_large_one(void)
{
    static const uint8_t front[] = {'V', 'M', 'I', 'G', 2, 0, 0, 0, 0, 0x40, 0, 0, 16, 0, 0, 0};
    static const uint8_t disk[30] = {2, 0, 0, 0x20, 0, 0, 0, 0, 0};
    static uint8_t sectors[1 << 20], room[4 << 20];
    uint8_t header[sizeof front + 16 * sizeof disk];
    vmig_description announced;

    memcpy(header, front, sizeof front);
    for (size_t k = 0; k < 16; k++) memcpy(header + sizeof front + k * sizeof disk, disk, sizeof disk);
    expect("a large one", vmig_stream_describe(header, sizeof header, &announced), VMIG_OK);
    expect("its pages", announced.pages, 16384);
    expect("its devices", announced.count, 16);
    expect("the sectors of its last disk", announced.shapes[15].sectors, 2097152);
    expect("expected", (uint64_t)is_expected(header, sizeof header), 0);
    for (size_t piece = 1; piece <= 1000; piece += 37) {
        is_refused(VMIG_STREAM_TOO_LARGE, header, sizeof header, piece, NULL, NULL);
        is_refused(VMIG_STREAM_TOO_LARGE, header, sizeof header, piece, sectors, NULL);
        is_refused(VMIG_STREAM_TOO_LARGE, header, sizeof header, piece, NULL, room);
        is_refused(VMIG_STREAM_MISMATCH, header, sizeof header, piece, sectors, room);
    }
    header[8] = 1;
    expect("a page more", vmig_stream_describe(header, sizeof header, &announced), VMIG_OK);
    expect("its pages", announced.pages, 16385);
    is_refused(VMIG_STREAM_BAD_SHAPE, header, 16, 16, NULL, NULL);
    header[8] = header[9] = 0;
    expect("no page", vmig_stream_describe(header, sizeof header, &announced), VMIG_STREAM_BAD_SHAPE);
    header[4] = 4;
    expect("of another version", vmig_stream_describe(header, sizeof header, &announced), VMIG_STREAM_BAD_VERSION);
    header[0] = 'v';
    expect("of another kind", vmig_stream_describe(header, sizeof header, &announced), VMIG_STREAM_BAD_MAGIC);
}

/* One of the devices that are expected is another one. The header shows it, and nothing is taken. */
static void refuse_another(const uint8_t *stream, size_t header_len)
{
    vmig_shape other[COUNT];

    for (int k = 0; k < 5; k++) {
        vmig_machine m = VMIG_NONE;
        vmig_arrival arrival = expected_devices(other);
        memcpy(other, EXPECTED, sizeof other);
        if (k == 0) other[0].mac[5] = 2;
        if (k == 1) other[1].sectors--;
        if (k == 2) other[1].id[0] = 'A';
        if (k == 3) other[1].read_only = 0;
        if (k == 4) arrival.count--;
        if (is_told) arrival.flags = VMIG_TOLD;
        expect("arrive", vmig_arrive(&arrival, &m), VMIG_OK);
        expect("its header, but for a byte", feed(&m, stream, header_len - 1), VMIG_OK);
        taken = largest = 0;
        expect("another machine", feed(&m, stream + header_len - 1, 1), VMIG_STREAM_MISMATCH);
        expect("for which nothing was taken but the receiver's buffer", largest < 132 << 10, 1);
        expect("for good", feed(&m, stream, header_len), VMIG_STREAM_FAILED);
        vmig_free(&m);
    }
}

/* All of these, whoever digests. */
static void refuse_each(const uint8_t *stream, size_t header_len)
{
    for (is_told = 0; is_told < 2; is_told++) {
        refuse_a_large_one();
        refuse_another(stream, header_len);
    }
}

/* What a machine says of itself. */
static void says_of_itself(const char *what, const vmig_machine *m, uint32_t state)
{
    vmig_description found = description_of(m);

    expect(what, found.state, state);
    expect(what, found.pages, PAGES);
    expect(what, found.count, COUNT);
    for (uint32_t dev = 0; dev < COUNT; dev++) expect_shape(what, &found.shapes[dev], &EXPECTED[dev]);
    expect(what, found.shapes[COUNT].kind, 0);
    expect(what, found.message, VMIG_SENT_MAX);
    expect(what, found.lost + found.lent + found.fault + found.images, 0);
}

int main(void)
{
    enum { HEADER = 16 + 7 + 30 + 1 + 1 };
    static const vmig_description none;
    vmig_machine source = VMIG_NONE, target = VMIG_NONE;
    vmig_arrival expected = expected_devices(EXPECTED);
    vmig_description found = description_of(&source);
    size_t len = 0, written = 0;

    expect("version", vmig_version(), VMIG_VERSION_NUMBER);
    expect("no machine", (uint64_t)memcmp(&found, &none, sizeof none), 0);
    expect("make", make_new(PAGES, EXPECTED, COUNT, &source), VMIG_OK);
    says_of_itself("made", &source, VMIG_IS_IDLE);
    expect("length", vmig_save(&source, NULL, 0, &len), VMIG_MORE);
    uint8_t *stream = malloc(len);
    if (stream == NULL) return 2;
    expect("save", vmig_save(&source, stream, len, &written), VMIG_OK);
    ask_for_more(stream, HEADER);
    expect("expected", (uint64_t)is_expected(stream, len), 1);
    refuse_each(stream, HEADER);

    expect("arrive", vmig_arrive(&expected, &target), VMIG_OK);
    expect("a first piece", vmig_feed(&target, stream, HEADER - 1), VMIG_OK);
    expect("nothing is known yet", description_of(&target).pages + description_of(&target).count, 0);
    expect("the rest of the header", vmig_feed(&target, stream + HEADER - 1, 1), VMIG_OK);
    expect("it says what comes", description_of(&target).pages, PAGES);
    expect("and how many devices", description_of(&target).count, COUNT);
    expect("it arrives", description_of(&target).state, VMIG_IS_ARRIVING);
    expect("the rest", vmig_feed(&target, stream + HEADER, len - HEADER), VMIG_WHOLE);
    expect("finish", vmig_finish(&target), VMIG_OK);
    says_of_itself("arrived", &target, VMIG_IS_IDLE);
    expect("begin", vmig_send_begin(&target), VMIG_OK);
    says_of_itself("being sent", &target, VMIG_IS_SENDING);

    vmig_free(&source);
    vmig_free(&target);
    free(stream);
    return ended("look_first");
}
