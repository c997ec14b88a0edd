/* How large a machine may be. Without VMIG_LARGE it is refused where it always was, by whoever makes it and in what arrives. With it a host
 * gets what it asks for, and what arrives is as large as the host names, or hands in memory for, and no larger. What is refused is refused
 * before memory is taken for it, which a malloc of this program counts. */
#define _DEFAULT_SOURCE
#include <stdlib.h>
#include "driver.h"
#include "mapping.h"

/* The most without VMIG_LARGE, and what headers take: their front, an entropy device, a disk. */
enum { USUAL_PAGES = 16384, USUAL_SECTORS = 2097152, FRONT = 16, ENTROPY = 1, DISK = 30, HEADER_MAX = FRONT + 16 * DISK };

/* The C library's own allocator, under the names that it keeps for a program with its own malloc. */
void *__libc_malloc(size_t size);
void *__libc_calloc(size_t count, size_t size);
void *__libc_realloc(void *at, size_t size);
void __libc_free(void *at);

static size_t largest;          /* the most bytes that were asked for at once */

static size_t counted(size_t size)
{
    if (size > largest) largest = size;
    return size;
}

void *malloc(size_t size) { return __libc_malloc(counted(size)); }
void *calloc(size_t count, size_t size) { return __libc_calloc(1, counted(count * size)); }
void *realloc(void *old, size_t size) { return __libc_realloc(old, counted(size)); }
void free(void *at) { __libc_free(at); }

/* A header of a machine with so many pages, and disks of so many sectors, or an entropy device where there is none. */
struct header {
    uint8_t bytes[HEADER_MAX];
    size_t len;
};

static struct header header_of(uint32_t pages, uint32_t disks, uint64_t sectors)
{
    struct header h = {.bytes = {'V', 'M', 'I', 'G', 2}, .len = FRONT};

    for (int i = 0; i < 4; i++) h.bytes[8 + i] = (uint8_t)(pages >> (8 * i));
    h.bytes[12] = disks > 0 ? (uint8_t)disks : 1;
    for (uint32_t k = 0; k < disks; k++, h.len += DISK) {
        h.bytes[h.len] = VMIG_BLOCK;
        for (int i = 0; i < 8; i++) h.bytes[h.len + 1 + i] = (uint8_t)(sectors >> (8 * i));
    }
    if (disks == 0) h.bytes[h.len++] = VMIG_ENTROPY;
    return h;
}

static vmig_arrival allowing(uint32_t most_pages, uint64_t most_sectors, uint32_t flags)
{
    vmig_arrival arrival = VMIG_ARRIVAL;

    arrival.most_pages = most_pages, arrival.most_sectors = most_sectors, arrival.flags = flags;
    return arrival;
}

/* An arrival is fed a header, and it is refused at this byte: in two pieces, and in one. No memory is taken for the machine. */
static void is_refused(vmig_arrival arrival, struct header h, size_t at, vmig_status wanted)
{
    vmig_machine m = VMIG_NONE;

    expect("arrive", vmig_arrive(&arrival, &m), VMIG_OK);
    largest = 0;
    expect("what comes before", vmig_feed(&m, h.bytes, at - 1), VMIG_OK);
    expect("the byte that shows it", vmig_feed(&m, h.bytes + at - 1, 1), wanted);
    expect("how many came before", description_of(&m).fault_at, at - 1);
    expect("for good", vmig_feed(&m, h.bytes, h.len), VMIG_STREAM_FAILED);
    vmig_free(&m);
    expect("arrive", vmig_arrive(&arrival, &m), VMIG_OK);
    expect("in one piece", vmig_feed(&m, h.bytes, h.len), wanted);
    expect("nothing was taken but the receiver's buffer", largest < 132 << 10, 1);
    vmig_free(&m);
}

/* The whole header of a machine that is allowed; its memory is taken, and is freed with it. */
static void is_taken(vmig_arrival arrival, struct header h, uint32_t pages)
{
    vmig_machine m = VMIG_NONE;

    expect("arrive", vmig_arrive(&arrival, &m), VMIG_OK);
    expect("its header, but for a byte", vmig_feed(&m, h.bytes, h.len - 1), VMIG_OK);
    expect("nothing is known", description_of(&m).pages, 0);
    expect("its last byte", vmig_feed(&m, h.bytes + h.len - 1, 1), VMIG_OK);
    expect("its pages", description_of(&m).pages, pages);
    expect("its flags", description_of(&m).flags, arrival.flags);
    vmig_free(&m);
}

/* What a stream may announce without VMIG_LARGE, whatever the host would allow. */
static void usual_headers(void)
{
    vmig_arrival any = allowing(UINT32_MAX, UINT64_MAX, 0), logging = allowing(UINT32_MAX, UINT64_MAX, VMIG_LOG);
    struct header h = header_of(2, 2, USUAL_SECTORS + 1);

    is_taken(any, header_of(USUAL_PAGES, 0, 0), USUAL_PAGES);
    is_refused(any, header_of(USUAL_PAGES + 1, 0, 0), FRONT, VMIG_STREAM_BAD_SHAPE);
    is_refused(logging, header_of(USUAL_PAGES + 1, 0, 0), FRONT, VMIG_STREAM_BAD_SHAPE);
    is_refused(any, header_of(UINT32_MAX, 16, USUAL_SECTORS), FRONT, VMIG_STREAM_BAD_SHAPE);
    is_refused(any, h, FRONT + DISK, VMIG_STREAM_BAD_SHAPE);
    h.bytes[FRONT + 3] = 0x1f;
    is_refused(any, h, FRONT + 2 * DISK, VMIG_STREAM_BAD_SHAPE);
}

/* With it up to what the host names, and no more. */
static void large_headers(void)
{
    enum { MORE = USUAL_PAGES + 1 };
    vmig_arrival large = allowing(UINT32_MAX, UINT64_MAX, VMIG_LARGE);
    struct header h = header_of(2, 2, UINT64_C(1) << 32);

    is_taken(allowing(MORE, 0, VMIG_LARGE), header_of(MORE, 0, 0), MORE);
    is_refused(allowing(MORE - 1, 0, VMIG_LARGE), header_of(MORE, 0, 0), FRONT + ENTROPY, VMIG_STREAM_TOO_LARGE);
    is_refused(allowing(0, 0, VMIG_LARGE), header_of(1, 0, 0), FRONT + ENTROPY, VMIG_STREAM_TOO_LARGE);
    is_refused(allowing(UINT32_MAX - 1, 0, VMIG_LARGE), header_of(UINT32_MAX, 0, 0), FRONT + ENTROPY, VMIG_STREAM_TOO_LARGE);
    is_refused(large, header_of(0, 0, 0), FRONT, VMIG_STREAM_BAD_SHAPE);
    is_refused(allowing(2, USUAL_SECTORS, VMIG_LARGE), header_of(2, 1, USUAL_SECTORS + 1), FRONT + DISK, VMIG_STREAM_TOO_LARGE);
    is_refused(allowing(2, 2 * (uint64_t)UINT32_MAX - 1, VMIG_LARGE), header_of(2, 2, UINT32_MAX), FRONT + 2 * DISK, VMIG_STREAM_TOO_LARGE);
    is_refused(large, h, FRONT + DISK, VMIG_STREAM_BAD_SHAPE);
    memset(h.bytes + FRONT + 1, 0xff, 4);
    h.bytes[FRONT + 5] = 0;
    is_refused(large, h, FRONT + 2 * DISK, VMIG_STREAM_BAD_SHAPE);
}

/* What is announced is told up to the greatest, and the flag has no part in it. */
static void announcements(void)
{
    struct header h = header_of(UINT32_MAX, 16, UINT32_MAX);
    vmig_description found = {.pages = 77};

    for (size_t len = 0; len < h.len; len++) expect("a cut header", vmig_stream_describe(h.bytes, len, &found), VMIG_MORE);
    expect("nothing was told", found.pages, 77);
    expect("the largest", vmig_stream_describe(h.bytes, h.len, &found), VMIG_OK);
    expect("its pages", found.pages, UINT32_MAX);
    for (int dev = 0; dev < 16; dev++) expect("its sectors", found.shapes[dev].sectors, UINT32_MAX);
    h = header_of(1, 1, UINT64_C(1) << 32);
    expect("a sector more", vmig_stream_describe(h.bytes, h.len, &found), VMIG_STREAM_BAD_SHAPE);
    expect("but for a byte", vmig_stream_describe(h.bytes, h.len - 1, &found), VMIG_MORE);
    h = header_of(0, 0, 0);
    expect("no page", vmig_stream_describe(h.bytes, FRONT, &found), VMIG_STREAM_BAD_SHAPE);
}

static vmig_status make_one(uint32_t pages, uint64_t sectors, uint32_t flags)
{
    vmig_shape shape = {.kind = sectors > 0 ? VMIG_BLOCK : VMIG_ENTROPY, .sectors = sectors};
    vmig_setup setup = VMIG_SETUP;
    vmig_machine m = VMIG_NONE;
    vmig_status status;

    setup.pages = pages, setup.shapes = &shape, setup.count = 1, setup.flags = flags;
    status = vmig_make(&setup, &m);
    if (status == VMIG_OK) expect("its flags", description_of(&m).flags, flags);
    vmig_free(&m);
    return status;
}

/* A machine that is made, with RAM and disks of the library. */
static void makes(void)
{
    expect("the most pages", make_one(USUAL_PAGES, 0, 0), VMIG_OK);
    expect("with VMIG_LARGE", make_one(USUAL_PAGES + 1, 0, VMIG_LARGE), VMIG_OK);
    expect("logged", make_one(USUAL_PAGES + 1, 0, VMIG_LARGE | VMIG_LOG), VMIG_OK);
    largest = 0;
    expect("a page more", make_one(USUAL_PAGES + 1, 0, 0), VMIG_BAD_RAM);
    expect("logged", make_one(USUAL_PAGES + 1, 0, VMIG_LOG), VMIG_BAD_RAM);
    expect("a sector more", make_one(1, USUAL_SECTORS + 1, 0), VMIG_BAD_SHAPE);
    expect("pages come before", make_one(USUAL_PAGES + 1, USUAL_SECTORS + 1, 0), VMIG_BAD_RAM);
    expect("no page", make_one(0, 0, VMIG_LARGE), VMIG_BAD_RAM);
    expect("a sector more than the greatest", make_one(1, UINT64_C(1) << 32, VMIG_LARGE), VMIG_BAD_SHAPE);
    expect("many more", make_one(1, UINT64_MAX, VMIG_LARGE), VMIG_BAD_SHAPE);
    expect("flags that are not known", make_one(1, 0, 4), VMIG_NOT_KNOWN);
    expect("beside those that are", make_one(1, 0, 8 | VMIG_LARGE | VMIG_LOG), VMIG_NOT_KNOWN);
    expect("nothing was taken", largest < 132 << 10, 1);
}

/* RAM of the host's is its own limit, and has to be whole pages. */
static void ram_of_the_host(void)
{
    enum { MORE = USUAL_PAGES + 1 };
    size_t len = (size_t)MORE * PAGE;
    uint8_t *room = map_unreserved(len);
    static const struct {
        size_t less;
        uint32_t flags;
        vmig_status arrives, wanted;
    } cases[] = {{0, 0, VMIG_BAD_RAM, VMIG_OK}, {1, VMIG_LARGE, VMIG_BAD_RAM, VMIG_OK}, {PAGE, 0, VMIG_OK, VMIG_STREAM_BAD_SHAPE},
                 {PAGE, VMIG_LARGE, VMIG_OK, VMIG_STREAM_MISMATCH}, {0, VMIG_LARGE, VMIG_OK, VMIG_OK}};

    for (size_t i = 0; room != NULL && i < sizeof cases / sizeof *cases; i++) {
        struct header h = header_of(MORE, 0, 0);
        vmig_arrival arrival = allowing(0, 0, cases[i].flags);
        vmig_machine m = VMIG_NONE;
        arrival.ram = (vmig_ram){room, len - cases[i].less};
        expect("arrive", vmig_arrive(&arrival, &m), cases[i].arrives);
        if (cases[i].arrives == VMIG_OK) expect("its header", vmig_feed(&m, h.bytes, h.len), cases[i].wanted);
        vmig_free(&m);
    }
    if (room == NULL) printf("limits: RAM of the host's is not tried: the system maps none\n");
    unmap_unreserved(room, len);
}

/* An arrival refuses flags that nobody knows, as a machine that is made does. */
static void flags(void)
{
    vmig_machine m = VMIG_NONE;
    vmig_arrival arrival = allowing(1, 0, 8 | VMIG_LARGE);

    expect("flags that are not known", vmig_arrive(&arrival, &m), VMIG_NOT_KNOWN);
    arrival = allowing(1, 0, VMIG_LARGE | VMIG_LOG);
    expect("those that are", vmig_arrive(&arrival, &m), VMIG_OK);
    expect("they are told", description_of(&m).flags, VMIG_LARGE | VMIG_LOG);
    vmig_free(&m);
}

int main(void)
{
    usual_headers();
    large_headers();
    announcements();
    makes();
    ram_of_the_host();
    flags();
    return ended("limits");
}
