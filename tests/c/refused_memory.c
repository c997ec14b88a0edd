/* Each request for memory is refused once, at each place: in a script that makes every call of the library, the
 * n-th request gets null, for every n. What is refused says so, nothing is lost by it, and the host continues as
 * the header says: it makes the call again; or ends a migration that failed, and begins another; or frees what
 * arrived in part, and feeds the stream anew. All that was given is freed in the end. The requests are counted
 * by a malloc of its own, before the C library's. */
#include <stdlib.h>
#include "driver.h"

enum { PAGES = 16, PAGE = 4096, SECTORS = 8, DISK = SECTORS * 512, STREAM_MAX = 1 << 20, LONG_CHAIN = 6 };

/* The C library's own allocator, under the names that it keeps for a program with its own malloc. */
void *__libc_malloc(size_t size);
void *__libc_calloc(size_t count, size_t size);
void *__libc_realloc(void *at, size_t size);
void __libc_free(void *at);

static int counts;              /* whether a call of the library is being made */
static uint64_t requests;       /* how many it has made so far */
static uint64_t refused_one;    /* which of them is refused, counted from 1 */
static int64_t given;           /* how many are not freed yet */

static int is_refused(void)
{
    return counts && ++requests == refused_one;
}

void *malloc(size_t size)
{
    void *at = is_refused() ? NULL : __libc_malloc(size);
    given += counts && at != NULL;
    return at;
}

void *calloc(size_t count, size_t size)
{
    void *at = is_refused() ? NULL : __libc_calloc(count, size);
    given += counts && at != NULL;
    return at;
}

void *realloc(void *old, size_t size)
{
    void *at = is_refused() ? NULL : __libc_realloc(old, size);
    given += counts && at != NULL && old == NULL;
    return at;
}

void free(void *at)
{
    given -= counts && at != NULL;
    __libc_free(at);
}

static uint32_t answer;     /* of the last call */
static int told;            /* how many calls said that memory was refused */
static uint32_t flags;      /* of a migration, and of what arrives */

static uint32_t ended_call(void)
{
    counts = 0;
    return answer;
}

/* A call of the library, and what it answers. */
#define CALL(call) (counts = 1, answer = (call), ended_call())

/* A call that is made again where it was refused memory: then it has to succeed. */
#define CALL_AGAIN(what, call, wanted)                                                           \
    do {                                                                                         \
        if (CALL(call) == VMIG_NO_MEMORY) { told++; CALL(call); }                                \
        expect(what, answer, wanted);                                                            \
    } while (0)

static const vmig_shape shapes[] = {
    {.kind = VMIG_BLOCK, .sectors = SECTORS},
    {.kind = VMIG_CONSOLE},
    {.kind = VMIG_NETWORK, .mac = {2, 0, 0, 0, 0, 1}},
    {.kind = VMIG_ENTROPY},
};
enum { DEVICES = 4, CONSOLE = 1, ENTROPY = 3 };

static uint8_t sent[VMIG_SENT_MAX];

static void write_dev(vmig_machine *m, uint8_t dev, uint32_t off, uint32_t value)
{
    uint32_t byte;
    expect("register", CALL(vmig_reg_write(m, dev, off, 4, value, &byte)), VMIG_OK);
}

/* The driver makes a queue of a device ready, with its rings from `base` on. */
static void ready(vmig_machine *m, uint8_t dev, uint32_t queue, uint32_t base)
{
    static const uint32_t begin[][2] = {{0x070, 0}, {0x070, 1}, {0x070, 3}, {0x024, 1}, {0x020, 1}, {0x070, 0xb}};

    for (size_t i = 0; i < sizeof begin / sizeof *begin; i++) write_dev(m, dev, begin[i][0], begin[i][1]);
    write_dev(m, dev, 0x030, queue);
    write_dev(m, dev, 0x038, 8);
    write_dev(m, dev, 0x080, base);
    write_dev(m, dev, 0x090, base + 0x400);
    write_dev(m, dev, 0x0a0, base + 0x800);
    write_dev(m, dev, 0x044, 1);
    write_dev(m, dev, 0x070, 0xf);
}

static void put_dev(vmig_machine *m, uint64_t addr, uint64_t value, size_t width)
{
    uint8_t bytes[8];

    for (size_t i = 0; i < width; i++) bytes[i] = (uint8_t)(value >> (8 * i));
    expect("write", CALL(vmig_ram_write(m, addr, bytes, width)), VMIG_OK);
}

/* A chain of `count` descriptors of one byte each. */
static void chain(vmig_machine *m, uint32_t base, uint32_t count, uint32_t flags)
{
    for (uint32_t i = 0; i < count; i++) {
        put_dev(m, base + 16 * i, 0x8000 + 16 * i, 8);
        put_dev(m, base + 16 * i + 8, 1, 4);
        put_dev(m, base + 16 * i + 12, flags | (i + 1 < count ? HAS_NEXT : 0), 2);
        put_dev(m, base + 16 * i + 14, i + 1, 2);
    }
    put_dev(m, base + 0x404, 0, 2);
    put_dev(m, base + 0x402, 1, 2);
}

/* A guest whose devices need memory for a step: an entropy device that fills a chain of many descriptors, and a
 * console that sends the text of one. */
static void run_guest(vmig_machine *m)
{
    uint64_t before;
    uint32_t len;
    size_t kept;
    uint8_t dev = 0, pick = 0;

    ready(m, ENTROPY, 0, 0x1000);
    chain(m, 0x1000, LONG_CHAIN, WRITABLE);
    expect("input", CALL(vmig_input(m, ENTROPY, (const uint8_t *)"entropy", 7, &kept)), VMIG_OK);
    write_dev(m, ENTROPY, 0x050, 0);
    CALL_AGAIN("a long chain", vmig_step(m, ENTROPY, 0, sent, sizeof sent, &len), VMIG_COMPLETED);
    expect("its length", len, LONG_CHAIN);
    ready(m, CONSOLE, 1, 0x2000);
    chain(m, 0x2000, LONG_CHAIN, 0);
    write_dev(m, CONSOLE, 0x050, 1);
    CALL_AGAIN("a message", vmig_step(m, CONSOLE, 1, sent, sizeof sent, &len), VMIG_SENT);
    expect("its length", len, LONG_CHAIN);
    expect("the guest's text", (uint64_t)memcmp(sent, "e", 1), 0);
    put_dev(m, 0x2000 + 12, 0, 2);
    put_dev(m, 0x2406, 0, 2);
    put_dev(m, 0x2402, 2, 2);
    write_dev(m, CONSOLE, 0x050, 1);
    before = requests;
    expect("a message that is no longer", CALL(vmig_step(m, CONSOLE, 1, sent, sizeof sent, &len)), VMIG_SENT);
    expect("takes no memory", requests, before);
    while (CALL(vmig_next(m, &dev, &pick)) == VMIG_WORK) {
        expect("a queue that is empty", CALL(vmig_step(m, dev, pick, sent, sizeof sent, &len)), VMIG_IDLE);
    }
}

/* The calls that take no memory make no request for it. */
static void look(vmig_machine *m, int moves)
{
    static uint8_t ram[PAGES * PAGE], sector[512];
    static uint64_t seen[PAGES];
    static const uint32_t pages[] = {3, 5};
    uint64_t before = requests;
    uint32_t value, count;
    uint8_t dev = 0, pick = 0;
    size_t len;
    vmig_left left;
    vmig_description found;

    for (size_t i = 0; i < PAGES; i++) seen[i] = VMIG_UNSEEN;
    expect("a register", CALL(vmig_reg_read(m, ENTROPY, 0, 4, &value)), VMIG_OK);
    expect("its value", value, 0x74726976);
    expect("size of the console", CALL(vmig_resize(m, CONSOLE, 100, 40)), VMIG_OK);
    expect("room", CALL(vmig_room(m, ENTROPY, &len)), VMIG_OK);
    expect("no work", CALL(vmig_next(m, &dev, &pick)), VMIG_IDLE);
    expect("pages out", CALL(vmig_pull(m, ram, sizeof ram, seen, PAGES, &count)), VMIG_OK);
    expect("all of them", count, PAGES);
    expect("pages in", CALL(push_list(m, pages, 2, ram, sizeof ram, seen, PAGES)), VMIG_OK);
    expect("RAM", CALL(vmig_ram_read(m, 0x8000, sector, 1)), VMIG_OK);
    expect("lines", CALL(vmig_lines(m)) & 1u << ENTROPY, 1u << ENTROPY);
    expect("what is left", CALL(vmig_send_left(m, &left)), moves ? VMIG_OK : VMIG_NOT_SENDING);
    expect("a sector", CALL(vmig_sector_read(m, 0, 0, sector)), moves ? VMIG_SENDING : VMIG_OK);
    expect("length of a save", CALL(vmig_save(m, NULL, 0, &len)), moves ? VMIG_SENDING : VMIG_MORE);
    CALL((vmig_describe(m, &found), VMIG_OK));
    expect("its state", found.state, moves ? VMIG_IS_SENDING : VMIG_IS_IDLE);
    expect("requests for memory", requests, before);
}

/* All pages are handed in by no list. Where that is refused memory nothing has changed. */
static void hand_in_all(vmig_machine *m)
{
    static const vmig_pages all = VMIG_ALL_PAGES;
    static uint8_t ram[PAGES * PAGE];
    static uint64_t seen[PAGES];
    uint32_t count;
    uint64_t before;

    expect("pages out", CALL(vmig_pull(m, ram, sizeof ram, seen, PAGES, &count)), VMIG_OK);
    CALL_AGAIN("all pages in", vmig_push(m, &all, ram, sizeof ram, seen, PAGES), VMIG_OK);
    before = requests;
    expect("and again", CALL(vmig_push(m, &all, ram, sizeof ram, seen, PAGES)), VMIG_OK);
    expect("requests for memory", requests, before);
}

/* One migration: begin, copies, a round, a write of the guest, and the stop. Returns whether its stream failed. */
static int migrate(vmig_machine *m)
{
    uint64_t pages, sectors;

    CALL_AGAIN("begin", flags == 0 ? vmig_send_begin(m) : vmig_send_begin_as(m, flags), VMIG_OK);
    look(m, 1);
    while (CALL(vmig_send_some(m, 3)) == VMIG_OK) continue;
    if (answer == VMIG_SEND_FAILED) return 1;
    expect("the round is sent", answer, VMIG_ROUND_DONE);
    put_dev(m, 0x9000, 0x77, 1);
    if (CALL(vmig_send_round(m)) == VMIG_SEND_FAILED) return 1;
    expect("a second round", answer, VMIG_OK);
    if (CALL(vmig_send_stop(m, &pages, &sectors)) == VMIG_SEND_FAILED) return 1;
    expect("stop", answer, VMIG_OK);
    expect("pages of the stop", pages, 1);
    expect("sectors of the stop", sectors, 0);
    return 0;
}

/* A failed migration says so until it is ended, and the guest goes on meanwhile. */
static void give_up(vmig_machine *m)
{
    uint64_t pages, sectors;

    told++;
    expect("it has failed", description_of(m).state, VMIG_IS_SEND_FAILED);
    expect("so", description_of(m).fault, VMIG_SEND_FAILED);
    expect("begin after it", CALL(vmig_send_begin(m)), VMIG_SEND_FAILED);
    expect("copy after it", CALL(vmig_send_some(m, 1)), VMIG_SEND_FAILED);
    expect("round after it", CALL(vmig_send_round(m)), VMIG_SEND_FAILED);
    expect("stop after it", CALL(vmig_send_stop(m, &pages, &sectors)), VMIG_SEND_FAILED);
    put_dev(m, 0x9000, 0x11, 1);
    expect("abort", CALL(vmig_send_abort(m)), VMIG_OK);
}

static size_t take_from(vmig_machine *m, uint8_t *stream, size_t len)
{
    size_t got = 1;

    while (got != 0) {
        expect("take", CALL(vmig_send_take(m, stream + len, STREAM_MAX - len, &got)), VMIG_OK);
        len += got;
    }
    return len;
}

static void digest_of(const uint8_t *bytes, size_t len, uint8_t out[32])
{
    vmig_digest digest;

    vmig_digest_begin(&digest);
    vmig_digest_add(&digest, bytes, len);
    vmig_digest_end(&digest, out);
}

/* The whole stream. Where the host tells its digest that takes no memory. */
static size_t take_all(vmig_machine *m, uint8_t *stream)
{
    size_t len = take_from(m, stream, 0);
    uint64_t before = requests;
    uint8_t out[32];

    if (flags != VMIG_TOLD) return len;
    digest_of(stream, len, out);
    expect("tell", CALL(vmig_send_tell(m, out)), VMIG_OK);
    expect("requests for memory", requests, before);
    return take_from(m, stream, len);
}

/* A piece of a stream, from this byte on. Where the host tells the digest that takes no memory, nor does the
 * record that has it. */
static vmig_status feed_piece(vmig_machine *m, const uint8_t *stream, size_t at, size_t len)
{
    size_t used = 0, all = 77;
    uint64_t before;
    uint8_t out[32];

    if (flags != VMIG_TOLD) return CALL(vmig_feed(m, stream + at, len));
    if (CALL(vmig_feed_some(m, stream + at, len, &used)) != VMIG_DIGEST) return answer;
    before = requests;
    digest_of(stream, at + used, out);
    expect("tell", CALL(vmig_feed_tell(m, out)), VMIG_OK);
    CALL(vmig_feed_some(m, stream + at + used, len - used, &all));
    expect("all of it", all, len - used);
    expect("requests for memory", requests, before);
    return answer;
}

/* Feeds a stream in pieces. Returns whether memory was refused. The end of a stream takes none. */
static int feed(vmig_machine *m, const uint8_t *stream, size_t len)
{
    for (size_t at = 0; at < len; at += 1000) {
        size_t more = len - at < 1000 ? len - at : 1000;
        if (feed_piece(m, stream, at, more) == VMIG_STREAM_NO_MEMORY) return 1;
        expect("feed", answer, at + more < len ? VMIG_OK : VMIG_WHOLE);
    }
    expect("finish", CALL(vmig_finish(m)), VMIG_OK);
    return 0;
}

/* A machine will arrive in this RAM and on this disk, where they are not null, and else in memory of the library. */
static void await(vmig_machine *m, uint8_t *room, uint8_t *disk)
{
    vmig_image image = {disk, SECTORS};
    vmig_arrival arrival = VMIG_ARRIVAL;

    arrival.flags = flags;
    arrival.shapes = shapes, arrival.count = DEVICES;
    if (room != NULL) arrival.ram = (vmig_ram){room, PAGES * PAGE};
    else arrival.most_pages = PAGES;
    if (disk != NULL) arrival.images = &image, arrival.count_images = 1;
    else arrival.most_sectors = SECTORS;
    CALL_AGAIN("arrive", vmig_arrive(&arrival, m), VMIG_OK);
}

/* A stream that was refused memory stays refused: it is freed, which gives its image back, and fed anew. */
static void arrive(vmig_machine *m, uint8_t *room, uint8_t *disk, const uint8_t *stream, size_t len)
{
    vmig_image image = VMIG_NO_IMAGE;

    await(m, room, disk);
    if (feed(m, stream, len) == 0) return;
    told++;
    expect("feed after it", feed_piece(m, stream, 0, 1), VMIG_STREAM_FAILED);
    expect("finish after it", CALL(vmig_finish(m)), VMIG_STREAM_FAILED);
    expect("why", description_of(m).fault, VMIG_STREAM_NO_MEMORY);
    expect("its image", CALL(vmig_release(m, &image, 1)), VMIG_OK);
    expect("is back", image.at == disk, 1);
    await(m, room, disk);
    expect("fed anew", (uint64_t)feed(m, stream, len), 0);
}

/* Both machines are saved alike. */
static void alike(const char *what, vmig_machine *one, vmig_machine *other)
{
    static uint8_t first[STREAM_MAX], second[STREAM_MAX];
    size_t len, len_other;

    CALL_AGAIN(what, vmig_save(one, first, sizeof first, &len), VMIG_OK);
    CALL_AGAIN(what, vmig_save(other, second, sizeof second, &len_other), VMIG_OK);
    expect(what, len_other, len);
    expect(what, (uint64_t)memcmp(first, second, len), 0);
}

/* RAM of the host's own is lent, and given back in each way. What names no more pages than a call before takes
 * no memory. */
static void lend_ram(vmig_machine *m)
{
    static const uint64_t words[] = {1 << 3 | 1 << 5};
    vmig_ram ram = VMIG_NO_RAM;
    uint64_t before = requests;

    expect("lend", CALL(vmig_lend(m, &ram)), VMIG_OK);
    expect("a list", CALL(give_back_list(m, &ram, &(uint32_t){3}, 1)), VMIG_OK);
    expect("lend", CALL(vmig_lend(m, &ram)), VMIG_OK);
    expect("requests for memory", requests, before);
    CALL_AGAIN("a bitmap", give_back_marked(m, &ram, words, 1), VMIG_OK);
    expect("lend", CALL(vmig_lend(m, &ram)), VMIG_OK);
    CALL_AGAIN("all pages", give_back_all(m, &ram), VMIG_OK);
    before = requests;
    expect("lend", CALL(vmig_lend(m, &ram)), VMIG_OK);
    expect("a bitmap", CALL(give_back_marked(m, &ram, words, 1)), VMIG_OK);
    expect("requests for memory", requests, before);
}

/* What is due goes out while RAM is lent: pages as they are handed in, and sectors; then every page is named,
 * and the round ends. Returns whether the stream failed. */
static int send_lent(vmig_machine *m, const uint8_t *ram)
{
    static const vmig_pages all = VMIG_ALL_PAGES;
    static uint8_t bytes[PAGE];
    uint32_t page = 0;
    uint64_t before = requests;

    while (CALL(vmig_send_next(m, &page)) != VMIG_ROUND_DONE) {
        expect("what is next takes no memory", requests, before);
        vmig_copy_page(ram + PAGE * page, bytes);
        if (answer == VMIG_SECTORS) CALL(vmig_send_some(m, 3));
        else CALL(vmig_send_page(m, page, bytes));
        if (answer == VMIG_SEND_FAILED) return 1;
        expect("it is sent", vmig_refused(answer), 0);
        before = requests;
    }
    CALL_AGAIN("all pages are named", vmig_mark(m, &all), VMIG_OK);
    if (CALL(vmig_send_round(m)) == VMIG_SEND_FAILED) return 1;
    expect("the round ends", answer, VMIG_OK);
    return 0;
}

/* A machine is sent while its RAM is lent. Where that fails RAM comes back, and it is sent anew. */
static void send_beside(vmig_machine *m)
{
    vmig_ram ram = VMIG_NO_RAM;
    int has_failed;

    do {
        CALL_AGAIN("begin", vmig_send_begin(m), VMIG_OK);
        expect("lend", CALL(vmig_lend(m, &ram)), VMIG_OK);
        has_failed = send_lent(m, ram.at);
        told += has_failed;
        expect("a list", CALL(give_back_list(m, &ram, NULL, 0)), VMIG_OK);
        expect("abort", CALL(vmig_send_abort(m)), VMIG_OK);
    } while (has_failed);
}

/* New machines that are made in each way, the last two over RAM of the host's own. */
static void make_all(void)
{
    static uint8_t images[DISK], mapped[DISK], room[PAGES * PAGE];
    vmig_image slots[] = {{mapped, SECTORS}};
    vmig_ram ram = {room, sizeof room}, rest = {room, sizeof room};
    vmig_machine m = VMIG_NONE, on_images = VMIG_NONE, over = VMIG_NONE;
    vmig_setup setup = VMIG_SETUP;

    CALL_AGAIN("images", make_with(PAGES, shapes, DEVICES, images, sizeof images, &m), VMIG_OK);
    CALL_AGAIN("mapped", make_mapped(PAGES, shapes, DEVICES, slots, 1, &on_images), VMIG_OK);
    alike("both kinds of images", &m, &on_images);
    expect("release", CALL(vmig_release(&on_images, slots, 1)), VMIG_OK);
    expect("the image is back", (uint64_t)(slots[0].at == mapped), 1);
    CALL_AGAIN("over RAM and an image", make_over(&ram, shapes, DEVICES, slots, 1, &on_images), VMIG_OK);
    lend_ram(&on_images);
    send_beside(&on_images);
    alike("over RAM and an image", &m, &on_images);
    CALL((vmig_free(&on_images), 0));
    CALL_AGAIN("over RAM", make_over(&rest, shapes, DEVICES, NULL, 0, &over), VMIG_OK);
    alike("over RAM", &m, &over);
    CALL((vmig_free(&over), 0));
    setup.shapes = shapes, setup.count = DEVICES, setup.contents = images, setup.len = sizeof images, setup.ram = (vmig_ram){room, sizeof room};
    CALL_AGAIN("over RAM, with contents", vmig_make(&setup, &over), VMIG_OK);
    alike("over RAM, with contents", &m, &over);
    CALL((vmig_free(&m), vmig_free(&over), 0));
}

/* The guest reboots, and what waits for it is dropped. It takes no memory. */
static void reboot(vmig_machine *m)
{
    uint64_t before = requests;
    size_t kept;

    expect("input", CALL(vmig_input(m, ENTROPY, (const uint8_t *)"entropy", 7, &kept)), VMIG_OK);
    expect("drop", CALL(vmig_drop(m, ENTROPY)), VMIG_OK);
    expect("reset", CALL(vmig_reset(m)), VMIG_OK);
    expect("requests for memory", requests, before);
}

/* The whole script, with one request refused. Returns how many requests there were. */
static uint64_t play(uint64_t refused)
{
    static uint8_t stream[STREAM_MAX], target[DISK], other[DISK], room[PAGES * PAGE], second[PAGES * PAGE];
    vmig_image landed[] = {VMIG_NO_IMAGE};
    vmig_machine m = VMIG_NONE, copy = VMIG_NONE, over = VMIG_NONE, in_room = VMIG_NONE, in_second = VMIG_NONE;
    vmig_description announced;

    requests = 0, refused_one = refused, told = 0, given = 0;
    CALL_AGAIN("make", make_new(PAGES, shapes, DEVICES, &m), VMIG_OK);
    run_guest(&m);
    look(&m, 0);
    hand_in_all(&m);
    if (migrate(&m)) {
        give_up(&m);
        expect("a second migration", (uint64_t)migrate(&m), 0);
    }
    size_t len = take_all(&m, stream);
    CALL_AGAIN("announced", vmig_stream_describe(stream, len, &announced), VMIG_OK);
    expect("its pages", announced.pages, PAGES);
    arrive(&copy, NULL, NULL, stream, len);
    arrive(&over, NULL, target, stream, len);
    arrive(&in_room, room, other, stream, len);
    arrive(&in_second, second, NULL, stream, len);
    expect("abort", CALL(vmig_send_abort(&m)), VMIG_OK);
    alike("what arrived", &m, &copy);
    alike("what arrived over an image", &m, &over);
    alike("what arrived over RAM and an image", &m, &in_room);
    alike("what arrived over RAM", &m, &in_second);
    expect("release", CALL(vmig_release(&over, landed, 1)), VMIG_OK);
    expect("the image is back", landed[0].at == target && landed[0].sectors == SECTORS, 1);
    expect("the guest's last write", get(&copy, 0x9000, 1), 0x77);
    reboot(&copy);
    CALL((vmig_free(&m), vmig_free(&copy), vmig_free(&in_room), vmig_free(&in_second), 0));
    make_all();
    expect("calls that were refused", (uint64_t)told, refused != 0 && refused <= requests);
    expect("requests that are not freed", (uint64_t)given, 0);
    return requests;
}

/* The script with each request refused in turn. */
static void refuse_each(void)
{
    uint64_t all = play(0);

    for (uint64_t n = 1; n <= all; n++) {
        play(n);
        if (failures != 0) {
            printf("request %llu of %llu was refused\n", (unsigned long long)n, (unsigned long long)all);
            break;
        }
    }
    printf("requests refused, one in turn: %llu\n", (unsigned long long)all);
}

int main(void)
{
    refuse_each();
    flags = VMIG_TOLD;
    refuse_each();
    return ended("refused_memory");
}
