/* A turn of the devices in one call: it makes the steps that vmig_next names, and no other, and ends where its comment says so. */
#include <stdlib.h>
#include "driver.h"

enum { DISK = 0, ENTROPY = 1, CONSOLE = 2, PAGES = 32, SECTORS = 12, HEADERS = 0x10000, OUTCOMES = 0x11000, BUFFERS = 0x12000 };

/* Types of requests of a disk (VIRTIO 1.2, 5.2.6), and its feature FLUSH. */
enum { IN = 0, OUT = 1, FLUSH = 4, HAS_FLUSH = 1 << 9 };

static const vmig_shape shapes[] = {{.kind = VMIG_BLOCK, .sectors = SECTORS}, {.kind = VMIG_ENTROPY}, {.kind = VMIG_CONSOLE}};

static uint8_t buf[VMIG_SENT_MAX], other_buf[VMIG_SENT_MAX], stream[1 << 20], other_stream[1 << 20];

/* The C library's own allocator, under the names that it keeps for a program with its own malloc. */
void *__libc_malloc(size_t size);
void *__libc_calloc(size_t count, size_t size);
void *__libc_realloc(void *at, size_t size);
void __libc_free(void *at);

static int refuses;     /* whether each request for memory is refused */

void *malloc(size_t size) { return refuses ? NULL : __libc_malloc(size); }
void *calloc(size_t count, size_t size) { return refuses ? NULL : __libc_calloc(count, size); }
void *realloc(void *old, size_t size) { return refuses ? NULL : __libc_realloc(old, size); }
void free(void *at) { __libc_free(at); }

/* The disk has queue 0 of the driver's places, the entropy device queue 1, and the console queues 2 and 3. */
static void make_three(vmig_machine *m, uint32_t disk_features)
{
    expect("make", make_new(PAGES, shapes, 3, m), VMIG_OK);
    set_up_device(m, DISK, 0, 1, disk_features);
    set_up_device(m, ENTROPY, 1, 1, 0);
    set_up_device(m, CONSOLE, 2, 2, 0);
}

static void kick(vmig_machine *m, uint8_t dev, uint32_t queue)
{
    write_reg_of(m, dev, 0x050, queue);
}

/* The guest asks for a request of the disk, its `number`-th from 0, of one sector; of a flush it has none. */
static void request(vmig_machine *m, uint32_t number, uint32_t type)
{
    uint64_t header = HEADERS + 16 * number;
    uint32_t first = 3 * number;

    put(m, header, type, 8);
    put(m, header + 8, type == FLUSH ? 0 : number, 8);
    put(m, OUTCOMES + number, 0xff, 1);
    describe(m, 0, first, header, 16, HAS_NEXT, type == FLUSH ? first + 2 : first + 1);
    describe(m, 0, first + 1, BUFFERS + 512 * number, 512, type == IN ? HAS_NEXT | WRITABLE : HAS_NEXT, first + 2);
    describe(m, 0, first + 2, OUTCOMES + number, 1, WRITABLE, 0);
    make_available(m, 0, number + 1, first);
}

static void ask_for_bytes(vmig_machine *m, uint32_t count)
{
    describe(m, 1, count, BUFFERS + 0x4000 + 16 * count, 16, WRITABLE, 0);
    make_available(m, 1, count, count);
}

static void say(vmig_machine *m, uint32_t count, const char *text)
{
    uint64_t at = BUFFERS + 0x5000 + 16 * (count % 4);

    expect("text", vmig_ram_write(m, at, (const uint8_t *)text, strlen(text)), VMIG_OK);
    describe(m, 3, count % 4, at, (uint32_t)strlen(text), 0, 0);
    make_available(m, 3, count, count % 4);
}

/* Requests, text and wishes for bytes, some of each. */
static void give_work(vmig_machine *m)
{
    size_t kept;

    for (uint32_t i = 0; i < SECTORS; i++) request(m, i, i % 3 == 0 ? OUT : IN);
    ask_for_bytes(m, 1);
    ask_for_bytes(m, 2);
    say(m, 1, "one, ");
    say(m, 2, "two.");
    expect("input", vmig_input(m, ENTROPY, (const uint8_t *)"sixteen letters.", 16, &kept), VMIG_OK);
    expect("input", vmig_input(m, ENTROPY, (const uint8_t *)"and some more", 13, &kept), VMIG_OK);
    kick(m, DISK, 0);
    kick(m, ENTROPY, 0);
    kick(m, CONSOLE, 1);
}

static size_t save(vmig_machine *m, uint8_t *bytes)
{
    size_t len = 0;
    expect("save", vmig_save(m, bytes, sizeof stream, &len), VMIG_OK);
    return len;
}

static void equal(vmig_machine *one, vmig_machine *other)
{
    size_t len = save(one, stream);
    expect("length of a stream", save(other, other_stream), len);
    expect("equal machines", (uint64_t)memcmp(stream, other_stream, len), 0);
}

/* Whether a turn ends with a step that was answered so. */
static int ends_with(uint8_t dev, vmig_status status)
{
    if (status == VMIG_COMPLETED) return dev == ENTROPY;
    return status != VMIG_IDLE && status != VMIG_TAKEN && status != VMIG_MOVED;
}

/* The same by two calls a step. Returns what the turn is to end with. */
static vmig_status turn_singly(vmig_machine *m, vmig_turn *turn)
{
    while (turn->left > 0) {
        vmig_status status = vmig_next(m, &turn->dev, &turn->pick);
        if (status == VMIG_IDLE) return VMIG_IDLE;
        turn->left--;
        if (status == VMIG_SYNC) return VMIG_SYNC;
        status = vmig_step(m, turn->dev, turn->pick, other_buf, sizeof other_buf, &turn->len);
        if (ends_with(turn->dev, status)) return status;
    }
    uint8_t dev = turn->dev, pick = turn->pick;
    return vmig_next(m, &dev, &pick) == VMIG_IDLE ? VMIG_IDLE : VMIG_WORK;
}

/* One machine is served by turns of so many steps, and another by single steps: they are equal after each. */
static void as_singly(uint32_t bound, uint32_t features)
{
    vmig_machine one = VMIG_NONE, other = VMIG_NONE;
    vmig_turn turn = VMIG_TURN, singly = VMIG_TURN;
    vmig_status status = VMIG_WORK;
    uint32_t turns = 0;

    make_three(&one, features);
    make_three(&other, features);
    give_work(&one);
    give_work(&other);
    while (status != VMIG_IDLE && turns++ < 1000) {
        turn.left = singly.left = bound;
        do {
            status = vmig_work(&one, &turn, buf, sizeof buf);
            expect("the end of a turn", turn_singly(&other, &singly), status);
            expect("its device", turn.dev, singly.dev);
            expect("its pick", turn.pick, singly.pick);
            expect("its steps", turn.left, singly.left);
            if (status == VMIG_SENT || status == VMIG_COMPLETED) expect("its length", turn.len, singly.len);
            if (status == VMIG_SENT) expect("its message", (uint64_t)memcmp(buf, other_buf, turn.len), 0);
            if (status == VMIG_SYNC) {
                expect("a step", vmig_step(&one, turn.dev, turn.pick, buf, sizeof buf, &turn.len), VMIG_COMPLETED);
                expect("a step", vmig_step(&other, turn.dev, turn.pick, buf, sizeof buf, &singly.len), VMIG_COMPLETED);
            }
            equal(&one, &other);
        } while (status != VMIG_IDLE && status != VMIG_WORK && !vmig_refused(status));
    }
    expect("all is done", status, VMIG_IDLE);
    for (uint32_t i = 0; i < SECTORS; i++) expect("an outcome", get(&one, OUTCOMES + i, 1), 0);
    vmig_free(&one);
    vmig_free(&other);
}

/* A guest that has a new message at once, whenever one was taken: the turn ends, and the other devices had theirs. */
static void without_end(void)
{
    vmig_machine m = VMIG_NONE;
    vmig_turn turn = VMIG_TURN;
    uint32_t count = 1, sent = 0;
    vmig_status status;

    make_three(&m, HAS_FLUSH);
    give_work(&m);
    turn.left = 100;
    do {
        status = vmig_work(&m, &turn, buf, sizeof buf);
        if (status != VMIG_SENT) continue;
        sent++;
        count++;
        say(&m, count + 1, "and on");
        kick(&m, CONSOLE, 1);
    } while (status != VMIG_IDLE && status != VMIG_WORK && !vmig_refused(status));
    expect("there is more", status, VMIG_WORK);
    expect("no step is left", turn.left, 0);
    /* Twelve requests of three steps each, the queue once more, and two wishes, after which the pool is empty: the rest was sent. */
    for (uint32_t i = 0; i < SECTORS; i++) expect("an outcome", get(&m, OUTCOMES + i, 1), 0);
    expect("chains of the entropy device", get(&m, USED + NEXT_QUEUE + 2, 2), 2);
    expect("messages", sent, 100 - (3 * SECTORS + 1) - 2);
    expect("with none left", vmig_work(&m, &turn, buf, sizeof buf), VMIG_WORK);
    expect("nothing changed", get(&m, USED + 3 * NEXT_QUEUE + 2, 2), sent);
    vmig_free(&m);
}

/* A disk whose file is lost: a flush of its driver fails, or its write does not end, and the other devices are served. */
static void with_a_lost_disk(uint32_t features)
{
    vmig_machine m = VMIG_NONE;
    vmig_turn turn = VMIG_TURN;
    vmig_status status, flushed = 0;
    uint32_t synced = 0, completed = 0;

    make_three(&m, features);
    request(&m, 0, OUT);
    if (features != 0) request(&m, 1, FLUSH);
    ask_for_bytes(&m, 1);
    kick(&m, DISK, 0);
    kick(&m, ENTROPY, 0);
    turn.left = 50;
    do {
        size_t kept;
        status = vmig_work(&m, &turn, buf, sizeof buf);
        if (status == VMIG_SYNC) {
            synced++;
            expect("the disk", turn.dev, DISK);
            status = vmig_sync_failed(&m, DISK);
            expect("input", vmig_input(&m, ENTROPY, (const uint8_t *)"sixteen letters.", 16, &kept), VMIG_OK);
        }
        if (status == VMIG_DISK_FAILED) flushed = status;
        if (status == VMIG_COMPLETED) completed++;
    } while (status != VMIG_IDLE && status != VMIG_WORK && !vmig_refused(status));
    expect("nothing is left", status, VMIG_IDLE);
    expect("syncs that were owed", synced, 1);
    expect("the entropy device", completed, 1);
    expect("a flush that failed", flushed, features != 0 ? VMIG_DISK_FAILED : 0);
    expect("the write", get(&m, OUTCOMES, 1), features != 0 ? 0 : 0xff);
    if (features != 0) expect("the flush", get(&m, OUTCOMES + 1, 1), 1);
    vmig_free(&m);
}

/* A step that is refused memory: alone it is told, and after others it is told as more to do, and comes first in the next call. */
static void without_memory(void)
{
    vmig_machine m = VMIG_NONE;
    vmig_turn turn = VMIG_TURN, before;
    uint8_t dev, pick;

    make_three(&m, HAS_FLUSH);
    say(&m, 1, "a message that takes memory");
    request(&m, 0, IN);
    kick(&m, DISK, 0);
    kick(&m, CONSOLE, 1);
    turn.dev = CONSOLE, turn.pick = 1, turn.left = 50;
    refuses = 1;
    expect("steps before it", vmig_work(&m, &turn, buf, sizeof buf), VMIG_WORK);
    expect("steps are left", turn.left < 50 && turn.left > 0, 1);
    expect("no message yet", get(&m, USED + 3 * NEXT_QUEUE + 2, 2), 0);
    before = turn;
    expect("by itself", vmig_work(&m, &turn, buf, sizeof buf), VMIG_NO_MEMORY);
    expect("the turn is as it was", (uint64_t)memcmp(&before, &turn, sizeof turn), 0);
    dev = turn.dev, pick = turn.pick;
    expect("its step", vmig_next(&m, &dev, &pick), VMIG_WORK);
    expect("its device", dev, CONSOLE);
    refuses = 0;
    expect("with memory", vmig_work(&m, &turn, buf, sizeof buf), VMIG_SENT);
    expect("its device", turn.dev, CONSOLE);
    expect("its length", turn.len, 27);
    expect("the rest", vmig_work(&m, &turn, buf, sizeof buf), VMIG_IDLE);
    expect("the request", get(&m, OUTCOMES, 1), 0);
    vmig_free(&m);
}

/* What is refused, whatever work there is. */
static void refusals(void)
{
    static const vmig_shape network[] = {{.kind = VMIG_NETWORK, .mac = {2, 0, 0, 0, 0, 1}}, {.kind = VMIG_ENTROPY}};
    vmig_machine m = VMIG_NONE;
    vmig_turn turn = VMIG_TURN, unknown;

    turn.left = 5;
    expect("no machine", vmig_work(&m, &turn, buf, sizeof buf), VMIG_NO_MACHINE);
    make_three(&m, 0);
    expect("a small buffer", vmig_work(&m, &turn, buf, VMIG_SENT_MAX - 1), VMIG_TOO_SMALL);
    for (int word = 0; word < 4; word++) {
        unknown = turn;
        if (word == 0) unknown.zero = 1;
        if (word == 1) unknown.zero2 = 1;
        if (word >= 2) unknown.reserved[word - 2] = 1;
        expect("a word that is not 0", vmig_work(&m, &unknown, buf, 0), VMIG_NOT_KNOWN);
    }
    expect("no work", vmig_work(&m, &turn, buf, sizeof buf), VMIG_IDLE);
    expect("nothing was counted", turn.left, 5);
    vmig_free(&m);
    expect("make", make_new(PAGES, network, 2, &m), VMIG_OK);
    expect("a buffer for a frame", vmig_work(&m, &turn, buf, 1513), VMIG_TOO_SMALL);
    expect("a buffer for a frame", vmig_work(&m, &turn, buf, 1514), VMIG_IDLE);
    vmig_free(&m);
    expect("make", make_new(PAGES, network + 1, 1, &m), VMIG_OK);
    expect("no buffer", vmig_work(&m, &turn, NULL, 0), VMIG_IDLE);
    vmig_free(&m);
}

int main(void)
{
    static const uint32_t bounds[] = {1, 2, 7, 1000};

    for (size_t i = 0; i < sizeof bounds / sizeof *bounds; i++) {
        as_singly(bounds[i], HAS_FLUSH);
        as_singly(bounds[i], 0);
    }
    without_end();
    with_a_lost_disk(HAS_FLUSH);
    with_a_lost_disk(0);
    without_memory();
    refusals();
    return ended("turns");
}
