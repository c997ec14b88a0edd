/* A machine that is saved, and received twice. What its host put in, and its guest did not take yet, is dropped before: so each of the
 * two guests reads what its own host puts in, and nothing else. Without that both read the same. */
#include <stdlib.h>
#include <string.h>
#include "driver.h"

enum { PAGES = 32, ENTROPY = 0, CONSOLE = 1, NETWORK = 2, DISK = 3, DEVICES = 4, LENGTH = 64, HEADER = 12, BUFFERS = 0x18000 };

/* The receive queue of each device, in the order in which they lie. */
static const uint32_t QUEUES[] = {0, 1, 3};

static const vmig_shape SHAPES[DEVICES] = {
    {.kind = VMIG_ENTROPY}, {.kind = VMIG_CONSOLE}, {.kind = VMIG_NETWORK, .mac = {2, 0, 0, 0, 0, 1}}, {.kind = VMIG_BLOCK, .sectors = 1}};

static uint8_t stream[PAGES * 4101 + 10000];
static size_t stream_len;

/* The host puts this text in, whole. */
static void put_in(vmig_machine *m, uint8_t dev, const char *text)
{
    uint8_t bytes[LENGTH] = {0};
    size_t kept = 0;

    memcpy(bytes, text, strlen(text));
    expect("input", vmig_input(m, dev, bytes, LENGTH, &kept), VMIG_OK);
    expect("all of it", kept, LENGTH);
}

/* The driver asks for what comes next, as its `count`-th buffer. Returns whether there was something, which begins with this text. */
static int reads(vmig_machine *m, uint8_t dev, uint32_t count, const char *text)
{
    uint32_t before = dev == NETWORK ? HEADER : 0, len = 0, at = BUFFERS + dev * 0x1000u;
    uint8_t none[1], got[LENGTH];
    vmig_status status;

    describe(m, QUEUES[dev], 0, at, before + LENGTH, WRITABLE, 0);
    make_available(m, QUEUES[dev], count, 0);
    write_reg_of(m, dev, 0x050, 0);
    status = vmig_step(m, dev, 0, none, 0, &len);
    if (status == VMIG_IDLE) return 0;
    expect("a buffer", status, VMIG_COMPLETED);
    expect("its length", len, before + LENGTH);
    expect("read", vmig_ram_read(m, at + before, got, LENGTH), VMIG_OK);
    return strncmp((const char *)got, text, LENGTH) == 0;
}

static void save(vmig_machine *m)
{
    expect("save", vmig_save(m, stream, sizeof stream, &stream_len), VMIG_OK);
}

static vmig_machine received(void)
{
    vmig_machine m = VMIG_NONE;
    uint32_t rounds;

    expect("receive", receive(stream, stream_len, &m, &rounds), VMIG_OK);
    return m;
}

/* Each guest reads what its own host put in, first and last. The buffer of the last ask waits until then. */
static void reads_its_own(vmig_machine *m, const char *text, uint32_t count)
{
    uint8_t none[1];
    uint32_t len;

    for (uint8_t dev = 0; dev < DISK; dev++) {
        size_t room = 0;
        expect("room", vmig_room(m, dev, &room), VMIG_OK);
        expect("for all that it can hold", room, dev == NETWORK ? 64 : 4096);
        expect("nothing is there", vmig_step(m, dev, 0, none, 0, &len), VMIG_IDLE);
        put_in(m, dev, text);
        expect("its own", (uint64_t)reads(m, dev, count, text), 1);
        expect("and nothing else", (uint64_t)reads(m, dev, count + 1, text), 0);
    }
}

/* All that waits is dropped, of a machine that is sent too. What the guest was given before stays in its RAM. */
static void drop_all(vmig_machine *m)
{
    for (uint8_t dev = 0; dev < DISK; dev++) expect("drop", vmig_drop(m, dev), VMIG_OK);
    expect("a disk has nothing of the host", vmig_drop(m, DISK), VMIG_WRONG_KIND);
    expect("no such device", vmig_drop(m, DEVICES), VMIG_NO_DEVICE);
    expect("twice", vmig_drop(m, ENTROPY), VMIG_OK);
}

/* Of a machine that is being sent the drop is in the stream too. */
static void drops_on_the_way(vmig_machine *m)
{
    uint64_t pages, sectors;
    size_t got = 0;
    vmig_machine other;

    for (uint8_t dev = 0; dev < DISK; dev++) put_in(m, dev, "on the way");
    expect("begin", vmig_send_begin(m), VMIG_OK);
    expect("some", vmig_send_some(m, 5), VMIG_OK);
    drop_all(m);
    expect("stop", vmig_send_stop(m, &pages, &sectors), VMIG_OK);
    expect("take", vmig_send_take(m, stream, sizeof stream, &stream_len), VMIG_OK);
    expect("all is taken", vmig_send_take(m, stream + stream_len, 1, &got), VMIG_OK);
    expect("nothing is left", got, 0);
    expect("abort", vmig_send_abort(m), VMIG_OK);
    other = received();
    reads_its_own(&other, "over there", 3);
    reads_its_own(m, "over here", 3);
    vmig_free(&other);
}

int main(void)
{
    vmig_machine m = VMIG_NONE, first, second;

    expect("make", make_new(PAGES, SHAPES, DEVICES, &m), VMIG_OK);
    set_up_device(&m, ENTROPY, 0, 1, 0);
    set_up_device(&m, CONSOLE, 1, 2, 0);
    set_up_device(&m, NETWORK, 3, 2, 0);
    for (uint8_t dev = 0; dev < DISK; dev++) {
        put_in(&m, dev, "taken before");
        expect("is read", (uint64_t)reads(&m, dev, 1, "taken before"), 1);
        put_in(&m, dev, "left");
    }
    save(&m);
    first = received(), second = received();
    for (uint8_t dev = 0; dev < DISK; dev++) {
        expect("without a drop the one reads it", (uint64_t)reads(&first, dev, 2, "left"), 1);
        expect("and so does the other", (uint64_t)reads(&second, dev, 2, "left"), 1);
    }
    vmig_free(&first), vmig_free(&second);
    drop_all(&m);
    save(&m);
    first = received(), second = received();
    reads_its_own(&first, "of the first host", 2);
    reads_its_own(&second, "of the second", 2);
    vmig_free(&first), vmig_free(&second);
    expect("the guest reboots", vmig_reset(&m), VMIG_OK);
    set_up_device(&m, ENTROPY, 0, 1, 0);
    set_up_device(&m, CONSOLE, 1, 2, 0);
    set_up_device(&m, NETWORK, 3, 2, 0);
    for (uint32_t queue = 0; queue < 5; queue++) put(&m, AVAIL + queue * NEXT_QUEUE + 2, 0, 2);
    for (uint8_t dev = 0; dev < DISK; dev++) expect("it waits", (uint64_t)reads(&m, dev, 1, ""), 0);
    for (uint8_t dev = 0; dev < DISK; dev++) put_in(&m, dev, "new"), expect("and reads", (uint64_t)reads(&m, dev, 2, "new"), 1);
    drops_on_the_way(&m);
    vmig_free(&m);
    return ended("twice");
}
