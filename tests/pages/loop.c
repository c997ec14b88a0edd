/* The code of docs/hosts/loop.md as it stands there, over RAM of the library, and a guest that asks for random bytes and prints. */
#include <stddef.h>
#include <stdint.h>
#include "vmig.h"

enum { CONSOLE, ENTROPY, DEVICES };
enum { PAGES = 64, STEPS_A_TURN = 1000, POOL = 64, POOL_MOST = 4096 };

/* What your host has beside this. */
void hand_on(uint8_t dev, const uint8_t *bytes, size_t length);     /* to its terminal, or out of its tap */
int sync_disk(uint8_t dev);                                         /* of a mapped disk: 0 where that failed */
void make_random(uint8_t *bytes, size_t length);
void set_lines(uint32_t lines);                                     /* bit d is the level of the line of device d */

/* A machine, and the turn that stays with it. */
struct host {
    vmig_machine machine;
    vmig_turn turn;
};

/* An access of the guest to a register: off bytes from the beginning of the window of device dev on. */
struct access {
    uint8_t dev, width;
    int is_write;
    uint32_t off, value;
};

static vmig_status make(struct host *h)
{
    static const vmig_shape shapes[DEVICES] = {[CONSOLE] = {.kind = VMIG_CONSOLE}, [ENTROPY] = {.kind = VMIG_ENTROPY}};
    vmig_setup setup = VMIG_SETUP;

    *h = (struct host){.machine = VMIG_NONE, .turn = VMIG_TURN};
    setup.pages = PAGES, setup.shapes = shapes, setup.count = DEVICES;
    return vmig_make(&setup, &h->machine);
}

/* The pool of the entropy device has POOL bytes again. */
static vmig_status fill_pool(struct host *h)
{
    uint8_t bytes[POOL];
    size_t room = 0, missing, kept;
    vmig_status status = vmig_room(&h->machine, ENTROPY, &room);

    if (status != VMIG_OK || room <= POOL_MOST - POOL) return status;
    missing = room - (POOL_MOST - POOL);
    make_random(bytes, missing);
    return vmig_input(&h->machine, ENTROPY, bytes, missing, &kept);
}

/* The devices' turn. VMIG_IDLE: nothing is left to do; else there is more, for the next turn. After VMIG_NO_MEMORY nothing has changed, and
 * vmig_next makes the next turn begin after the step that was refused memory: so it keeps no other waiting. */
static vmig_status do_work(struct host *h)
{
    static uint8_t sent[VMIG_SENT_MAX];
    vmig_turn *t = &h->turn;
    vmig_status status;

    t->left = STEPS_A_TURN;
    do {
        status = vmig_work(&h->machine, t, sent, sizeof sent);
        if (status == VMIG_SENT) hand_on(t->dev, sent, t->len);
        if (status == VMIG_COMPLETED) status = fill_pool(h);
        if (status == VMIG_SYNC && !sync_disk(t->dev)) status = vmig_sync_failed(&h->machine, t->dev);
        else if (status == VMIG_SYNC) status = vmig_step(&h->machine, t->dev, t->pick, sent, sizeof sent, &t->len);
    } while (status != VMIG_IDLE && status != VMIG_WORK && !vmig_refused(status));
    set_lines(vmig_lines(&h->machine));
    return status == VMIG_NO_MEMORY ? vmig_next(&h->machine, &t->dev, &t->pick) : status;
}

/* An exit for a register, with every vCPU outside. a->value becomes what a read gives: 0 of a window without a device. */
static vmig_status answer_exit(struct host *h, struct access *a)
{
    uint32_t value = 0, byte = VMIG_NO_BYTE;
    uint8_t printed;
    vmig_status status;

    if (a->is_write) status = vmig_reg_write(&h->machine, a->dev, a->off, a->width, a->value, &byte);
    else status = vmig_reg_read(&h->machine, a->dev, a->off, a->width, &value);
    printed = (uint8_t)byte;
    if (byte != VMIG_NO_BYTE) hand_on(a->dev, &printed, 1);
    a->value = value;
    if (status == VMIG_NO_DEVICE) return VMIG_IDLE;
    return status == VMIG_OK && a->is_write ? do_work(h) : status;
}

/* What was typed, or a frame that came: what is not kept stays with the host, for the next time. */
static vmig_status put_in(struct host *h, uint8_t dev, const uint8_t *bytes, size_t length, size_t *kept)
{
    vmig_status status = vmig_input(&h->machine, dev, bytes, length, kept);

    return status == VMIG_OK ? do_work(h) : status;
}

/* ---- the host's own parts, and the guest ---- */
#include "driver.h"

static uint8_t printed[64];
static size_t count_printed;
static uint32_t lines;
static uint8_t next_random;

void hand_on(uint8_t dev, const uint8_t *bytes, size_t length)
{
    expect("from the console", dev, CONSOLE);
    if (count_printed + length > sizeof printed) return;
    memcpy(printed + count_printed, bytes, length);
    count_printed += length;
}

int sync_disk(uint8_t dev)
{
    (void)dev;
    return 1;
}

void make_random(uint8_t *bytes, size_t length)
{
    for (size_t i = 0; i < length; i++) bytes[i] = next_random++;
}

void set_lines(uint32_t level)
{
    lines = level;
}

/* The guest comes out for a register. */
static uint32_t touch(struct host *h, uint8_t dev, int is_write, uint32_t off, uint32_t value)
{
    struct access a = {.dev = dev, .width = 4, .is_write = is_write, .off = off, .value = value};

    expect("an exit", (uint64_t)vmig_refused(answer_exit(h, &a)), 0);
    return a.value;
}

/* It prints a text, and asks for 16 random bytes in three buffers. */
static void drive(struct host *h)
{
    static const char text[] = "hello";

    set_up_device(&h->machine, CONSOLE, 0, 2, 0);
    set_up_device(&h->machine, ENTROPY, 2, 1, 0);
    expect("put", vmig_ram_write(&h->machine, DATA, (const uint8_t *)text, 5), VMIG_OK);
    describe(&h->machine, 1, 0, DATA, 5, 0, 0);
    make_available(&h->machine, 1, 1, 0);
    touch(h, CONSOLE, 1, 0x050, 1);
    for (uint32_t i = 0; i < 3; i++) {
        describe(&h->machine, 2, i, DATA + 0x100 + 16 * i, 16, WRITABLE, 0);
        make_available(&h->machine, 2, i + 1, i);
    }
    touch(h, ENTROPY, 1, 0x050, 0);
}

int main(void)
{
    struct host h;
    size_t kept = 0;

    expect("make", make(&h), VMIG_OK);
    expect("fill", fill_pool(&h), VMIG_OK);
    expect("its magic value", touch(&h, 0, 0, 0x000, 0), 0x74726976);
    expect("no device", touch(&h, 7, 0, 0x000, 0), 0);
    drive(&h);
    expect("printed", count_printed, 5);
    expect("the text", (uint64_t)memcmp(printed, "hello", 5), 0);
    expect("the last random byte", get(&h.machine, DATA + 0x100 + 47, 1), 47);
    expect("and no other", get(&h.machine, DATA + 0x100 + 48, 1), 0);
    expect("both lines", lines, 3);
    touch(&h, ENTROPY, 1, 0x064, 1);
    expect("one of them", lines, 1);
    describe(&h.machine, 0, 0, DATA + 0x200, 16, WRITABLE, 0);
    make_available(&h.machine, 0, 1, 0);
    touch(&h, CONSOLE, 1, 0x050, 0);
    expect("typed", put_in(&h, CONSOLE, (const uint8_t *)"key", 3, &kept), VMIG_IDLE);
    expect("kept", kept, 3);
    expect("its first byte", get(&h.machine, DATA + 0x200, 1), 'k');
    vmig_free(&h.machine);
    return ended("pages/loop");
}
