/* The code of docs/hosts/held-back.md as it stands there: a host whose tap is full, and a guest that sends frames and prints meanwhile. */
#include <stddef.h>
#include <stdint.h>
#include "vmig.h"

enum { NETWORK, CONSOLE, DEVICES };
enum { PAGES = 64, SENDS = 1, STEPS_A_TURN = 1000 };        /* SENDS: the pick by which both send */

/* What your host has beside this. */
int has_room(void);                                                 /* of its tap, for one more frame */
int sync_disk(uint8_t dev);                                         /* of a mapped disk: 0 where that failed */
void hand_on(uint8_t dev, const uint8_t *bytes, size_t length);     /* out of its tap, or to its terminal */
void set_lines(uint32_t lines);                                     /* bit d is the level of the line of device d */

/* A machine, and the step that was named last. */
struct host {
    vmig_machine machine;
    uint8_t dev, pick;
};

static vmig_status make(struct host *h)
{
    static const vmig_shape shapes[DEVICES] = {[NETWORK] = {.kind = VMIG_NETWORK, .mac = {2, 0, 0, 0, 0, 1}}, [CONSOLE] = {.kind = VMIG_CONSOLE}};
    vmig_setup setup = VMIG_SETUP;

    *h = (struct host){.machine = VMIG_NONE};
    setup.pages = PAGES, setup.shapes = shapes, setup.count = DEVICES;
    return vmig_make(&setup, &h->machine);
}

static vmig_status make_step(struct host *h, vmig_status named)
{
    static uint8_t sent[VMIG_SENT_MAX];
    uint32_t length = 0;
    vmig_status status;

    if (named == VMIG_SYNC && !sync_disk(h->dev)) return vmig_sync_failed(&h->machine, h->dev);
    status = vmig_step(&h->machine, h->dev, h->pick, sent, sizeof sent, &length);
    if (status == VMIG_SENT) hand_on(h->dev, sent, length);
    return status;
}

/* A turn. Each step is named, and made or passed over. One that is held back and named once more, without one that was made in between, says
 * that nothing else is left. What was refused memory is made in a later turn. */
static vmig_status do_work_singly(struct host *h)
{
    vmig_status status = VMIG_OK;
    int held = -1;

    for (int left = STEPS_A_TURN; left > 0; left--) {
        int step;

        status = vmig_next(&h->machine, &h->dev, &h->pick), step = 256 * h->dev + h->pick;
        if (status == VMIG_IDLE || status == VMIG_CALL || vmig_refused(status) || held == step) break;
        if (h->dev == NETWORK && h->pick == SENDS && !has_room()) {
            if (held < 0) held = step;
            continue;
        }
        held = -1;
        status = make_step(h, status);
        if (vmig_refused(status) && status != VMIG_NO_MEMORY) break;
    }
    set_lines(vmig_lines(&h->machine));
    return status;
}

/* ---- the host's own parts, and the guest ---- */
#include "driver.h"

enum { FRAMES = 5, FRAME = 14, HEADER = 12, PRINTS = 3 };

/* How many frames the tap still takes; what it took, and what the console printed. */
static uint32_t room, frames, messages, lines;

int has_room(void)
{
    return room > 0;
}

int sync_disk(uint8_t dev)
{
    expect("no disk", dev, DEVICES);
    return 1;
}

void hand_on(uint8_t dev, const uint8_t *bytes, size_t length)
{
    if (dev == CONSOLE) {
        messages++;
        return;
    }
    expect("a frame", length, FRAME);
    expect("in its turn", bytes[0], frames++);
    room--;
}

void set_lines(uint32_t level)
{
    lines = level;
}

/* The guest sends frames, of which each begins with its number, and prints as many messages. */
static void send_and_print(struct host *h, uint32_t first)
{
    vmig_machine *m = &h->machine;

    for (uint32_t i = first; i < first + FRAMES; i++) {
        uint64_t at = 0xc000 + 64 * i;
        put(m, at + HEADER, i, 8);
        describe(m, SENDS, i, at, HEADER + FRAME, 0, 0);
        make_available(m, SENDS, i + 1, i);
        describe(m, PRINTS, i, at, 1, 0, 0);
        make_available(m, PRINTS, i + 1, i);
    }
    write_reg_of(m, NETWORK, 0x050, 1);
    write_reg_of(m, CONSOLE, 0x050, 1);
}

/* A turn, after which so many frames and messages were sent. */
static void turn(struct host *h, uint32_t frames_wanted, uint32_t messages_wanted, vmig_status wanted)
{
    vmig_machine *m = &h->machine;

    expect("a turn", do_work_singly(h), wanted);
    expect("frames that were sent", frames, frames_wanted);
    expect("messages that were printed", messages, messages_wanted);
    expect("frames that wait", get(m, AVAIL + NEXT_QUEUE + 2, 2) - get(m, USED + NEXT_QUEUE + 2, 2), messages_wanted - frames_wanted);
}

int main(void)
{
    struct host h;

    expect("make", make(&h), VMIG_OK);
    set_up_device(&h.machine, NETWORK, 0, 2, 0);
    set_up_device(&h.machine, CONSOLE, 2, 2, 0);
    send_and_print(&h, 0);
    room = 2;
    turn(&h, 2, FRAMES, VMIG_WORK);
    expect("both lines", lines, 3);
    turn(&h, 2, FRAMES, VMIG_WORK);
    send_and_print(&h, FRAMES);
    turn(&h, 2, 2 * FRAMES, VMIG_WORK);
    room = 1;
    turn(&h, 3, 2 * FRAMES, VMIG_WORK);
    room = 100;
    turn(&h, 2 * FRAMES, 2 * FRAMES, VMIG_IDLE);
    vmig_free(&h.machine);
    return ended("pages/held-back");
}
