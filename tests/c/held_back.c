/* A host whose tap is full: it makes the steps singly, and passes over the one that would send a frame. The console beside it goes on, the frames
 * wait in the guest's queue, and none is lost. */
#include "driver.h"

enum { NETWORK = 0, CONSOLE = 1, FRAMES = 5, FRAME = 14, HEADER = 12, RECEIVES = 0, SENDS = 1, PRINTS = 3 };

static uint8_t buf[VMIG_SENT_MAX];

/* How many frames the tap still takes; what it took, and what the console printed. */
static uint32_t room, frames, messages;

/* Whether a step is not made: it would send a frame, for which the tap has no room. */
static int is_held_back(uint8_t dev, uint8_t pick)
{
    return dev == NETWORK && pick == SENDS && room == 0;
}

static void hand_on(uint8_t dev, const uint8_t *bytes, uint32_t len)
{
    if (dev == CONSOLE) {
        messages++;
        return;
    }
    expect("a frame", len, FRAME);
    expect("in its turn", bytes[0], frames++);
    room--;
}

/* Brings the disk of a device to its file: 1 where that goes well. This host has no disk. */
static int bring(uint8_t dev)
{
    (void)dev;
    return 1;
}

/* A turn of a host that holds a device back. Each step is named, and made or passed over. One that is held back and named once more, without
 * one that was made in between, says that nothing else is left. */
static vmig_status do_work_singly(vmig_machine *m)
{
    static uint8_t dev, pick;
    vmig_status status = VMIG_WORK;
    uint32_t len = 0;
    int held = -1;

    for (int left = 1000; left > 0 && !vmig_refused(status); left--) {
        status = vmig_next(m, &dev, &pick);
        if (status == VMIG_IDLE || held == 256 * dev + pick) break;
        if (!vmig_refused(status) && is_held_back(dev, pick)) {
            if (held < 0) held = 256 * dev + pick;
            continue;
        }
        held = -1;
        if (status == VMIG_SYNC && !bring(dev)) status = vmig_sync_failed(m, dev);
        else if (!vmig_refused(status)) status = vmig_step(m, dev, pick, buf, sizeof buf, &len);
        if (status == VMIG_SENT) hand_on(dev, buf, len);
    }
    return status;
}

/* The guest sends frames, of which each begins with its number, and prints as many messages. */
static void send_and_print(vmig_machine *m, uint32_t first)
{
    for (uint32_t i = first; i < first + FRAMES; i++) {
        uint64_t at = 0xc000 + 64 * i;
        put(m, at + HEADER, i, 8);
        describe(m, SENDS, i, at, HEADER + FRAME, 0, 0);
        make_available(m, SENDS, i + 1, i);
        describe(m, PRINTS, i, at, 1, 0, 0);
        make_available(m, PRINTS, i + 1, i);
    }
    write_reg_of(m, NETWORK, 0x050, 1);
    write_reg_of(m, CONSOLE, 0x050, 1);
}

/* A turn, after which so many frames and messages were sent. */
static void turn(vmig_machine *m, uint32_t frames_wanted, uint32_t messages_wanted, vmig_status wanted)
{
    expect("a turn", do_work_singly(m), wanted);
    expect("frames that were sent", frames, frames_wanted);
    expect("messages that were printed", messages, messages_wanted);
    expect("frames that wait", get(m, AVAIL + NEXT_QUEUE + 2, 2) - get(m, USED + NEXT_QUEUE + 2, 2), messages_wanted - frames_wanted);
}

int main(void)
{
    static const vmig_shape shapes[] = {{.kind = VMIG_NETWORK, .mac = {2, 0, 0, 0, 0, 1}}, {.kind = VMIG_CONSOLE}};
    vmig_machine m = VMIG_NONE;

    expect("make", make_new(16, shapes, 2, &m), VMIG_OK);
    set_up_device(&m, NETWORK, RECEIVES, 2, 0);
    set_up_device(&m, CONSOLE, 2, 2, 0);
    send_and_print(&m, 0);
    room = 2;
    turn(&m, 2, FRAMES, VMIG_WORK);
    turn(&m, 2, FRAMES, VMIG_WORK);
    send_and_print(&m, FRAMES);
    turn(&m, 2, 2 * FRAMES, VMIG_WORK);
    room = 1;
    turn(&m, 3, 2 * FRAMES, VMIG_WORK);
    room = 100;
    turn(&m, 2 * FRAMES, 2 * FRAMES, VMIG_IDLE);
    vmig_free(&m);
    return ended("held_back");
}
