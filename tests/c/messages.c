/* Two messages of a guest, and one step after the other. A step puts its message into the caller's buffer, so a host hands each
 * one on before the next step. The second half breaks this rule on purpose: all messages but the last are lost. */
#include "driver.h"

enum { FIRST = DATA, SECOND = DATA + 0x100 };

static uint8_t buf[VMIG_SENT_MAX];

/* What went out to the terminal. */
static char terminal[64];
static size_t written;

static void hand_on(const uint8_t *bytes, uint32_t len)
{
    if (written + len > sizeof terminal) return;
    memcpy(terminal + written, bytes, len);
    written += len;
}

/* The guest makes two messages available, as its chains `count` and `count` + 1. */
static void send_two(vmig_machine *m, uint32_t count)
{
    expect("put", vmig_ram_write(m, FIRST, (const uint8_t *)"one, ", 5), VMIG_OK);
    expect("put", vmig_ram_write(m, SECOND, (const uint8_t *)"two.", 4), VMIG_OK);
    describe(m, 1, 0, FIRST, 5, 0, 0);
    describe(m, 1, 1, SECOND, 4, 0, 0);
    offer(m, 1, count, 0);
    offer(m, 1, count + 1, 1);
}

/* The interrupt lines as the guest has them. */
static uint32_t lines;

/* Brings the disk of a device to its file, by msync where it is mapped: 1 where that goes well. This host has no disk. */
static int bring(uint8_t dev)
{
    (void)dev;
    return 1;
}

/* What a host does after each kick and each input, in turn from where it was: VMIG_IDLE where nothing is left to do, and VMIG_WORK where
 * there is more. The bound is for a guest that gives its devices work without end. A step that is refused memory ends the turn, and the
 * next turn begins behind it: so it keeps no other waiting. */
static vmig_status do_work(vmig_machine *m)
{
    static vmig_turn turn = VMIG_TURN;
    uint32_t len = 0;
    vmig_status status;

    turn.left = 1000;
    do {
        status = vmig_work(m, &turn, buf, sizeof buf);
        if (status == VMIG_SENT) hand_on(buf, turn.len);
        if (status == VMIG_SYNC && !bring(turn.dev)) status = vmig_sync_failed(m, turn.dev);
        else if (status == VMIG_SYNC) status = vmig_step(m, turn.dev, turn.pick, buf, sizeof buf, &len);
    } while (status != VMIG_IDLE && status != VMIG_WORK && !vmig_refused(status));
    lines = vmig_lines(m);
    if (status == VMIG_NO_MEMORY) status = vmig_next(m, &turn.dev, &turn.pick);
    return status;
}

/* The rule kept. */
static void each_is_handed_on(vmig_machine *m)
{
    send_two(m, 1);
    written = 0;
    expect("a turn", do_work(m), VMIG_IDLE);
    expect("an interrupt", lines, 1);
    expect("length of both", written, 9);
    expect("both", (uint64_t)memcmp(terminal, "one, two.", 9), 0);
}

/* The rule broken: the buffer is looked at when the device has become idle. */
static void only_the_last_is_there(vmig_machine *m)
{
    uint32_t len = 77, status;

    send_two(m, 3);
    written = 0;
    do status = vmig_step(m, 0, 1, buf, sizeof buf, &len); while (status != VMIG_IDLE);
    hand_on(buf, len);
    expect("length of what is left", written, 4);
    expect("the first message is lost", (uint64_t)memcmp(terminal, "two.", 4), 0);
}

int main(void)
{
    static const vmig_shape shapes[] = {{.kind = VMIG_CONSOLE}};
    vmig_machine m = VMIG_NONE;

    expect("make", make_new(16, shapes, 1, &m), VMIG_OK);
    set_up(&m, 2);
    each_is_handed_on(&m);
    only_the_last_is_there(&m);
    vmig_free(&m);
    return ended("messages");
}
