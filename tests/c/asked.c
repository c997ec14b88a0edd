/* Random guests over two disks outside, and a host that does what they ask for in its own time (asked.h); drivers that reset their device, make its
 * queue not ready, or have a malformed chain; a machine that is saved, sent, aborted and moved with requests that wait. Each answer has to meet the
 * request that asked, no older write may land on a newer one, and a read may see no other bytes than those that were written last. Over storage whose
 * blocks have one sector and eight. */
#include "asked.h"

enum { RUNS = 16, EVENTS = 600 };

static struct guest guest;
static uint64_t seen_calls, seen_moves, seen_waits, seen_parts, seen_broken;
static uint8_t stream[STREAM], again[STREAM];

static void answer_some(int fails)
{
    struct out *o = &guest.outs[guest.count_out == 0 ? 0 : draw(guest.count_out)];

    if (guest.count_out == 0 || (!fails && o->landed == 0)) return;
    seen_parts += !fails && o->call.what != VMIG_DISK_FLUSH && o->landed < o->call.count;
    answer(&guest, o, fails);
}

/* None where it is being sent. */
static size_t save(uint8_t *to)
{
    size_t len = 0;

    if (description_of(&guest.m).state == VMIG_IS_IDLE) expect("save", vmig_save(&guest.m, to, STREAM, &len), VMIG_OK);
    return len;
}

/* The driver resets its device, or makes its queue not ready. While a call of it is out neither is done, and nothing has changed. */
static void drop_requests(uint8_t dev)
{
    uint32_t byte, off = draw(2) ? STATUS : QUEUE_READY;

    if (is_out_of(&guest, dev)) {
        size_t before = draw(8) == 0 ? save(stream) : 0;
        expect("a reset with a call out", vmig_reg_write(&guest.m, dev, off, 4, 0, &byte), VMIG_CALLS_OUT);
        expect("of the machine", vmig_reset(&guest.m), VMIG_CALLS_OUT);
        if (before > 0) expect("nothing has changed", save(again), before);
        expect("no byte", (uint64_t)memcmp(stream, again, before), 0);
        seen_waits++;
        return;
    }
    write_reg_of(&guest.m, dev, off, 0);
    if (off == STATUS && draw(4) == 0 && guest.count_out == 0) {
        expect("the machine", vmig_reset(&guest.m), VMIG_OK);
        take_over(&guest, 1 - dev);
    }
    take_over(&guest, dev);
}

/* What a machine with calls out is saved as asks for them anew: the same, and with a number of its own. */
static void continue_elsewhere(void)
{
    static struct guest copy;
    size_t len = save(stream);

    if (guest.count_out > 0) {
        copy.block = guest.block;
        come_elsewhere(&copy, stream, len, 0);
        vmig_free(&copy.m);
        return;
    }
    come_elsewhere(&guest, stream, len, (uint64_t)draw(3) << 40);
    seen_moves++;
}

/* It is sent, and aborted or moved. The stop waits for what is out. */
static void move(void)
{
    uint64_t pages, sectors;
    size_t got = 0;

    if (description_of(&guest.m).state == VMIG_IS_IDLE) {
        expect("begin", vmig_send_begin(&guest.m), VMIG_OK);
        return;
    }
    if (draw(3) == 0) {
        expect("abort", vmig_send_abort(&guest.m), VMIG_OK);
        return;
    }
    expect("some", vmig_refused(vmig_send_some(&guest.m, 1 + draw(PAGES))), 0);
    if (draw(3) != 0) return;
    if (guest.count_out > 0) {
        expect("a stop with a call out", vmig_send_stop(&guest.m, &pages, &sectors), VMIG_CALLS_OUT);
        seen_waits++;
        return;
    }
    expect("stop", vmig_send_stop(&guest.m, &pages, &sectors), VMIG_OK);
    expect("no sector", sectors, 0);
    expect("stopped", vmig_disk_call(&guest.m, &guest.outs[0].call, guest.outs[0].bytes, SECTOR), VMIG_STOPPED);
    expect("take", vmig_send_take(&guest.m, stream, sizeof stream, &got), VMIG_OK);
    expect("abort", vmig_send_abort(&guest.m), VMIG_OK);
    continue_elsewhere();
}

static void happen(void)
{
    uint8_t dev = (uint8_t)draw(DISKS);

    switch (draw(24)) {
    case 0: case 1: case 2: case 3: offer_something(&guest, dev); break;
    case 4: case 5: case 6: seen_broken += work(&guest); break;
    case 7: case 8: case 9: case 10: seen_calls += (uint64_t)ask_for_a_call(&guest); break;
    case 11: case 12: case 13: case 14: case 15:
        if (guest.count_out > 0) land(&guest, &guest.outs[draw(guest.count_out)]);
        break;
    case 16: case 17: case 18: answer_some(0); break;
    case 19: answer_some(draw(3) == 0); break;
    case 20: drop_requests(dev); break;
    case 21:
        if (draw(4) == 0) seen_broken += break_device(&guest, dev);
        break;
    case 22:
        if (draw(8) == 0 && description_of(&guest.m).state == VMIG_IS_IDLE) continue_elsewhere();
        break;
    default: move(); break;
    }
    check_listed(&guest);
}

int main(void)
{
    for (uint32_t i = 0; i < RUNS && failures == 0; i++) {
        begin_guest(&guest, i % 2 == 0 ? 1 : 8, 0);
        for (uint32_t k = 0; k < EVENTS && failures == 0; k++) happen();
        if (failures == 0) finish_guest(&guest);
        vmig_free(&guest.m);
    }
    expect("calls, moves and waits were seen", seen_calls > 400 && seen_moves > 8 && seen_waits > 100, 1);
    expect("and parts and resets", seen_parts > 60 && seen_broken > 20, 1);
    return ended("asked");
}
