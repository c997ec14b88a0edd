/* A host that does nothing but what vmig_next names: it makes a turn on VMIG_WORK and VMIG_SYNC, asks for calls on VMIG_CALL, and sleeps on VMIG_IDLE
 * until the guest or its storage wakes it. Random guests (asked.h) with moves, aborts, drains and saves, with RAM that is lent and that is not: no
 * request hangs. */
#include "asked.h"

enum { RUNS = 10, STEPS = 1000 };

static struct guest guest;
static uint64_t seen_calls, seen_lent, seen_moves, seen_aborts, seen_saves, seen_drains;
static uint8_t stream[STREAM];

static int is_lent(void)
{
    return guest.ram.len != 0;
}

/* The host was woken: it does what is named, until nothing is. RAM comes back for it, and is lent again. */
static void wake(void)
{
    uint8_t dev = 0, pick = 0;
    int was_lent = is_lent();

    for (uint32_t turns = 0; turns < 1000; turns++) {
        vmig_status next = vmig_next(&guest.m, &dev, &pick);
        if (next == VMIG_IDLE) break;
        if (is_lent()) back(&guest);
        if (next == VMIG_CALL) {
            expect("a call", (uint64_t)ask_for_a_call(&guest), 1);
            seen_calls++;
            seen_lent += (uint64_t)was_lent;
        } else {
            expect("work", next == VMIG_WORK || next == VMIG_SYNC, 1);
            work(&guest);
        }
        expect("it comes to rest", turns < 999, 1);
    }
    if (was_lent && !is_lent()) lend(&guest);
}

/* The guest offers requests, and kicks its device: that wakes the host. */
static void offer_one(void)
{
    int was_lent = is_lent();

    if (was_lent) back(&guest);
    offer_something(&guest, (uint8_t)draw(DISKS));
    if (was_lent) lend(&guest);
    wake();
}

/* A call is over, and its answer wakes the host. A read's answer waits for RAM. */
static void answer_one(int wakes)
{
    struct out *o = &guest.outs[guest.count_out == 0 ? 0 : draw(guest.count_out)];
    int is_read = guest.count_out > 0 && o->call.what == VMIG_DISK_READ;

    if (guest.count_out == 0) return;
    for (uint32_t i = draw(MOST); i < MOST; i++) land(&guest, o);
    if (is_lent() && is_read) back(&guest);
    answer(&guest, o, draw(10) == 0 || o->landed == 0);
    if (wakes) wake();
}

/* All that is out is answered, as before a stop, and no turn is made. */
static void drain(void)
{
    if (is_lent()) back(&guest);
    while (guest.count_out > 0) answer_one(0);
    seen_drains++;
}

/* A save that goes on elsewhere, over the same storage. */
static void save(void)
{
    size_t len = 0;

    if (description_of(&guest.m).state != VMIG_IS_IDLE) return;
    drain();
    expect("save", vmig_save(&guest.m, stream, sizeof stream, &len), VMIG_OK);
    come_elsewhere(&guest, stream, len, (uint64_t)draw(3) << 40);
    seen_saves++;
    wake();
}

/* It is sent: to the end, or until it is aborted, before its stop or after it. What waited before waits to be named then. */
static void move(void)
{
    size_t len;

    if (is_lent()) back(&guest);
    if (description_of(&guest.m).state == VMIG_IS_IDLE) {
        expect("begin", vmig_send_begin(&guest.m), VMIG_OK);
        return;
    }
    if (draw(3) == 0) {
        expect("abort", vmig_send_abort(&guest.m), VMIG_OK);
        seen_aborts++;
        wake();
        return;
    }
    drain();
    len = stop(&guest, stream);
    if (draw(2) == 0) {
        expect("abort", vmig_send_abort(&guest.m), VMIG_OK);
        seen_aborts++;
    } else {
        come_elsewhere(&guest, stream, len, (uint64_t)draw(3) << 40);
        seen_moves++;
    }
    wake();
}

static void happen(void)
{
    switch (draw(16)) {
    case 0: case 1: case 2: case 3: case 4: offer_one(); break;
    case 5: case 6: case 7: case 8: answer_one(1); break;
    case 9: case 10:
        if (guest.count_out > 0) land(&guest, &guest.outs[draw(guest.count_out)]);
        break;
    case 11:
        if (is_lent()) back(&guest);
        else lend(&guest);
        break;
    case 12: drain(); wake(); break;
    case 13: save(); break;
    default: move(); break;
    }
}

/* Storage answers all that is out, again and again, and each answer wakes the host. At rest no request waits. */
static void come_to_rest(void)
{
    wake();
    for (uint32_t answers = 0; guest.count_out > 0 && answers < 10000 && failures == 0; answers++) answer_one(1);
    expect("no call is out", guest.count_out, 0);
    if (is_lent()) back(&guest);
    look(&guest);
    expect("no request hangs", (uint64_t)has_requests(&guest), 0);
}

int main(void)
{
    for (uint32_t i = 0; i < RUNS && failures == 0; i++) {
        begin_guest(&guest, i % 2 == 0 ? 1 : 8, 0);
        for (uint32_t k = 1; k <= STEPS && failures == 0; k++) {
            happen();
            if (k % 50 == 0 && failures == 0) come_to_rest();
        }
        vmig_free(&guest.m);
    }
    expect("calls, and work while RAM was lent", seen_calls > 500 && seen_lent > 50, 1);
    expect("moves, aborts, saves and drains", seen_moves > 20 && seen_aborts > 40 && seen_saves > 40 && seen_drains > 100, 1);
    return ended("woken");
}
