/* Disks outside that are lost, for their storage may have lost what it answered: from then on no flush, and no write or clearing that has to be
 * durable, is told done, also none that was out, whatever its host answers; and all else is served as before. For drivers with the feature FLUSH and
 * without; through resets, reboots and moves, after which the target is told by its host; idle, being sent, and while RAM is lent. First one by one,
 * then by random guests (asked.h). */
#include "asked.h"

enum { RUNS = 32, EVENTS = 500, GOOD = 0 };

static struct guest guest;
static uint64_t seen_failed, seen_out, seen_plain, seen_resets, seen_moves, seen_lent;
static uint8_t stream[STREAM];

/* ---- one by one ------------------------------------------------------------------------------------------------------------------ */

/* A driver with these features, whose first requests are of both disks alike. */
static void begin(uint32_t features)
{
    begin_guest(&guest, 1, 0);
    for (uint8_t dev = 0; dev < DISKS; dev++) {
        guest.disks[dev].features = features;
        set_up_device(&guest.m, dev, dev, 1, features);
    }
}

static void offer_at(uint8_t dev, uint32_t slot, uint32_t kind, uint64_t first)
{
    struct request *r = &guest.disks[dev].requests[slot];

    *r = (struct request){.kind = kind, .serial = ++guest.serials, .count = 1, .first = first};
    publish(&guest, dev, slot);
}

static void ask_all(uint32_t wanted)
{
    serve(&guest.m);
    while (ask_for_a_call(&guest)) continue;
    expect("all are out", guest.count_out, wanted);
}

static uint64_t verdict_of(uint8_t dev, uint32_t slot)
{
    return get(&guest.m, VERDICTS + dev * 0x40u + slot, 1);
}

static void lose(uint8_t dev)
{
    vmig_description before = description_of(&guest.m), after;

    expect("lost", vmig_sync_failed(&guest.m, dev), VMIG_OK);
    guest.disks[dev].is_lost = 1;
    after = description_of(&guest.m);
    expect("its bit", after.lost, before.lost | 1u << dev);
    before.lost = after.lost;
    expect("and nothing else", (uint64_t)memcmp(&before, &after, sizeof before), 0);
}

/* All that is out is done, as its storage says, and answered so. */
static void answer_done(void)
{
    while (guest.count_out > 0) {
        land_all(&guest, &guest.outs[0]);
        answer(&guest, &guest.outs[0], 0);
    }
}

/* A read, a write, a clearing and a flush of each disk, of which one is lost: while they are out, or before they are asked for. */
static void four_of_each(uint32_t features, int is_out, int is_lent)
{
    static const uint32_t kinds[] = {IN, OUT, CLEAR, FLUSH};
    int is_durable = !(features & FLUSH_FEATURE);

    begin(features | WRITE_ZEROES);
    if (!is_out) lose(1);
    for (uint8_t dev = 0; dev < DISKS; dev++)
        for (uint32_t slot = 0; slot < 4; slot++) offer_at(dev, slot, kinds[slot], kinds[slot] == FLUSH ? 0 : 4 * slot);
    ask_all(8);
    if (is_lent) lend(&guest);
    if (is_out) lose(1);
    if (is_lent) {
        for (uint32_t i = guest.count_out; i-- > 0;) {
            struct out *o = &guest.outs[i];
            land_all(&guest, o);
            if (o->call.what != VMIG_DISK_READ) answer(&guest, o, 0);
        }
        back(&guest);
    }
    answer_done();
    serve(&guest.m);
    for (uint32_t slot = 0; slot < 4; slot++) {
        int fails = kinds[slot] == FLUSH || (is_durable && kinds[slot] != IN);
        expect("of a disk that is not lost", verdict_of(0, slot), GOOD);
        expect("of one that is", verdict_of(1, slot), fails ? IOERR : GOOD);
    }
    look(&guest);
    vmig_free(&guest.m);
}

/* What is lost stays lost: a flush and a write of a driver without FLUSH fail after each of these. */
static void fails_still(const char *what)
{
    take_over(&guest, 0);
    set_up_device(&guest.m, 0, 0, 1, 0);
    guest.disks[0].features = 0;
    offer_at(0, 0, OUT, 3);
    offer_at(0, 1, IN, 9);
    ask_all(2);
    answer_done();
    serve(&guest.m);
    expect(what, verdict_of(0, 0), IOERR);
    expect("a read is served", verdict_of(0, 1), GOOD);
    look(&guest);
}

static void stays_lost(void)
{
    size_t len = 0;

    begin(0);
    lose(0);
    fails_still("at first");
    write_reg_of(&guest.m, 0, STATUS, 0);
    fails_still("after a driver's reset");
    expect("reboot", vmig_reset(&guest.m), VMIG_OK);
    expect("it is lost still", description_of(&guest.m).lost, 1);
    fails_still("after a reboot");
    expect("begin", vmig_send_begin(&guest.m), VMIG_OK);
    fails_still("while it is sent");
    len = stop(&guest, stream);
    expect("its state says it", description_of(&guest.m).lost, 1);
    come_elsewhere(&guest, stream, len, 0);
    expect("the target was told", description_of(&guest.m).lost, 1);
    fails_still("after a move");
    lose(0);
    fails_still("when it is lost once more");
    vmig_free(&guest.m);
}

/* A write that is done in parts, of which one was answered before the loss: what it lacks is asked for, and it fails. */
static void in_parts(void)
{
    struct request *r = &guest.disks[0].requests[0];

    begin(0);
    *r = (struct request){.kind = OUT, .serial = ++guest.serials, .count = 3, .first = 5};
    publish(&guest, 0, 0);
    ask_all(1);
    land(&guest, &guest.outs[0]);
    answer(&guest, &guest.outs[0], 0);
    lose(0);
    serve(&guest.m);
    expect("it has not ended", verdict_of(0, 0), TOLD_LATER);
    ask_all(guest.count_out + 1);
    answer_done();
    serve(&guest.m);
    expect("it fails", verdict_of(0, 0), IOERR);
    look(&guest);
    vmig_free(&guest.m);
}

/* ---- random guests --------------------------------------------------------------------------------------------------------------- */

static void answer_one(int fails)
{
    struct out *o = &guest.outs[guest.count_out == 0 ? 0 : draw(guest.count_out)];

    if (guest.count_out == 0 || (!fails && o->landed == 0)) return;
    if (!fails && guest.disks[o->call.dev].is_lost) {
        seen_failed += (uint64_t)makes_durable(&o->call);
        seen_plain += !makes_durable(&o->call);
    }
    answer(&guest, o, fails);
}

/* It is lost with calls out, half of the times while RAM is lent, where all but reads are answered. */
static void lose_one(uint8_t dev)
{
    int is_lent = draw(2) == 0;

    seen_out += (uint64_t)is_out_of(&guest, dev);
    if (is_lent) lend(&guest);
    lose(dev);
    for (uint32_t i = guest.count_out; is_lent && i-- > 0;) {
        struct out *o = &guest.outs[i];
        if (o->call.what == VMIG_DISK_READ || o->landed == 0) continue;
        seen_lent += (uint64_t)(makes_durable(&o->call) && guest.disks[o->call.dev].is_lost);
        answer(&guest, o, 0);
    }
    if (is_lent) back(&guest);
}

static void reset(uint8_t dev)
{
    if (is_out_of(&guest, dev)) return;
    write_reg_of(&guest.m, dev, STATUS, 0);
    take_over(&guest, dev);
    seen_resets += (uint64_t)guest.disks[dev].is_lost;
}

/* It begins to be sent, is aborted, or is moved once nothing of it is out. */
static void move(void)
{
    if (description_of(&guest.m).state == VMIG_IS_IDLE) {
        expect("begin", vmig_send_begin(&guest.m), VMIG_OK);
    } else if (draw(2) == 0) {
        expect("abort", vmig_send_abort(&guest.m), VMIG_OK);
    } else {
        answer_all(&guest);
        come_elsewhere(&guest, stream, stop(&guest, stream), (uint64_t)draw(3) << 40);
        seen_moves += description_of(&guest.m).lost != 0;
    }
}

static void happen(uint32_t event)
{
    uint8_t dev = (uint8_t)draw(DISKS);

    switch (draw(18)) {
    case 0: case 1: case 2: case 3: offer_something(&guest, dev); break;
    case 4: case 5: work(&guest); break;
    case 6: case 7: case 8: ask_for_a_call(&guest); break;
    case 9: case 10: case 11:
        if (guest.count_out > 0) land(&guest, &guest.outs[draw(guest.count_out)]);
        break;
    case 12: case 13: case 14: answer_one(0); break;
    case 15: answer_one(draw(4) == 0); break;
    case 16:
        if (draw(3) == 0) reset(dev);
        break;
    default:
        if (draw(4) == 0) move();
        break;
    }
    if (event == EVENTS / 4) lose_one(0);
    if (event == EVENTS / 2) lose_one(1);
    expect("what is lost", description_of(&guest.m).lost, (uint64_t)(guest.disks[0].is_lost + 2 * guest.disks[1].is_lost));
}

int main(void)
{
    for (int i = 0; i < 8; i++) four_of_each(i & 1 ? FLUSH_FEATURE : 0, i & 2, i & 4);
    stays_lost();
    in_parts();
    for (uint32_t i = 0; i < RUNS && failures == 0; i++) {
        begin_guest(&guest, i % 2 == 0 ? 1 : 8, 0);
        for (uint32_t k = 0; k < EVENTS && failures == 0; k++) happen(k);
        if (failures == 0) finish_guest(&guest);
        vmig_free(&guest.m);
    }
    expect("all of it was seen", seen_failed > 40 && seen_out > 10 && seen_plain > 40 && seen_resets > 20 && seen_moves > 5 && seen_lent > 5, 1);
    return ended("lost");
}
