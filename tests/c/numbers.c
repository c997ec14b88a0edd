/* Random guests over two machines, and one pool of calls: answers that are handed to the wrong machine, late, after their machine was freed and
 * another one was made in its handle, and twice. Each is VMIG_NOT_OUT, and changes nothing: no request is told anything, and no byte is another than
 * the model's. The numbers of each machine are its own, for it is told where they begin (asked.h). */
#include "asked.h"

enum { GUESTS = 2, RUNS = 12, EVENTS = 700, LATE = 64 };

static struct guest guests[GUESTS];
static uint64_t machines, late[LATE];
static uint32_t count_late;
static uint64_t seen_wrong, seen_late, seen_freed;
static uint8_t stream[STREAM], again[STREAM];

/* 2^40 numbers that no other machine of this process has. */
static uint64_t own_numbers(void)
{
    return machines++ << 40;
}

/* An answer that is late by a machine, or more: it was out of one that was freed. */
static void remember(uint64_t number)
{
    late[count_late++ % LATE] = number;
}

static vmig_status hand_in(struct guest *g, const vmig_call *call, const uint8_t *bytes, uint32_t count)
{
    int is_read = call->what == VMIG_DISK_READ;

    if (draw(3) == 0) return vmig_disk_failed(&g->m, call->number);
    return vmig_disk_done(&g->m, call->number, call->what == VMIG_DISK_FLUSH ? 0 : count, is_read ? bytes : NULL, is_read ? count * SECTOR : 0);
}

/* An answer that no call of this machine is out for. Nothing changes, which is looked at where a save says it. */
static void is_not_out(struct guest *g, const vmig_call *call, const uint8_t *bytes)
{
    size_t before = 0, after = 0;
    int is_looked_at = draw(8) == 0 && description_of(&g->m).state == VMIG_IS_IDLE;

    if (is_looked_at) expect("save", vmig_save(&g->m, stream, sizeof stream, &before), VMIG_OK);
    expect("an answer of another machine", hand_in(g, call, bytes, call->count), VMIG_NOT_OUT);
    if (!is_looked_at) return;
    expect("save", vmig_save(&g->m, again, sizeof again, &after), VMIG_OK);
    expect("nothing has changed", after == before && memcmp(stream, again, before) == 0, 1);
}

/* A call of the pool is over: its answer goes to the wrong machine first, and once more when it was taken. */
static void answer_one(struct guest *g)
{
    struct out o;

    if (g->count_out == 0) return;
    o = g->outs[draw(g->count_out)];
    for (uint32_t k = 0; k < GUESTS; k++) {
        if (&guests[k] == g) continue;
        is_not_out(&guests[k], &o.call, o.bytes);
        seen_wrong++;
    }
    for (uint32_t i = 0; i < g->count_out; i++)
        if (g->outs[i].call.number == o.call.number) answer(g, &g->outs[i], draw(6) == 0 || g->outs[i].landed == 0);
    is_not_out(g, &o.call, o.bytes);
}

/* A late answer, to any machine: it may name a call that this machine's handle had once, with another machine. */
static void answer_late(struct guest *g)
{
    static const uint8_t bytes[SECTOR] = {0xee};
    vmig_call call = {.what = VMIG_DISK_READ, .count = 1};

    if (count_late == 0) return;
    call.number = late[draw(count_late < LATE ? count_late : LATE)];
    is_not_out(g, &call, bytes);
    seen_late++;
}

/* The machine is freed with what is out of it, and another one is made in its handle. Storage keeps what has landed. */
static void begin_anew(struct guest *g)
{
    uint64_t from = own_numbers();

    for (uint32_t i = 0; i < g->count_out; i++) remember(g->outs[i].call.number);
    seen_freed += g->count_out > 0;
    vmig_free(&g->m);
    begin_guest(g, g->block, from);
}

/* It moves, none of its calls being out, and gets numbers of its own there. */
static void move(struct guest *g)
{
    size_t len;

    answer_all(g);
    expect("begin", vmig_send_begin(&g->m), VMIG_OK);
    len = stop(g, stream);
    if (g->numbers > 0) remember(g->numbers - 1);
    come_elsewhere(g, stream, len, own_numbers());
}

static void happen(void)
{
    struct guest *g = &guests[draw(GUESTS)];

    switch (draw(20)) {
    case 0: case 1: case 2: case 3: offer_something(g, (uint8_t)draw(DISKS)); break;
    case 4: case 5: work(g); break;
    case 6: case 7: case 8: case 9: ask_for_a_call(g); break;
    case 10: case 11: case 12:
        if (g->count_out > 0) land(g, &g->outs[draw(g->count_out)]);
        break;
    case 13: case 14: case 15: answer_one(g); break;
    case 16: case 17: answer_late(g); break;
    case 18:
        if (draw(8) == 0) begin_anew(g);
        break;
    default:
        if (draw(8) == 0) move(g);
        break;
    }
    check_listed(g);
}

int main(void)
{
    for (uint32_t i = 0; i < RUNS && failures == 0; i++) {
        for (uint32_t k = 0; k < GUESTS; k++) begin_guest(&guests[k], i % 2 == 0 ? 1 : 8, own_numbers());
        for (uint32_t k = 0; k < EVENTS && failures == 0; k++) happen();
        for (uint32_t k = 0; k < GUESTS; k++) {
            if (failures == 0) finish_guest(&guests[k]);
            vmig_free(&guests[k].m);
        }
    }
    expect("wrong, late and freed ones were seen", seen_wrong > 500 && seen_late > 300 && seen_freed > 10, 1);
    return ended("numbers");
}
