/* Two machines side by side with one guest and one host. Of one a call is made while its RAM is lent; of the other the same call, once RAM is back.
 * Each call that is done while lent answers the same in both, and both are the same machines in the end, byte for byte: of random guests over disks
 * outside (asked.h), a console and an entropy device, with calls that are out, idle or being sent. Of the answer of a read the first one is
 * VMIG_LENT. */
#include "asked.h"

enum { ROUNDS = 500, CALLS = 12 };
enum { REG_READ, REG_WRITE, INPUT, ROOM, RESIZE, DROP, RESET, NEXT, SYNC_FAILED, DONE, DISK_FAILED, CALLS_OUT, WRITTEN, LINES, SEND_LEFT, SEND_TAKE };
enum { KINDS = SEND_TAKE + 1 };

/* A call and its arguments. */
struct made {
    uint32_t kind, off, value;
    uint8_t dev, pick;
    vmig_call call;                     /* that is answered */
};

/* What it answered. */
struct answered {
    vmig_status status;
    uint64_t words[4];
    uint8_t bytes[600];
};

static struct guest lent, kept;
static uint64_t seen[KINDS], seen_refused;
static uint8_t stream[STREAM], again[STREAM];

/* Both do the same: what is drawn for one is drawn for the other. */
#define BOTH(action) \
    do { \
        uint64_t before = drawn; \
        { struct guest *g = &lent; action; } \
        drawn = before; \
        { struct guest *g = &kept; action; } \
    } while (0)

/* ---- a call -------------------------------------------------------------------------------------------------------------------- */

static const uint32_t OFFSETS[] = {0x000, 0x010, 0x030, 0x034, QUEUE_READY, NOTIFY, 0x060, 0x064, STATUS, 0x0fc, 0x100, 0x104};

/* A call that is out, or one that is not. */
static vmig_call draw_call(const struct guest *g)
{
    if (g->count_out == 0 || draw(6) == 0) return (vmig_call){.number = draw(4), .what = VMIG_DISK_WRITE, .count = 1};
    return g->outs[draw(g->count_out)].call;
}

static struct made draw_made(const struct guest *g)
{
    struct made m = {.kind = draw(KINDS), .dev = (uint8_t)draw(DEVICES + 1), .pick = (uint8_t)draw(9)};

    m.off = OFFSETS[draw(sizeof OFFSETS / sizeof *OFFSETS)];
    m.value = m.off == STATUS || m.off == QUEUE_READY ? (draw(4) ? 0xf : 0) : draw(3);
    m.call = draw_call(g);
    if (m.kind == DONE && m.call.what == VMIG_DISK_READ) m.kind = DISK_FAILED;
    return m;
}

static vmig_status hand_in(vmig_machine *m, const vmig_call *call)
{
    return vmig_disk_done(m, call->number, call->what == VMIG_DISK_FLUSH ? 0 : 1 + draw(call->count + 1), NULL, 0);
}

static vmig_status make_call(vmig_machine *m, const struct made *c, struct answered *a)
{
    size_t size = 0;
    uint32_t value = 0;
    vmig_left left = {0};
    vmig_status status = VMIG_OK;

    switch (c->kind) {
    case REG_READ: status = vmig_reg_read(m, c->dev, c->off, 4, &value); break;
    case REG_WRITE: status = vmig_reg_write(m, c->dev, c->off, 4, c->value, &value); break;
    case INPUT: status = vmig_input(m, c->dev, (const uint8_t *)"some bytes", 1 + c->pick, &size); break;
    case ROOM: status = vmig_room(m, c->dev, &size); break;
    case RESIZE: status = vmig_resize(m, c->dev, (uint16_t)c->value, c->pick); break;
    case DROP: status = vmig_drop(m, c->dev); break;
    case RESET: status = vmig_reset(m); break;
    case SYNC_FAILED: status = c->pick == 0 ? vmig_sync_failed(m, c->dev) : VMIG_OK; break;
    case DONE: status = hand_in(m, &c->call); break;
    case DISK_FAILED: status = vmig_disk_failed(m, c->call.number); break;
    case CALLS_OUT: status = vmig_calls_out(m, (vmig_call *)(void *)a->bytes, c->pick, &size); break;
    case WRITTEN: status = vmig_written(m, (uint32_t *)(void *)a->bytes, c->pick, &size); break;
    case LINES: value = vmig_lines(m); break;
    case SEND_LEFT: status = vmig_send_left(m, &left); break;
    case SEND_TAKE: status = vmig_send_take(m, a->bytes, sizeof a->bytes, &size); break;
    default: break;
    }
    a->words[0] = value, a->words[1] = size, a->words[2] = left.due_pages, a->words[3] = left.stop_bytes;
    return status;
}

static void answer_to(vmig_machine *m, const struct made *c, struct answered *a)
{
    uint8_t dev = c->dev, pick = c->pick;

    memset(a, 0, sizeof *a);
    if (c->kind != NEXT) {
        a->status = make_call(m, c, a);
        return;
    }
    a->status = vmig_next(m, &dev, &pick);
    a->words[0] = dev, a->words[1] = pick;
}

/* The read of a call that is out is not answered while RAM is lent, and nothing changes. */
static void refuse_reads(struct guest *g)
{
    for (uint32_t i = 0; i < g->count_out; i++) {
        const struct out *o = &g->outs[i];
        if (o->call.what != VMIG_DISK_READ) continue;
        seen_refused++;
        expect("a read", vmig_disk_done(&g->m, o->call.number, 1, o->bytes, SECTOR), VMIG_LENT);
    }
}

/* ---- a round ------------------------------------------------------------------------------------------------------------------- */

/* Drivers take both disks over, and ask for something; some of it is out. */
static void begin_round(struct guest *g)
{
    for (uint8_t dev = 0; dev < DISKS; dev++) take_over(g, dev);
    for (uint32_t i = draw(12); i > 0; i--) offer_something(g, (uint8_t)draw(DISKS));
    serve(&g->m);
    for (uint32_t i = draw(10); i > 0; i--) ask_for_a_call(g);
}

/* Nothing is out any more, and all that was asked is forgotten. */
static void forget_all(struct guest *g)
{
    vmig_call calls[OUT_MAX];
    size_t count = 0;

    expect("calls", vmig_calls_out(&g->m, calls, OUT_MAX, &count), VMIG_OK);
    for (size_t i = 0; i < count; i++) expect("failed", vmig_disk_failed(&g->m, calls[i].number), VMIG_OK);
    g->count_out = 0;
    if (description_of(&g->m).state == VMIG_IS_SENDING) expect("abort", vmig_send_abort(&g->m), VMIG_OK);
}

/* What was sent of both, which are aborted then. */
static void compare_sent(void)
{
    size_t len[2] = {0, 0};

    BOTH(expect("some", (uint64_t)vmig_refused(vmig_send_some(&g->m, draw(PAGES))), 0));
    expect("take", vmig_send_take(&lent.m, stream, STREAM, &len[0]), VMIG_OK);
    expect("take", vmig_send_take(&kept.m, again, STREAM, &len[1]), VMIG_OK);
    expect("the same streams", len[0] == len[1] && memcmp(stream, again, len[0]) == 0, 1);
    BOTH(expect("abort", vmig_send_abort(&g->m), VMIG_OK));
}

/* Both are the same: what they say of themselves, their streams, and what is out of them. */
static void compare(void)
{
    vmig_description one = description_of(&lent.m), other = description_of(&kept.m);
    vmig_call calls[2][OUT_MAX];
    size_t count[2], len[2] = {0, 0};

    memset(calls, 0, sizeof calls);
    expect("they say the same", (uint64_t)memcmp(&one, &other, sizeof one), 0);
    expect("calls", vmig_calls_out(&lent.m, calls[0], OUT_MAX, &count[0]), VMIG_OK);
    expect("calls", vmig_calls_out(&kept.m, calls[1], OUT_MAX, &count[1]), VMIG_OK);
    expect("the same are out", count[0] == count[1] && memcmp(calls[0], calls[1], sizeof calls[0]) == 0, 1);
    if (one.state == VMIG_IS_SENDING) compare_sent();
    expect("save", vmig_save(&lent.m, stream, STREAM, &len[0]), VMIG_OK);
    expect("save", vmig_save(&kept.m, again, STREAM, &len[1]), VMIG_OK);
    expect("the same machines", len[0] == len[1] && memcmp(stream, again, len[0]) == 0, 1);
}

static void make_calls(struct made made[CALLS], struct guest *g, struct answered answers[CALLS])
{
    for (uint32_t i = 0; i < CALLS; i++) answer_to(&g->m, &made[i], &answers[i]);
}

static void do_round(void)
{
    static struct made made[CALLS];
    static struct answered one[CALLS], other[CALLS];
    uint64_t before;

    BOTH(begin_round(g));
    if (draw(2)) BOTH(expect("begin", vmig_send_begin(&g->m), VMIG_OK));
    for (uint32_t i = 0; i < CALLS; i++) made[i] = draw_made(&lent);
    lend(&lent);
    lend(&kept);
    refuse_reads(&lent);
    before = drawn;
    make_calls(made, &lent, one);
    BOTH(expect("back", give_back_list(&g->m, &g->ram, NULL, 0), VMIG_OK));
    drawn = before;
    make_calls(made, &kept, other);
    for (uint32_t i = 0; i < CALLS; i++) {
        if (memcmp(&one[i], &other[i], sizeof one[i]) != 0) expect("the same answer of call", made[i].kind, KINDS);
        seen[made[i].kind] += !vmig_refused(one[i].status);
    }
    BOTH(serve(&g->m));
    compare();
    BOTH(forget_all(g));
}

int main(void)
{
    begin_guest(&lent, 1, 0);
    drawn = 88172645463325252;
    begin_guest(&kept, 1, 0);
    for (uint32_t i = 0; i < ROUNDS && failures == 0; i++) do_round();
    for (uint32_t kind = 0; kind < KINDS; kind++) expect("each call was done", seen[kind] > 10, 1);
    expect("and a read was refused", seen_refused > 100, 1);
    vmig_free(&lent.m);
    vmig_free(&kept.m);
    return ended("lent_twin");
}
