/* A machine is sent and received at the same time: the bytes that wait on one side are fed on the other, a few at a time. */
#include "driver.h"

enum { PAGES = 16, SECTORS = 3 };

/* Hands over all that waits, in pieces of one size, of which the last is answered by this status. */
static void hand_over(vmig_machine *source, vmig_machine *target, size_t size, vmig_status last)
{
    uint8_t piece[512];
    vmig_status status;
    size_t got = 0;

    do {
        expect("take", vmig_send_take(source, piece, size, &got), VMIG_OK);
        status = vmig_feed(target, piece, got);
        if (got == 0) expect("at the end", status, last);
        else if (status != last) expect("feed", status, VMIG_OK);
    } while (got > 0);
}

/* What arrives is no machine yet. */
static void is_no_machine(vmig_machine *m)
{
    uint8_t buf[16] = {7};
    uint32_t number = 77;
    size_t len = 77, kept = 77;
    vmig_left left = {.due_pages = 77};
    vmig_arrival arrival = VMIG_ARRIVAL;

    expect("register", vmig_reg_read(m, 0, 0, 4, &number), VMIG_NO_MACHINE);
    expect("RAM read", vmig_ram_read(m, 0, buf, sizeof buf), VMIG_NO_MACHINE);
    expect("RAM write", vmig_ram_write(m, 0, buf, sizeof buf), VMIG_NO_MACHINE);
    expect("step", vmig_step(m, 0, 0, buf, 0, &number), VMIG_NO_MACHINE);
    expect("input", vmig_input(m, 0, buf, sizeof buf, &kept), VMIG_NO_MACHINE);
    expect("save", vmig_save(m, buf, sizeof buf, &len), VMIG_NO_MACHINE);
    expect("begin", vmig_send_begin(m), VMIG_NO_MACHINE);
    expect("take", vmig_send_take(m, buf, sizeof buf, &len), VMIG_NO_MACHINE);
    expect("left", vmig_send_left(m, &left), VMIG_NO_MACHINE);
    expect("abort", vmig_send_abort(m), VMIG_NO_MACHINE);
    expect("lines", vmig_lines(m), 0);
    expect("nothing told", number + left.due_pages + kept + len + buf[0], 4 * 77 + 7);
    expect("in use", vmig_arrive(&arrival, m), VMIG_IN_USE);
}

/* Sends all rounds of a machine that is being sent, and hands over the bytes of each item at once. */
static void send_all(vmig_machine *source, vmig_machine *target)
{
    uint64_t pages = 77, sectors = 77;
    vmig_status status = VMIG_OK;
    size_t size = 1;

    for (int items = 1; status == VMIG_OK; items++) {
        status = vmig_send_some(source, 1);
        expect("an item", status, items < PAGES + SECTORS ? VMIG_OK : VMIG_ROUND_DONE);
        if (items == 3) expect("used length", ask(source, 2), 16);
        hand_over(source, target, size, VMIG_OK);
        size = size % 499 + 7;
        is_no_machine(target);
    }
    expect("end of the round", vmig_send_round(source), VMIG_OK);
    expect("none ended there", description_of(target).rounds, 0);
    hand_over(source, target, 5, VMIG_OK);
    expect("one ended", description_of(target).rounds, 1);
    expect("it is not whole", description_of(target).whole, 0);
    expect("stop", vmig_send_stop(source, &pages, &sectors), VMIG_OK);
    hand_over(source, target, 512, VMIG_WHOLE);
    expect("now it is whole", description_of(target).whole, 1);
}

static void moves(vmig_machine *source, vmig_machine *target)
{
    vmig_arrival arrival = VMIG_ARRIVAL;

    expect("begin", vmig_send_begin(source), VMIG_OK);
    expect("nothing arrives", vmig_feed(target, NULL, 0), VMIG_NO_MACHINE);
    expect("nor ends", vmig_finish(target), VMIG_NO_MACHINE);
    arrival.most_pages = PAGES, arrival.most_sectors = SECTORS;
    expect("arrive", vmig_arrive(&arrival, target), VMIG_OK);
    expect("it arrives", description_of(target).state, VMIG_IS_ARRIVING);
    send_all(source, target);
    expect("finish", vmig_finish(target), VMIG_OK);
    expect("it is there", vmig_finish(target), VMIG_IN_USE);
    expect("no more of it", vmig_feed(target, (const uint8_t *)"x", 1), VMIG_IN_USE);
    expect("it is idle", description_of(target).state, VMIG_IS_IDLE);
    equal_ram(source, target, PAGES);
    expect("lines", vmig_lines(target), vmig_lines(source));
    expect("abort", vmig_send_abort(source), VMIG_OK);
    expect("its driver goes on", ask(target, 3), 16);
    expect("in both", ask(source, 3), 16);
    equal_ram(source, target, PAGES);
}

/* It was refused with this status, after this number of bytes, and stays so until its handle is freed. */
static void is_refused(vmig_machine *m, vmig_status status, uint64_t at)
{
    vmig_description found = description_of(m);

    expect("it has failed", found.state, VMIG_IS_FAILED);
    expect("so", found.fault, status);
    expect("there", found.fault_at, at);
    expect("no rounds", found.rounds, 0);
    expect("no end", found.whole, 0);
    expect("refused for good", vmig_feed(m, (const uint8_t *)"VMIG", 4), VMIG_STREAM_FAILED);
    expect("refused for good", vmig_finish(m), VMIG_STREAM_FAILED);
    expect("the first status stays", description_of(m).fault, status);
    vmig_free(m);
}

static void refuses(void)
{
    static const uint8_t header[] = "VMIG\1\0\0\0\1\0\0\0\1\0\0\0\4";
    enum { LEN = sizeof header - 1 };
    vmig_machine m = VMIG_NONE;

    expect("arrive", arrive_any(&m), VMIG_OK);
    expect("magic", vmig_feed(&m, (const uint8_t *)"VM", 2), VMIG_OK);
    expect("another", vmig_feed(&m, (const uint8_t *)"UGG", 3), VMIG_STREAM_BAD_MAGIC);
    is_refused(&m, VMIG_STREAM_BAD_MAGIC, 2);

    expect("arrive", arrive_any(&m), VMIG_OK);
    for (size_t len = 0; len < LEN; len++) expect("a byte", vmig_feed(&m, header + len, 1), VMIG_OK);
    expect("a tag", vmig_feed(&m, (const uint8_t *)"\7", 1), VMIG_STREAM_BAD_TAG);
    is_refused(&m, VMIG_STREAM_BAD_TAG, LEN);

    expect("arrive", arrive_any(&m), VMIG_OK);
    expect("a header", vmig_feed(&m, header, LEN), VMIG_OK);
    expect("is not whole", description_of(&m).whole, 0);
    expect("but says what comes", description_of(&m).pages, 1);
    expect("too early", vmig_finish(&m), VMIG_STREAM_TRUNCATED);
    is_refused(&m, VMIG_STREAM_TRUNCATED, LEN);

    expect("arrive", arrive_any(&m), VMIG_OK);
    expect("nothing", vmig_feed(&m, header, 0), VMIG_OK);
    expect("is no stream", vmig_finish(&m), VMIG_STREAM_TRUNCATED);
    is_refused(&m, VMIG_STREAM_TRUNCATED, 0);
}

int main(void)
{
    static const vmig_shape shapes[] = {{.kind = VMIG_ENTROPY}, {.kind = VMIG_BLOCK, .sectors = SECTORS}};
    static const uint8_t entropy[48] = {9, 8, 7, 6, 5, 4, 3, 2, 1};
    vmig_machine source = VMIG_NONE, target = VMIG_NONE;
    size_t kept = 77;

    expect("make", make_new(PAGES, shapes, 2, &source), VMIG_OK);
    set_up(&source, 1);
    expect("input", vmig_input(&source, 0, entropy, sizeof entropy, &kept), VMIG_OK);
    expect("used length", ask(&source, 1), 16);
    moves(&source, &target);
    refuses();

    vmig_free(&source);
    vmig_free(&target);
    return ended("arrive");
}
