/* A machine is moved to another handle while its driver continues. Both end with equal RAM, and continue with equal replies. */
#include <stdlib.h>
#include <string.h>
#include "driver.h"

enum { PAGES = 16, SECTORS = 2 };

/* The stream, as it would go over a wire. */
static uint8_t *stream;
static size_t stream_len;

/* Takes all that waits, a small buffer at a time. */
static void take_all(vmig_machine *m)
{
    uint8_t piece[1000];
    size_t got = 0;

    do {
        expect("take", vmig_send_take(m, piece, sizeof piece, &got), VMIG_OK);
        stream = realloc(stream, stream_len + got + 1);
        if (stream == NULL) exit(2);
        memcpy(stream + stream_len, piece, got);
        stream_len += got;
    } while (got > 0);
}

/* What is due and what is dirty, pages and sectors apart. */
static void expect_left(vmig_machine *m, uint64_t due_pages, uint64_t due_sectors, uint64_t dirty_pages)
{
    vmig_left left;

    expect("left", vmig_send_left(m, &left), VMIG_OK);
    expect("pages that are due", left.due_pages, due_pages);
    expect("sectors that are due", left.due_sectors, due_sectors);
    expect("dirty pages", left.dirty_pages, dirty_pages);
    expect("dirty sectors", left.dirty_sectors, 0);
}

/* Sends the first round, in the middle of which the driver writes into a page that was sent and into one that was not. */
static void first_round(vmig_machine *m)
{
    expect("round 1", description_of(m).rounds, 1);
    expect_left(m, PAGES, SECTORS, 0);
    expect("round still open", vmig_send_round(m), VMIG_ROUND_OPEN);
    expect("ten pages", vmig_send_some(m, 10), VMIG_OK);
    expect_left(m, PAGES - 10, SECTORS, 0);
    expect("used length", ask(m, 2), 16);
    expect_left(m, PAGES - 10, SECTORS, 3);
    take_all(m);
    expect("none", vmig_send_some(m, 0), VMIG_OK);
    expect("the other pages", vmig_send_some(m, PAGES - 10), VMIG_OK);
    expect_left(m, 0, SECTORS, 3);
    expect("all sectors but one", vmig_send_some(m, SECTORS - 1), VMIG_OK);
    expect("the last one", vmig_send_some(m, 1), VMIG_ROUND_DONE);
    take_all(m);
    expect_left(m, 0, 0, 3);
    expect("nothing is due", vmig_send_some(m, 1), VMIG_ROUND_DONE);
    expect("end of the round", vmig_send_round(m), VMIG_OK);
    expect("round 2", description_of(m).rounds, 2);
    expect_left(m, 3, 0, 0);
}

/* A stop writes no more bytes than was said before it. */
static void stop(vmig_machine *m, uint64_t wanted_pages)
{
    uint64_t pages = 77, sectors = 77;
    size_t before;
    vmig_left left;

    take_all(m);
    before = stream_len;
    expect("left", vmig_send_left(m, &left), VMIG_OK);
    expect("stop", vmig_send_stop(m, &pages, &sectors), VMIG_OK);
    expect("pages of the stop", pages, wanted_pages);
    expect("sectors of the stop", sectors, 0);
    expect("it is stopped", description_of(m).state, VMIG_IS_STOPPED);
    take_all(m);
    expect("no more than was said", stream_len - before <= left.stop_bytes, 1);
    expect("left", vmig_send_left(m, &left), VMIG_OK);
    expect("nothing more", left.stop_bytes, 0);
}

static void refuses(vmig_machine *m)
{
    uint8_t byte = 0;
    uint32_t number = 77;
    size_t len = 77;
    uint64_t pages = 77, sectors = 77;

    expect("begin again", vmig_send_begin(m), VMIG_STOPPED);
    expect("write after the stop", vmig_ram_write(m, 0, &byte, 1), VMIG_STOPPED);
    expect("register after the stop", vmig_reg_read(m, 0, 0, 4, &number), VMIG_STOPPED);
    expect("no number", number, 77);
    expect("stop again", vmig_send_stop(m, &pages, &sectors), VMIG_STOPPED);
    expect("save", vmig_save(m, &byte, 0, &len), VMIG_SENDING);
    expect("no length", len, 77);
}

int main(void)
{
    static const vmig_shape shapes[] = {{.kind = VMIG_ENTROPY}, {.kind = VMIG_BLOCK, .sectors = SECTORS}};
    static const uint8_t entropy[68] = {9, 8, 7, 6, 5, 4, 3, 2, 1};
    vmig_machine source = VMIG_NONE, target = VMIG_NONE;
    uint32_t rounds = 77;
    size_t kept = 77;

    expect("no machine", vmig_send_begin(&source), VMIG_NO_MACHINE);
    expect("make", make_new(PAGES, shapes, 2, &source), VMIG_OK);
    expect("not sending", vmig_send_some(&source, 1), VMIG_NOT_SENDING);
    set_up(&source, 1);
    expect("input", vmig_input(&source, 0, entropy, sizeof entropy, &kept), VMIG_OK);
    expect("used length", ask(&source, 1), 16);

    expect("begin", vmig_send_begin(&source), VMIG_OK);
    expect("begun already", vmig_send_begin(&source), VMIG_SENDING);
    first_round(&source);
    expect("used length", ask(&source, 3), 16);
    stop(&source, 3);
    refuses(&source);

    expect("receive", receive(stream, stream_len, &target, &rounds), VMIG_OK);
    expect("rounds", rounds, 1);
    equal_ram(&source, &target, PAGES);
    expect("lines", vmig_lines(&target), vmig_lines(&source));

    expect("abort", vmig_send_abort(&source), VMIG_OK);
    expect("it is not sent any more", vmig_send_abort(&source), VMIG_NOT_SENDING);
    expect("its driver goes on", ask(&target, 4), 16);
    expect("in both", ask(&source, 4), 16);
    expect("with what is left", ask(&target, 5), 4);
    expect("in both", ask(&source, 5), 4);
    equal_ram(&source, &target, PAGES);

    free(stream);
    vmig_free(&source);
    vmig_free(&target);
    return ended("move");
}
