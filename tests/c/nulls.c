/* Where a count is 0, the pointer beside it may be null: each call that has both, tried. Any other pointer is that of an object. */
#include "driver.h"

static const vmig_shape SHAPES[] = {{.kind = VMIG_ENTROPY}, {.kind = VMIG_CONSOLE}};

static void making(void)
{
    vmig_machine m = VMIG_NONE;
    uint32_t number = 77;

    expect("make", make_new(1, NULL, 0, &m), VMIG_BAD_SHAPE);
    expect("make with no contents", make_with(1, SHAPES, 1, NULL, 0, &m), VMIG_OK);
    expect("no slot", vmig_release(&m, NULL, 0), VMIG_OK);
    expect("make mapped", make_mapped(1, NULL, 0, NULL, 0, &m), VMIG_BAD_SHAPE);
    expect("make mapped with no image", make_mapped(1, SHAPES, 1, NULL, 0, &m), VMIG_OK);
    expect("no image was given", vmig_release(&m, NULL, 0), VMIG_OK);
    expect("all null", vmig_make(&(vmig_setup)VMIG_SETUP, &m), VMIG_BAD_RAM);
    expect("receive", receive(NULL, 0, &m, &number), VMIG_STREAM_TRUNCATED);
    expect("rounds", number, 77);
}

static void running(void)
{
    vmig_machine m = VMIG_NONE;
    uint32_t number = 77;
    size_t len = 77;
    uint8_t byte = 0, ram[4096];
    uint64_t seen[1] = {VMIG_UNSEEN};

    expect("make", make_new(1, SHAPES, 2, &m), VMIG_OK);
    expect("RAM", vmig_ram_read(&m, 4096, NULL, 0), VMIG_OK);
    expect("past RAM", vmig_ram_read(&m, 4097, NULL, 0), VMIG_OUT_OF_RAM);
    expect("RAM", vmig_ram_write(&m, 0, NULL, 0), VMIG_OK);
    expect("push", push_list(&m, NULL, 0, ram, sizeof ram, seen, 1), VMIG_OK);
    expect("push without RAM", push_list(&m, NULL, 0, NULL, 0, NULL, 0), VMIG_TOO_SMALL);
    expect("pull", vmig_pull(&m, NULL, 0, NULL, 0, &number), VMIG_TOO_SMALL);
    expect("step", vmig_step(&m, 0, 0, NULL, 0, &number), VMIG_IDLE);
    expect("step that may send", vmig_step(&m, 1, 1, NULL, 0, &number), VMIG_TOO_SMALL);
    expect("no number", number, 77);
    expect("input", vmig_input(&m, 0, NULL, 0, &len), VMIG_OK);
    expect("none kept", len, 0);
    expect("save", vmig_save(&m, NULL, 0, &len), VMIG_MORE);
    expect("its length is told", len > 0, 1);
    expect("begin", vmig_send_begin(&m), VMIG_OK);
    expect("take", vmig_send_take(&m, NULL, 0, &len), VMIG_OK);
    expect("nothing", len, 0);
    expect("what waits is still there", vmig_send_take(&m, &byte, 1, &len), VMIG_OK);
    expect("its first byte", byte, 'V');
    vmig_free(&m);
}

static void lending(void)
{
    static uint8_t room[4096];
    vmig_machine m = VMIG_NONE;
    vmig_ram ram = {room, sizeof room};

    expect("make over", make_over(&ram, NULL, 0, NULL, 0, &m), VMIG_BAD_SHAPE);
    expect("make over with no image", make_over(&ram, SHAPES, 1, NULL, 0, &m), VMIG_OK);
    expect("lend", vmig_lend(&m, &ram), VMIG_OK);
    expect("no word", give_back_marked(&m, &ram, NULL, 0), VMIG_OK);
    expect("lend", vmig_lend(&m, &ram), VMIG_OK);
    expect("no page", give_back_list(&m, &ram, NULL, 0), VMIG_OK);
    vmig_free(&m);
    ram = (vmig_ram){room, sizeof room};
    expect("arrive over no image", arrive_over(&ram, NULL, 0, &m), VMIG_OK);
    expect("feed", vmig_feed(&m, NULL, 0), VMIG_OK);
    expect("no slot is wanted", vmig_release(&m, NULL, 0), VMIG_OK);
}

static void arriving(void)
{
    vmig_machine m = VMIG_NONE;
    vmig_description announced = {.pages = 77, .count = 77};

    expect("stream", vmig_stream_describe(NULL, 0, &announced), VMIG_MORE);
    expect("as it was", announced.pages == 77 && announced.count == 77, 1);
    expect("nothing arrives", vmig_feed(&m, NULL, 0), VMIG_NO_MACHINE);
    expect("arrive over no image", arrive_mapped(NULL, 0, &m), VMIG_OK);
    expect("feed", vmig_feed(&m, NULL, 0), VMIG_OK);
    expect("feed again", vmig_feed(&m, NULL, 0), VMIG_OK);
    expect("in use", arrive_mapped(NULL, 0, &m), VMIG_IN_USE);
    expect("finish", vmig_finish(&m), VMIG_STREAM_TRUNCATED);
    expect("no image was given", vmig_release(&m, NULL, 0), VMIG_OK);
}

int main(void)
{
    making();
    running();
    lending();
    arriving();
    return ended("nulls");
}
