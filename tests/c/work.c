/* A host that lets a block device do all its work. Its driver offers 12 requests, and notifies the device once. The device has 8
 * requests outstanding at most, so it has to look at its queue again once one has ended. */
#include "driver.h"

enum { REQUESTS = 12, HEADERS = 0x6000, OUTCOMES = 0x7000 };

static const vmig_shape shapes[] = {{.kind = VMIG_BLOCK, .sectors = REQUESTS, .id = "a disk in memory"},
                                    {.kind = VMIG_ENTROPY}};

/* The driver asks for a sector with each of 12 requests, and notifies the device once. */
static void offer_all(vmig_machine *m)
{
    for (uint32_t i = 0; i < REQUESTS; i++) {
        uint64_t header = HEADERS + 16 * i;
        put(m, header, 0, 8);
        put(m, header + 8, i, 8);
        put(m, OUTCOMES + i, 0xff, 1);
        describe(m, 0, 3 * i, header, 16, HAS_NEXT, 3 * i + 1);
        describe(m, 0, 3 * i + 1, DATA + 512 * i, 512, HAS_NEXT | WRITABLE, 3 * i + 2);
        describe(m, 0, 3 * i + 2, OUTCOMES + i, 1, WRITABLE, 0);
        make_available(m, 0, i + 1, 3 * i);
    }
    write_reg(m, 0x050, 0);
}

static void expect_ended(vmig_machine *m, uint32_t count)
{
    expect("used ring", get(m, USED + 2, 2), count);
    for (uint32_t i = 0; i < REQUESTS; i++) expect("outcome", get(m, OUTCOMES + i, 1), i < count ? 0 : 0xff);
}

static void make(vmig_machine *m)
{
    expect("make", make_new(16, shapes, 2, m), VMIG_OK);
    set_up(m, 1);
    offer_all(m);
}

/* Pick 0 until it is idle, then pick 1 until it is idle, is not enough: 4 requests stay in the queue. */
static void serve_badly(vmig_machine *m)
{
    uint8_t none[1];
    uint32_t len;

    while (vmig_step(m, 0, 0, none, 0, &len) != VMIG_IDLE) continue;
    while (vmig_step(m, 0, 1, none, 0, &len) != VMIG_IDLE) continue;
}

int main(void)
{
    vmig_machine m = VMIG_NONE, arriving = VMIG_NONE;
    uint8_t dev = 3, pick = 7, buf[4096];
    uint64_t pages, sectors;
    size_t got;

    expect("no machine", vmig_next(&m, &dev, &pick), VMIG_NO_MACHINE);
    make(&m);
    expect("steps", serve(&m), 3 * REQUESTS + 1);
    expect_ended(&m, REQUESTS);
    expect("no work", vmig_next(&m, &dev, &pick), VMIG_IDLE);
    expect("the device as it was", dev, 3);
    expect("the pick as it was", pick, 7);
    vmig_free(&m);

    make(&m);
    serve_badly(&m);
    expect_ended(&m, 8);
    expect("work", vmig_next(&m, &dev, &pick), VMIG_WORK);
    expect("its device", dev, 0);
    expect("its pick", pick, 0);
    expect("steps", serve(&m), 3 * (REQUESTS - 8) + 1);
    expect_ended(&m, REQUESTS);
    vmig_free(&m);

    make(&m);
    expect("begin", vmig_send_begin(&m), VMIG_OK);
    expect("steps", serve(&m), 3 * REQUESTS + 1);
    expect_ended(&m, REQUESTS);
    expect("stop", vmig_send_stop(&m, &pages, &sectors), VMIG_OK);
    expect("stopped", vmig_next(&m, &dev, &pick), VMIG_STOPPED);
    expect("take", vmig_send_take(&m, buf, sizeof buf, &got), VMIG_OK);
    expect("arrive", arrive_any(&arriving), VMIG_OK);
    expect("feed", vmig_feed(&arriving, buf, got), VMIG_OK);
    expect("arriving", vmig_next(&arriving, &dev, &pick), VMIG_NO_MACHINE);
    vmig_free(&arriving);
    vmig_free(&m);
    return ended("work");
}
