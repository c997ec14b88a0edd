/* Two machines with one guest: the disk of one is outside, and its host answers in any order and in parts; that of the other lies in memory, and each
 * of its requests is brought to its end before the next one. No request fails. So each has the same verdict and the same bytes in both, and the disks
 * are the same in the end. */
#include <stdlib.h>
#include <string.h>
#include "driver.h"

enum { PAGES = 16, SECTORS = 32, SLOTS = 8, MOST = 4, RUNS = 200, BATCHES = 6, SECTOR = 512, OUT_MAX = 8 };
enum { IN = 0, OUT = 1, FLUSH = 4, GET_ID = 8, FEATURES = 1 << 9 };
enum { HEADERS = 0x4000, VERDICTS = 0x5000, BUFFERS = 0x8000 };

static const vmig_shape OUTSIDE = {.kind = VMIG_BLOCK_OUTSIDE, .sectors = SECTORS, .id = "one disk"};
static const vmig_shape INSIDE = {.kind = VMIG_BLOCK, .sectors = SECTORS, .id = "one disk"};

static uint8_t storage[SECTORS * SECTOR];
static vmig_machine outside = VMIG_NONE, inside = VMIG_NONE;
static uint16_t offered;
static vmig_call outs[OUT_MAX];
static uint8_t bytes_of[OUT_MAX][MOST * SECTOR];
static uint32_t count_out;

static uint32_t draw(uint32_t below)
{
    static uint64_t state = 1181783497276652981;
    state ^= state << 13;
    state ^= state >> 7;
    state ^= state << 17;
    return (uint32_t)(state >> 32) % below;
}

/* One request, written by the driver of each machine alike. */
static void publish(vmig_machine *m, uint32_t slot, uint32_t kind, uint64_t first, uint32_t count, const uint8_t *bytes)
{
    uint64_t header = HEADERS + slot * 0x40u, buffer = BUFFERS + slot * MOST * SECTOR;
    uint32_t base = 3 * slot, writable = kind == IN || kind == GET_ID ? WRITABLE : 0, len = kind == GET_ID ? 20 : count * SECTOR;

    put(m, header, kind, 8);
    put(m, header + 8, first, 8);
    put(m, VERDICTS + slot, 0xff, 1);
    expect("the buffer", vmig_ram_write(m, buffer, bytes, MOST * SECTOR), VMIG_OK);
    describe(m, 0, base, header, 16, HAS_NEXT, kind == FLUSH ? base + 2 : base + 1);
    if (kind != FLUSH) describe(m, 0, base + 1, buffer, len, HAS_NEXT | writable, base + 2);
    describe(m, 0, base + 2, VERDICTS + slot, 1, WRITABLE, 0);
    offer(m, 0, offered, base);
}

static void offer_one(uint32_t slot)
{
    static const uint32_t kinds[] = {IN, IN, OUT, OUT, OUT, FLUSH, GET_ID};
    uint32_t kind = kinds[draw(7)], count = 1 + draw(MOST);
    uint64_t first = kind == FLUSH ? 0 : draw(SECTORS - MOST + 1);
    uint8_t bytes[MOST * SECTOR];

    for (size_t i = 0; i < sizeof bytes; i++) bytes[i] = (uint8_t)draw(256);
    offered++;
    publish(&outside, slot, kind, first, count, bytes);
    publish(&inside, slot, kind, first, count, bytes);
}

/* Each request is brought to its end before the next one. */
static void serve_inside(void)
{
    uint8_t none[1];
    uint32_t len;

    while (vmig_step(&inside, 0, 0, none, 0, &len) == VMIG_TAKEN) continue;
    while (vmig_step(&inside, 0, 1, none, 0, &len) != VMIG_IDLE) continue;
}

static void take_calls(void)
{
    while (count_out < OUT_MAX) {
        vmig_status status = vmig_disk_call(&outside, &outs[count_out], bytes_of[count_out], SECTOR * (1 + draw(MOST)));
        if (status == VMIG_IDLE) return;
        expect("a call", status, VMIG_CALL);
        count_out++;
    }
}

/* A call that is out is done, whole or in part, and answered. */
static void answer_one(void)
{
    uint32_t i = draw(count_out), count = outs[i].count;
    const vmig_call call = outs[i];
    size_t len = 0;

    if (count > 1) count = 1 + draw(count);
    if (call.what == VMIG_DISK_READ) memcpy(bytes_of[i], storage + call.first * SECTOR, len = count * SECTOR);
    if (call.what == VMIG_DISK_WRITE) memcpy(storage + call.first * SECTOR, bytes_of[i], count * SECTOR);
    expect("done", vmig_disk_done(&outside, call.number, count, len == 0 ? NULL : bytes_of[i], len), VMIG_OK);
    outs[i] = outs[--count_out];
    memcpy(bytes_of[i], bytes_of[count_out], sizeof bytes_of[i]);
}

static void serve_outside(void)
{
    for (;;) {
        serve(&outside);
        take_calls();
        if (count_out == 0) return;
        answer_one();
    }
}

/* What the guests see of what they asked for, and the disks. */
static void compare(void)
{
    uint8_t one[MOST * SECTOR], other[MOST * SECTOR];

    for (uint32_t slot = 0; slot < SLOTS; slot++) {
        expect("its verdict", get(&outside, VERDICTS + slot, 1), 0);
        expect("and in memory", get(&inside, VERDICTS + slot, 1), 0);
        expect("read", vmig_ram_read(&outside, BUFFERS + slot * MOST * SECTOR, one, sizeof one), VMIG_OK);
        expect("read", vmig_ram_read(&inside, BUFFERS + slot * MOST * SECTOR, other, sizeof other), VMIG_OK);
        expect("the same bytes", (uint64_t)memcmp(one, other, sizeof one), 0);
    }
    for (uint64_t sector = 0; sector < SECTORS; sector++) {
        expect("a good sector", vmig_sector_read(&inside, 0, sector, one), VMIG_OK);
        expect("the same sector", (uint64_t)memcmp(one, storage + sector * SECTOR, SECTOR), 0);
    }
}

int main(void)
{
    vmig_setup setup = VMIG_SETUP;

    setup.pages = PAGES, setup.count = 1, setup.shapes = &OUTSIDE;
    expect("make", vmig_make(&setup, &outside), VMIG_OK);
    setup.shapes = &INSIDE;
    expect("make", vmig_make(&setup, &inside), VMIG_OK);
    expect("both are block devices", read_reg(&outside, 0x008), read_reg(&inside, 0x008));
    for (uint32_t off = 0x100; off < 0x10c; off += 4) expect("of one size", read_reg(&outside, off), read_reg(&inside, off));
    expect("and one has as many segments as a queue has room for", read_reg(&outside, 0x10c), 254);
    for (uint32_t i = 0; i < RUNS && failures == 0; i++) {
        offered = 0;
        set_up_with(&outside, 1, FEATURES);
        set_up_with(&inside, 1, FEATURES);
        put(&outside, AVAIL + 2, 0, 2), put(&inside, AVAIL + 2, 0, 2);
        for (uint32_t batch = 0; batch < BATCHES; batch++) {
            for (uint32_t slot = 0; slot < SLOTS; slot++) offer_one(slot);
            serve_inside();
            serve_outside();
            compare();
        }
    }
    vmig_free(&outside);
    vmig_free(&inside);
    return ended("asked_twin");
}
