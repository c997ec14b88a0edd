/* A host that tests nothing but `vmig_refused`, and a guest that tries whatever comes to its mind: a million accesses to registers and
 * RAM, by a seeded generator, between them drivers that set their queues up and rings that name anything. No call is refused, each turn
 * of the devices ends, and the machine is one that can be moved all the time. */
#include <stdlib.h>
#include <string.h>
#include "driver.h"

enum { PAGES = 16, RAM = PAGES * 4096, SECTORS = 4, ACCESSES = 1000000, STEPS_A_TURN = 40, FRAME = 64 };
enum { NETWORK = 0, DISK = 1, CONSOLE = 2, ENTROPY = 3, DEVICES = 4 };

/* Where the rings of the queues end: a header of a request, and buffers. */
enum { HEADERS = 0x4000, BUFFERS = 0x8000 };

static const vmig_shape SHAPES[DEVICES] = {{.kind = VMIG_NETWORK, .mac = {2, 0, 0, 0, 0, 1}}, {.kind = VMIG_BLOCK, .sectors = SECTORS},
                                           {.kind = VMIG_CONSOLE}, {.kind = VMIG_ENTROPY}};

/* How many chains the guest made available in each queue. */
static uint16_t made[2 * DEVICES];

/* What was seen of the devices, to know that the guest is one that tries something. */
static uint32_t seen[256], printed;

static uint32_t draw(uint32_t below)
{
    static uint64_t state = 88172645463325252;
    state ^= state << 13;
    state ^= state >> 7;
    state ^= state << 17;
    return (uint32_t)(state >> 32) % below;
}

/* All that this host does about a status. */
static vmig_status done(vmig_status status)
{
    if (vmig_refused(status)) {
        if (failures < 20) printf("a call is refused: %s\n", vmig_status_name(status));
        failures++;
    }
    seen[status]++;
    return status;
}

static void write_register(vmig_machine *m, uint8_t dev, uint32_t off, uint32_t value)
{
    static const uint8_t widths[] = {1, 2, 4, 4, 4, 4, 3, 255};
    uint32_t byte = 0;

    done(vmig_reg_write(m, dev, off, draw(16) == 0 ? widths[draw(sizeof widths)] : 4, value, &byte));
    if (byte != VMIG_NO_BYTE) printed++;
}

static void write_number(vmig_machine *m, uint32_t at, uint64_t value, size_t width)
{
    uint8_t bytes[8];

    for (size_t i = 0; i < width; i++) bytes[i] = (uint8_t)(value >> (8 * i));
    if (at <= RAM - width) done(vmig_ram_write(m, at, bytes, width));
}

/* A number that a ring may name: mostly one that is right, else one at a limit, or any. */
static uint64_t any_number(uint32_t right)
{
    static const uint64_t limits[] = {0, 1, 255, 256, 65535, 65536, RAM - 1, RAM, UINT32_MAX, UINT64_MAX, UINT64_MAX - 15};

    switch (draw(40)) {
    case 0: return limits[draw(sizeof limits / sizeof *limits)];
    case 1: return (uint64_t)draw(UINT32_MAX) << draw(32);
    default: return right;
    }
}

/* A driver, of which not all is well: the features of any kind, and areas that are mostly right. Half of them are as they have to be. */
static void set_up_somehow(vmig_machine *m, uint8_t dev)
{
    static const uint32_t begin[] = {0, 1, 3};
    uint32_t queues = dev == NETWORK || dev == CONSOLE ? 2 : 1, layout = draw(4) == 0 ? 4 : 0, is_right = draw(2);

    for (size_t i = 0; i < 3; i++) write_register(m, dev, 0x070, begin[i]);
    write_register(m, dev, 0x024, 0);
    write_register(m, dev, 0x020, is_right ? 0 : draw(UINT32_MAX));
    write_register(m, dev, 0x024, 1);
    write_register(m, dev, 0x020, 1 | layout);
    write_register(m, dev, 0x070, 0xb);
    for (uint32_t q = 0; q < queues; q++) {
        uint32_t at = 0x800 * (is_right || draw(4) != 0 ? 2 * (uint32_t)dev + q : draw(8));
        write_register(m, dev, 0x030, q);
        write_register(m, dev, 0x038, is_right ? 16 : (uint32_t)any_number(16));
        write_register(m, dev, 0x080, is_right ? at : (uint32_t)any_number(at));
        write_register(m, dev, 0x090, is_right ? at + 0x400 : (uint32_t)any_number(at + 0x400));
        write_register(m, dev, 0x0a0, is_right ? at + 0x600 : (uint32_t)any_number(at + 0x600));
        write_register(m, dev, 0x044, 1);
    }
    for (uint32_t q = 0; q < queues; q++) {
        made[2 * (uint32_t)dev + q] = 0;
        write_number(m, 0x800 * (2 * (uint32_t)dev + q) + 0x402, 0, 2);
    }
    write_register(m, dev, 0x070, 0xf);
}

/* A request of a disk, which may be one, and where it may be. */
static void write_request(vmig_machine *m)
{
    write_number(m, HEADERS, draw(8) == 0 ? draw(20) : draw(3) == 0 ? 4 : draw(2), 8);
    write_number(m, HEADERS + 8, any_number(draw(SECTORS)), 8);
}

/* The descriptor of this number in a chain of this length, which mostly fits its device. */
static void describe_somehow(vmig_machine *m, uint8_t dev, uint32_t at, uint32_t i, uint32_t length, int is_in)
{
    static const uint32_t of_disk[] = {16, 512, 1};
    uint32_t len = dev == DISK ? of_disk[i % 3] : 1 + draw(200), flags = (i + 1 < length) | (is_in ? 2u : 0);

    if (dev == DISK) flags = (i + 1 < length) | (i == 2 ? 2 : i == 1 ? draw(2) << 1 : 0);
    if (draw(20) == 0) flags = draw(65536);
    write_number(m, at, any_number(dev == DISK && i == 0 ? HEADERS : BUFFERS + 0x200 * draw(32)), 8);
    write_number(m, at + 8, any_number(len), 4);
    write_number(m, at + 12, flags, 2);
    write_number(m, at + 14, draw(32) == 0 ? draw(65536) : i + 1, 2);
}

/* The rings of one queue name something, as split rings mostly, and its driver notifies the device. */
static void fill_ring(vmig_machine *m, uint8_t dev)
{
    uint32_t queue = draw(dev == NETWORK || dev == CONSOLE ? 2 : 1), which = 2 * (uint32_t)dev + queue, at = 0x800 * which;
    uint32_t length = dev == DISK ? (draw(4) == 0 ? 2 : 3) : 1 + draw(3);

    if (dev == DISK) write_request(m);
    for (uint32_t i = 0; i < length; i++) describe_somehow(m, dev, at + 16 * i, i, length, queue == 0);
    write_number(m, at + 0x404 + 2 * (made[which] % 16u), draw(32) == 0 ? draw(65536) : 0, 2);
    made[which] = (uint16_t)(draw(64) == 0 ? draw(65536) : made[which] + 1u);
    write_number(m, at + 0x402, made[which], 2);
    write_register(m, dev, 0x050, queue);
}

/* One act of the guest. Returns how many accesses it was, at least. */
static int act(vmig_machine *m)
{
    static const uint32_t offsets[] = {0x014, 0x020, 0x024, 0x030, 0x038, 0x044, 0x050, 0x064, 0x070, 0x080, 0x084, 0x090, 0x0a0, 0x108};
    uint8_t dev = (uint8_t)draw(DEVICES);
    uint32_t value;

    switch (draw(6)) {
    case 0: set_up_somehow(m, dev); return 14;
    case 1: case 2: fill_ring(m, dev); return 20;
    case 3: write_register(m, dev, offsets[draw(sizeof offsets / sizeof *offsets)], draw(8) == 0 ? draw(UINT32_MAX) : draw(4)); return 1;
    case 4: write_register(m, dev, (uint32_t)any_number(draw(0x200)), draw(UINT32_MAX)); return 1;
    default: done(vmig_reg_read(m, dev, (uint32_t)any_number(draw(0x200)), (uint8_t)draw(9), &value)); return 1;
    }
}

/* What the host puts in, as often as it has something. */
static void put_in(vmig_machine *m)
{
    static const uint8_t bytes[FRAME] = "the host's bytes";
    uint8_t dev = (uint8_t)(draw(3) == 0 ? NETWORK : CONSOLE + draw(2));
    size_t kept = 0;

    done(vmig_input(m, dev, bytes, dev == NETWORK ? FRAME : draw(FRAME), &kept));
}

/* A turn of the devices, which ends. */
static void do_work(vmig_machine *m)
{
    static uint8_t dev, pick, buf[VMIG_SENT_MAX];
    uint32_t len;

    for (int left = STEPS_A_TURN; left > 0; left--) {
        if (done(vmig_next(m, &dev, &pick)) == VMIG_IDLE) return;
        done(vmig_step(m, dev, pick, buf, sizeof buf, &len));
    }
}

/* The machine is saved, and the one that arrives is saved alike. */
static void moves(const vmig_machine *m)
{
    static uint8_t stream[2 * RAM], other[2 * RAM];
    vmig_machine target = VMIG_NONE;
    vmig_arrival arrival = VMIG_ARRIVAL;
    size_t len = 0, len_other = 0;

    done(vmig_save(m, stream, sizeof stream, &len));
    arrival.most_pages = PAGES, arrival.most_sectors = SECTORS, arrival.shapes = SHAPES, arrival.count = DEVICES;
    done(vmig_arrive(&arrival, &target));
    done(vmig_feed(&target, stream, len));
    done(vmig_finish(&target));
    done(vmig_save(&target, other, sizeof other, &len_other));
    expect("the length of the other", len_other, len);
    expect("the same machine", (uint64_t)memcmp(stream, other, len), 0);
    vmig_free(&target);
}

int main(void)
{
    static const vmig_status wanted[] = {VMIG_OK,        VMIG_IDLE, VMIG_TAKEN,   VMIG_MOVED,       VMIG_COMPLETED,
                                         VMIG_SENT,      VMIG_WORK, VMIG_DROPPED, VMIG_NEEDS_RESET, VMIG_SYNC};
    vmig_machine m = VMIG_NONE;
    uint64_t pages, sectors;

    expect("make", make_new(PAGES, SHAPES, DEVICES, &m), VMIG_OK);
    for (int accesses = 0; accesses < ACCESSES && failures == 0;) {
        accesses += act(&m);
        if (draw(8) == 0) put_in(&m);
        if (draw(4) == 0) do_work(&m);
        if (draw(20000) == 0) done(vmig_reset(&m));
        if (draw(20000) == 0) moves(&m);
        if (draw(20000) != 0) continue;
        done(vmig_send_begin(&m));
        done(vmig_send_some(&m, 1000));
        for (int turns = 0; turns < 20; turns++) accesses += act(&m), do_work(&m);
        done(vmig_send_stop(&m, &pages, &sectors));
        done(vmig_send_abort(&m));
    }
    for (size_t i = 0; i < sizeof wanted / sizeof *wanted; i++) expect(vmig_status_name(wanted[i]), seen[wanted[i]] > 0, 1);
    expect("bytes of a console", printed > 0, 1);
    moves(&m);
    vmig_free(&m);
    return ended("hostile");
}
