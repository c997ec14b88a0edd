/* Network devices for frames of more than 1,514 bytes: what they offer a driver, frames of each length in and out over both layouts, how many
 * wait, and that all of it moves. Beside them the device of 1,514, which is as it always was. */
#include <stdlib.h>
#include "driver.h"

enum { PAGES = 64, ENTRIES = 8, RECEIVE = 0, TRANSMIT = 1, QUEUES = 2 };

/* The header before a frame in the guest's memory (VIRTIO 1.2, 5.1.6), an Ethernet header, and one with a VLAN tag. */
enum { FRAME_HEADER = 12, SHORTEST = 14, TAGGED = 18 };

/* Bits of the lower half of the features, and of the upper one (VIRTIO 1.2, 5.1.3 and 6). */
enum { MTU = 1 << 3, MAC = 1 << 5, INDIRECT_DESC = 1 << 28, EVENT_IDX = 1 << 29, VERSION_1 = 1, RING_PACKED = 4 };

/* Flags of packed descriptors (VIRTIO 1.2, 2.8.1). */
enum { AVAILABLE = 1 << 7, USED_ONCE = 1 << 15 };

/* Where a queue lies, and its buffer. */
enum { RINGS = 0x1000, RING = 0x3000, DRIVER_AREA = 0x1000, DEVICE_AREA = 0x2000, BUFFERS = 0x10000, BUFFER = 0x18000 };

/* How many frames wait: 64, or as many of the longest as 96,896 bytes hold. */
static const struct device {
    uint32_t longest, waiting;
} DEVICES[] = {{1514, 64}, {1518, 63}, {1519, 63}, {9018, 10}, {65535, 1}};

struct guest {
    vmig_machine m;
    struct device is;
    int is_packed, takes_mtu;
    uint16_t made[QUEUES];      /* how many chains were made available */
};

static uint8_t frame[65536], room[65548], buf[VMIG_SENT_MAX], stream[1 << 19], again[1 << 19];

static int is_long(const struct guest *g) { return g->is.longest > 1514; }

/* The most bytes of a frame without a VLAN tag (VIRTIO 1.2, 5.1.4.1). */
static uint32_t most_untagged(const struct guest *g) { return is_long(g) ? g->is.longest - (TAGGED - SHORTEST) : g->is.longest; }

static void set_type(uint8_t first, uint8_t second) { frame[12] = first, frame[13] = second; }

/* The n-th frame has bytes of its own, and a VLAN tag where it needs one. */
static const uint8_t *fill(const struct guest *g, uint32_t n, size_t len)
{
    for (size_t i = 0; i < len; i++) frame[i] = (uint8_t)(17 * n + i + i / 251);
    if (len > most_untagged(g)) set_type(0x81, 0x00);
    else if (len >= SHORTEST) set_type(0x08, 0x00);
    return frame;
}

static void put_bytes(vmig_machine *m, uint64_t addr, const uint8_t *bytes, size_t len)
{
    for (size_t at = 0; at < len; at += 4096)
        expect("a write of RAM", vmig_ram_write(m, addr + at, bytes + at, len - at < 4096 ? len - at : 4096), VMIG_OK);
}

static void get_bytes(vmig_machine *m, uint64_t addr, uint8_t *bytes, size_t len)
{
    for (size_t at = 0; at < len; at += 4096)
        expect("a read of RAM", vmig_ram_read(m, addr + at, bytes + at, len - at < 4096 ? len - at : 4096), VMIG_OK);
}

/* ---- a driver ------------------------------------------------------------------------------------------------------------------ */

static void make_ready(struct guest *g, uint32_t queue)
{
    uint32_t at = RINGS + queue * RING;

    g->made[queue] = 0;
    memset(room, 0, RING);
    put_bytes(&g->m, at, room, RING);
    write_reg(&g->m, 0x030, queue);
    write_reg(&g->m, 0x038, ENTRIES);
    write_reg(&g->m, 0x080, at);
    write_reg(&g->m, 0x090, at + DRIVER_AREA);
    write_reg(&g->m, 0x0a0, at + DEVICE_AREA);
    write_reg(&g->m, 0x044, 1);
    expect("queue ready", read_reg(&g->m, 0x044), 1);
}

/* The driver takes the device over (VIRTIO 1.2, 3.1.1). */
static void take_over(struct guest *g)
{
    write_reg(&g->m, 0x070, 0);
    write_reg(&g->m, 0x070, 3);
    write_reg(&g->m, 0x024, 0);
    write_reg(&g->m, 0x020, MAC | (g->takes_mtu ? MTU : 0));
    write_reg(&g->m, 0x024, 1);
    write_reg(&g->m, 0x020, VERSION_1 | (g->is_packed ? RING_PACKED : 0));
    write_reg(&g->m, 0x070, 0xb);
    expect("features accepted", read_reg(&g->m, 0x070), 0xb);
    for (uint32_t queue = 0; queue < QUEUES; queue++) make_ready(g, queue);
    write_reg(&g->m, 0x070, 0xf);
}

/* The driver hands the queue's buffer over, of so many bytes. */
static void hand_over(struct guest *g, uint32_t queue, uint32_t len)
{
    uint32_t slot = g->made[queue] % ENTRIES, flags = queue == RECEIVE ? WRITABLE : 0;
    uint64_t at = RINGS + queue * RING;

    if (g->is_packed) flags |= g->made[queue] / ENTRIES % 2 == 0 ? AVAILABLE : USED_ONCE;
    put(&g->m, at + 16 * slot, BUFFERS + queue * BUFFER, 8);
    put(&g->m, at + 16 * slot + 8, len, 4);
    put(&g->m, at + 16 * slot + 12, g->is_packed ? slot : flags, 2);
    put(&g->m, at + 16 * slot + 14, g->is_packed ? flags : 0, 2);
    g->made[queue]++;
    if (!g->is_packed) put(&g->m, at + DRIVER_AREA + 4 + 2 * slot, slot, 2);
    if (!g->is_packed) put(&g->m, at + DRIVER_AREA + 2, g->made[queue], 2);
    write_reg(&g->m, 0x050, queue);
}

/* The device gave it back with this length. */
static void is_used(struct guest *g, uint32_t queue, uint32_t len)
{
    uint32_t number = g->made[queue] - 1u, slot = number % ENTRIES;
    uint64_t at = RINGS + queue * RING, used = at + DEVICE_AREA + 4 + 8 * slot;

    if (g->is_packed) {
        uint32_t wanted = number / ENTRIES % 2 == 0 ? AVAILABLE | USED_ONCE : 0;
        expect("the flags of a used buffer", get(&g->m, at + 16 * slot + 14, 2) & (AVAILABLE | USED_ONCE), wanted);
        expect("its length", get(&g->m, at + 16 * slot + 8, 4), len);
        return;
    }
    expect("the used index", get(&g->m, at + DEVICE_AREA + 2, 2), g->made[queue]);
    expect("the length of a used buffer", get(&g->m, used + 4, 4), len);
}

/* ---- what the device offers ---------------------------------------------------------------------------------------------------- */

static uint32_t configuration(struct guest *g, uint32_t at, uint8_t width)
{
    uint32_t value = 77;

    expect("a read of the configuration", vmig_reg_read(&g->m, 0, 0x100 + at, width, &value), VMIG_OK);
    return value;
}

/* MTU and its value where frames are long. The device of 1,514 has its MAC and no more. */
static void offers(struct guest *g)
{
    static const uint8_t mac[] = {2, 0, 0, 0, 0, 9};

    write_reg(&g->m, 0x014, 0);
    expect("features", read_reg(&g->m, 0x010), INDIRECT_DESC | EVENT_IDX | MAC | (is_long(g) ? MTU : 0));
    for (uint32_t i = 0; i < 6; i++) expect("the MAC", configuration(g, i, 1), mac[i]);
    for (uint32_t i = 6; i < 10; i++) expect("what is not offered", configuration(g, i, 1), 0);
    expect("the MTU", configuration(g, 10, 2), is_long(g) ? g->is.longest - TAGGED : 0);
    expect("its lower byte", configuration(g, 10, 1), is_long(g) ? (g->is.longest - TAGGED) % 256 : 0);
    expect("its upper byte", configuration(g, 11, 1), is_long(g) ? (g->is.longest - TAGGED) / 256 : 0);
    for (uint32_t i = 12; i < 32; i++) expect("what follows", configuration(g, i, 1), 0);
}

/* A driver that accepts MTU of a device of 1,514 is refused, as with each feature that is not offered. */
static void accepts_what_is_not_offered(struct guest *g)
{
    write_reg(&g->m, 0x070, 0);
    write_reg(&g->m, 0x070, 3);
    write_reg(&g->m, 0x024, 0);
    write_reg(&g->m, 0x020, MTU);
    write_reg(&g->m, 0x024, 1);
    write_reg(&g->m, 0x020, VERSION_1);
    write_reg(&g->m, 0x070, 0xb);
    expect("not offered", read_reg(&g->m, 0x070), 3);
}

/* ---- frames in and out --------------------------------------------------------------------------------------------------------- */

static void input(struct guest *g, uint32_t n, size_t len, vmig_status wanted, size_t wanted_kept)
{
    size_t kept = 77;

    expect("a frame", vmig_input(&g->m, 0, fill(g, n, len), len, &kept), wanted);
    expect("kept", kept, wanted_kept);
}

/* The n-th frame comes out of the inbox, into a buffer that holds the longest one. */
static void receives(struct guest *g, uint32_t n, uint32_t len)
{
    uint32_t used = 77;

    hand_over(g, RECEIVE, FRAME_HEADER + g->is.longest);
    expect("a frame for the guest", vmig_step(&g->m, 0, RECEIVE, buf, 0, &used), VMIG_COMPLETED);
    expect("its length", used, FRAME_HEADER + len);
    is_used(g, RECEIVE, FRAME_HEADER + len);
    get_bytes(&g->m, BUFFERS, room, FRAME_HEADER + len);
    for (size_t i = 0; i < FRAME_HEADER; i++) expect("its header", room[i], i == 10);
    expect("its bytes", (uint64_t)memcmp(room + FRAME_HEADER, fill(g, n, len), len), 0);
}

/* A frame that does not fit the guest's buffer is dropped, and the buffer waits for the next one. */
static void drops(struct guest *g)
{
    uint32_t used = 77;

    input(g, 1, g->is.longest, VMIG_OK, g->is.longest);
    hand_over(g, RECEIVE, FRAME_HEADER + g->is.longest - 1);
    expect("a byte too few", vmig_step(&g->m, 0, RECEIVE, buf, 0, &used), VMIG_DROPPED);
    input(g, 2, g->is.longest - 1, VMIG_OK, g->is.longest - 1);
    expect("a frame that fits", vmig_step(&g->m, 0, RECEIVE, buf, 0, &used), VMIG_COMPLETED);
    expect("its length", used, FRAME_HEADER + g->is.longest - 1);
}

/* What counts as a VLAN tag: a frame of more bytes than MTU and an Ethernet header is taken with one, and without one is none of the device. */
static void types(struct guest *g)
{
    static const struct { uint8_t first, second; int is_tag; } cases[] = {
        {0x81, 0x00, 1}, {0x88, 0xa8, 1}, {0x08, 0x00, 0}, {0x81, 0x01, 0}, {0x00, 0x81, 0}, {0x88, 0xa9, 0}, {0x81, 0xa8, 0}, {0x88, 0x00, 0}, {0x86, 0xdd, 0}};
    uint32_t most = most_untagged(g);

    for (size_t i = 0; i < sizeof cases / sizeof *cases; i++)
        for (uint32_t len = most; len <= g->is.longest && len <= most + 1; len++) {
            int is_taken = cases[i].is_tag || len <= most;
            size_t kept = 77;
            fill(g, 6, len);
            set_type(cases[i].first, cases[i].second);
            expect("a frame of this type", vmig_input(&g->m, 0, frame, len, &kept), is_taken ? VMIG_OK : VMIG_BAD_FRAME);
            expect("kept", kept, is_taken ? len : 77);
            expect("it is dropped", vmig_drop(&g->m, 0), VMIG_OK);
        }
}

static void comes_in(struct guest *g)
{
    input(g, 0, SHORTEST - 1, VMIG_BAD_FRAME, 77);
    input(g, 0, g->is.longest + 1, VMIG_BAD_FRAME, 77);
    input(g, 0, 0, VMIG_BAD_FRAME, 77);
    input(g, 3, SHORTEST, VMIG_OK, SHORTEST);
    receives(g, 3, SHORTEST);
    input(g, 4, 1514, VMIG_OK, 1514);
    receives(g, 4, 1514);
    input(g, 5, g->is.longest, VMIG_OK, g->is.longest);
    receives(g, 5, g->is.longest);
    types(g);
    drops(g);
}

/* The guest sends a frame: a buffer of a byte less than the longest one is refused before the device looks. */
static void sends(struct guest *g, uint32_t n, uint32_t len, vmig_status wanted)
{
    uint32_t used = 77;

    memset(room, 0, FRAME_HEADER);
    memcpy(room + FRAME_HEADER, fill(g, n, len), len);
    put_bytes(&g->m, BUFFERS + BUFFER, room, FRAME_HEADER + len);
    hand_over(g, TRANSMIT, FRAME_HEADER + len);
    expect("a small buffer of the host", vmig_step(&g->m, 0, TRANSMIT, buf, g->is.longest - 1, &used), VMIG_TOO_SMALL);
    memset(buf, 0xee, sizeof buf);
    expect("a frame of the guest", vmig_step(&g->m, 0, TRANSMIT, buf, g->is.longest, &used), wanted);
    expect("its length", used, wanted == VMIG_SENT ? len : 77);
    if (wanted != VMIG_SENT) return;
    expect("its bytes", (uint64_t)memcmp(buf, frame, len), 0);
    expect("what follows them", buf[len], 0xee);
    is_used(g, TRANSMIT, 0);
}

/* A frame of a byte more is malformed: the device asks for a reset, and works on after it. */
static void goes_out(struct guest *g)
{
    sends(g, 6, SHORTEST, VMIG_SENT);
    sends(g, 7, 1514, VMIG_SENT);
    sends(g, 8, g->is.longest, VMIG_SENT);
    sends(g, 9, g->is.longest + 1, VMIG_NEEDS_RESET);
    take_over(g);
    sends(g, 10, SHORTEST - 1, VMIG_NEEDS_RESET);
    take_over(g);
    sends(g, 11, g->is.longest, VMIG_SENT);
}

/* ---- frames that wait, and a move ---------------------------------------------------------------------------------------------- */

/* Every second one is short: frames are counted, and not their bytes. */
static uint32_t length_of(const struct guest *g, uint32_t n) { return n % 2 == 0 ? g->is.longest : SHORTEST + n; }

static void rooms(struct guest *g, size_t wanted)
{
    size_t left = 77;

    expect("room", vmig_room(&g->m, 0, &left), VMIG_OK);
    expect("for frames", left, wanted);
}

static void fill_inbox(struct guest *g)
{
    for (uint32_t n = 0; n < g->is.waiting; n++) {
        rooms(g, g->is.waiting - n);
        input(g, n, length_of(g, n), VMIG_OK, length_of(g, n));
    }
    rooms(g, 0);
    input(g, 99, SHORTEST, VMIG_OK, 0);
    input(g, 99, g->is.longest + 1, VMIG_BAD_FRAME, 77);
}

static void empty_inbox(struct guest *g)
{
    for (uint32_t n = 0; n < g->is.waiting; n++) receives(g, n, length_of(g, n));
    rooms(g, g->is.waiting);
}

/* The stream of a move in which nothing was copied before the stop. */
static size_t sent_stream(struct guest *g)
{
    uint64_t pages, sectors;
    size_t len = 0, got = 1;

    expect("begin", vmig_send_begin(&g->m), VMIG_OK);
    expect("stop", vmig_send_stop(&g->m, &pages, &sectors), VMIG_OK);
    for (; got > 0; len += got) expect("take", vmig_send_take(&g->m, stream + len, sizeof stream - len, &got), VMIG_OK);
    return len;
}

/* It arrives where frames as long are allowed, and is the same machine. */
static void moves(struct guest *g)
{
    vmig_arrival arrival = VMIG_ARRIVAL;
    vmig_machine target = VMIG_NONE;
    size_t len = sent_stream(g), len_again = 0;

    expect("its version", stream[4], is_long(g) ? 3 : 2);
    arrival.most_pages = PAGES, arrival.flags = VMIG_LARGE, arrival.frame = is_long(g) ? g->is.longest : 0;
    expect("arrive", vmig_arrive(&arrival, &target), VMIG_OK);
    for (size_t at = 0; at < len; at += 1000)
        expect("a piece", vmig_feed(&target, stream + at, len - at < 1000 ? len - at : 1000), len - at <= 1000 ? VMIG_WHOLE : VMIG_OK);
    expect("finish", vmig_finish(&target), VMIG_OK);
    expect("saved again", vmig_save(&target, again, sizeof again, &len_again), VMIG_OK);
    expect("as long", len_again, len);
    expect("the same", (uint64_t)memcmp(stream, again, len), 0);
    vmig_free(&g->m);
    g->m = target;
}

static void is_described(struct guest *g)
{
    vmig_description found = description_of(&g->m);

    expect("its longest frame", found.shapes[0].frame, is_long(g) ? g->is.longest : 0);
    expect("the most that a step sends", found.message, g->is.longest);
}

static void tries(struct device is, int is_packed, int takes_mtu)
{
    struct guest g = {.is = is, .is_packed = is_packed, .takes_mtu = takes_mtu};
    vmig_shape shape = {.kind = VMIG_NETWORK, .mac = {2, 0, 0, 0, 0, 9}, .frame = is_long(&g) ? is.longest : 0};
    vmig_setup setup = VMIG_SETUP;

    setup.pages = PAGES, setup.shapes = &shape, setup.count = 1, setup.flags = VMIG_LARGE;
    expect("make", vmig_make(&setup, &g.m), VMIG_OK);
    is_described(&g);
    offers(&g);
    if (!is_long(&g)) accepts_what_is_not_offered(&g);
    take_over(&g);
    comes_in(&g);
    goes_out(&g);
    fill_inbox(&g);
    moves(&g);
    is_described(&g);
    offers(&g);
    empty_inbox(&g);
    sends(&g, 12, is.longest, VMIG_SENT);
    vmig_free(&g.m);
}

int main(void)
{
    for (size_t i = 0; i < sizeof DEVICES / sizeof *DEVICES; i++)
        for (int is_packed = 0; is_packed < 2; is_packed++)
            for (int takes_mtu = 0; takes_mtu <= (DEVICES[i].longest > 1514); takes_mtu++) tries(DEVICES[i], is_packed, takes_mtu);
    return ended("long_frames");
}
