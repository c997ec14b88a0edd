/* A machine of 5 GiB, over RAM of this program that is mapped without reserve. Its RAM begins at 2 GiB, so both the guest's addresses and the
 * places in RAM pass 2^32, each at a page of its own. Devices of every kind, over both layouts, have their queues and buffers above these
 * and across them. Then the machine moves while its guest runs, and where it arrives no more memory is taken than for what was sent. Where the
 * system maps no 5 GiB without reserve the program says so, and ends; and where pages that are only read take memory the machine does not
 * move. */
#define _DEFAULT_SOURCE
#include "driver.h"
#include "mapping.h"

enum { PAGES = 1310720, WORDS = PAGES / 64, SECTORS = 16, SECTOR = 512, ENTRIES = 8 };

#define BASE UINT64_C(0x80000000)
#define RAM ((size_t)PAGES * PAGE)

/* Where addresses pass 2^32, and where the places in RAM do. */
static const uint64_t EDGES[] = {UINT64_C(1) << 32, BASE + (UINT64_C(1) << 32)};

/* Kinds of devices: the first four drive split rings, and the others packed ones. */
enum { BLOCK, NETWORK, CONSOLE, ENTROPY, KINDS, DEVICES = 2 * KINDS, QUEUES = 12 };

static const vmig_shape SHAPES[DEVICES] = {
    {.kind = VMIG_BLOCK, .sectors = SECTORS}, {.kind = VMIG_NETWORK, .mac = {2, 0, 0, 0, 0, 1}}, {.kind = VMIG_CONSOLE}, {.kind = VMIG_ENTROPY},
    {.kind = VMIG_BLOCK, .sectors = SECTORS}, {.kind = VMIG_NETWORK, .mac = {2, 0, 0, 0, 0, 2}}, {.kind = VMIG_CONSOLE}, {.kind = VMIG_ENTROPY},
};

/* The queues by their device and its number there. */
static const uint8_t DEVICE_OF[QUEUES] = {0, 1, 1, 2, 2, 3, 4, 5, 5, 6, 6, 7};
static const uint8_t NUMBER_OF[QUEUES] = {0, 0, 1, 0, 1, 0, 0, 0, 1, 0, 1, 0};

/* What of a queue lies across an edge. What does not has a page of its own above it: the three areas, the header and the outcome of a
 * request of a disk, and the bytes. */
enum { TABLE, DRIVER, DEVICE, BUFFER, OBJECTS, HEADERS = OBJECTS, NOTHING, ROOM = 8 };

/* Requests of a disk (VIRTIO 1.2, 5.2.6), and the flags of packed descriptors (2.7.1, 2.8.1). */
enum { IN = 0, OUT = 1, OUTCOME = 0x100, AVAILABLE = 1 << 7, USED_ONCE = 1 << 15 };

/* The bytes of a message; a frame has a header of 12 bytes before it in a buffer (5.1.6). */
enum { LENGTH = 60, FRAME_HEADER = 12 };

struct queue {
    uint64_t at[OBJECTS + 1];   /* the areas, the bytes, and the header of a request */
    uint32_t next;              /* the number of descriptors that were made available */
    uint16_t made;              /* and of chains */
};

struct host {
    vmig_machine machine;
    vmig_ram ram;               /* RAM while it is lent */
    uint8_t *room;              /* where RAM lies */
    uint8_t disks[2][SECTORS * SECTOR];
    struct queue queues[QUEUES];
    uint32_t list[64];          /* the pages that the guest wrote and that were not named yet */
    size_t count;
};

static struct host host;
static uint64_t words[WORDS];               /* a bitmap, by which some of them are named */
static uint8_t zeros[PAGE], sent[VMIG_SENT_MAX];

static int is_packed(uint32_t queue) { return DEVICE_OF[queue] >= KINDS; }
static int kind_of(uint32_t queue) { return DEVICE_OF[queue] % KINDS; }
static uint32_t page_of(uint64_t addr) { return (uint32_t)((addr - BASE) / PAGE); }
static uint8_t *bytes_at(struct host *h, uint64_t addr) { return (uint8_t *)h->ram.at + (addr - BASE); }

/* ---- RAM that is lent, and the pages that the guest writes -------------------------------------------------------------------- */

static void lend(struct host *h)
{
    if (h->ram.at == NULL) expect("lend", vmig_lend(&h->machine, &h->ram), VMIG_OK);
}

/* The hardware's log of dirty pages notes a page. */
static void note(struct host *h, uint32_t page)
{
    for (size_t i = 0; i < h->count; i++)
        if (h->list[i] == page) return;
    h->list[h->count++] = page;
}

static void store_bytes(struct host *h, uint64_t addr, const void *bytes, size_t len)
{
    lend(h);
    memcpy(bytes_at(h, addr), bytes, len);
    note(h, page_of(addr));
    note(h, page_of(addr + len - 1));
}

static void store(struct host *h, uint64_t addr, uint64_t value, size_t width)
{
    uint8_t bytes[8];

    for (size_t i = 0; i < width; i++) bytes[i] = (uint8_t)(value >> (8 * i));
    store_bytes(h, addr, bytes, width);
}

static uint64_t load(struct host *h, uint64_t addr, size_t width)
{
    uint64_t value = 0;

    lend(h);
    for (size_t i = width; i-- > 0;) value = value << 8 | bytes_at(h, addr)[i];
    return value;
}

/* RAM comes back, and what was written is named by a list. */
static void give_back_listed(struct host *h)
{
    lend(h);
    expect("a list", give_back_list(&h->machine, &h->ram, h->list, h->count), VMIG_OK);
    h->count = 0;
}

/* The same by two bitmaps, as of two memory slots: the first one is named at the return, and the second, above 4 GiB of RAM, later. */
static void give_back_by_bitmaps(struct host *h)
{
    uint32_t first = page_of(EDGES[1]);
    vmig_pages pages = vmig_bitmap(words, first / 64);

    lend(h);
    for (size_t i = 0; i < h->count; i++) words[h->list[i] / 64] |= UINT64_C(1) << h->list[i] % 64;
    pages.span = first;
    expect("a bitmap", vmig_give_back(&h->machine, &h->ram, &pages), VMIG_OK);
    pages = vmig_bitmap(words + first / 64, WORDS - first / 64), pages.first = first, pages.span = PAGES - first;
    expect("the one of the slot above", vmig_mark(&h->machine, &pages), VMIG_OK);
    for (size_t i = 0; i < h->count; i++) words[h->list[i] / 64] = 0;
    h->count = 0;
}

/* Most loans end with a list, and some with bitmaps. */
static void give_back(struct host *h)
{
    static uint32_t turn;

    if (h->ram.at == NULL) return;
    if (++turn % 8 == 0) give_back_by_bitmaps(h);
    else give_back_listed(h);
}

/* ---- a driver whose queues lie anywhere ---------------------------------------------------------------------------------------- */

static void place(struct host *h, uint8_t dev, uint32_t low_half, uint64_t addr)
{
    write_reg_of(&h->machine, dev, low_half, (uint32_t)addr);
    write_reg_of(&h->machine, dev, low_half + 4, (uint32_t)(addr >> 32));
}

static void make_ready(struct host *h, uint32_t queue)
{
    struct queue *q = &h->queues[queue];
    uint8_t dev = DEVICE_OF[queue];

    write_reg_of(&h->machine, dev, 0x030, NUMBER_OF[queue]);
    write_reg_of(&h->machine, dev, 0x038, ENTRIES);
    place(h, dev, 0x080, q->at[TABLE]);
    place(h, dev, 0x090, q->at[DRIVER]);
    place(h, dev, 0x0a0, q->at[DEVICE]);
    write_reg_of(&h->machine, dev, 0x044, 1);
    expect("queue ready", read_reg_of(&h->machine, dev, 0x044), 1);
}

/* The driver takes the device over; VERSION_1 and RING_PACKED are bits of the upper half. */
static void take_over(struct host *h, uint8_t dev)
{
    write_reg_of(&h->machine, dev, 0x070, 0);
    write_reg_of(&h->machine, dev, 0x070, 3);
    write_reg_of(&h->machine, dev, 0x024, 0);
    write_reg_of(&h->machine, dev, 0x020, 0);
    write_reg_of(&h->machine, dev, 0x024, 1);
    write_reg_of(&h->machine, dev, 0x020, dev < KINDS ? 1 : 5);
    write_reg_of(&h->machine, dev, 0x070, 0xb);
    for (uint32_t queue = 0; queue < QUEUES; queue++)
        if (DEVICE_OF[queue] == dev) make_ready(h, queue);
    write_reg_of(&h->machine, dev, 0x070, 0xf);
    expect("driver ready", read_reg_of(&h->machine, dev, 0x070), 0xf);
}

/* The queue gets its places above an edge, with one of them across it, and is new. */
static void lay_out(struct host *h, uint32_t queue, uint64_t edge, uint32_t across)
{
    static const uint32_t split[OBJECTS] = {64, 8, 36, 100}, packed[OBJECTS] = {64, 4, 4, 100};
    struct queue *q = &h->queues[queue];

    q->next = q->made = 0;
    for (uint32_t object = 0; object <= HEADERS; object++) {
        q->at[object] = edge + (1 + queue * ROOM + object) * (uint64_t)PAGE;
        store_bytes(h, q->at[object], zeros, PAGE);
        if (object != across) continue;
        q->at[object] = edge - (is_packed(queue) ? packed : split)[object];
        store_bytes(h, q->at[object], zeros, PAGE);
    }
}

/* One descriptor of the chain that is made available next, its place-th. In a packed ring the chain's id is the place of its first one. */
struct part {
    uint64_t addr;
    uint32_t len, flags;
};

static void describe_part(struct host *h, uint32_t queue, const struct part *part, uint32_t place, int is_last)
{
    struct queue *q = &h->queues[queue];
    uint32_t number = q->next + place, slot = number % ENTRIES, flags = part->flags | (is_last ? 0 : HAS_NEXT);
    uint64_t at = q->at[TABLE] + 16 * slot;

    store(h, at, part->addr, 8);
    store(h, at + 8, part->len, 4);
    if (is_packed(queue)) flags |= number / ENTRIES % 2 == 0 ? AVAILABLE : USED_ONCE;
    store(h, at + 12, is_packed(queue) ? q->next % ENTRIES : flags, 2);
    store(h, at + 14, is_packed(queue) ? flags : (slot + 1) % ENTRIES, 2);
}

/* The driver makes a chain available, and notifies the device. */
static void offer_chain(struct host *h, uint32_t queue, const struct part *parts, uint32_t count)
{
    struct queue *q = &h->queues[queue];

    for (uint32_t i = 0; i < count; i++) describe_part(h, queue, &parts[i], i, i + 1 == count);
    if (!is_packed(queue)) store(h, q->at[DRIVER] + 4 + 2u * (q->made % ENTRIES), q->next % ENTRIES, 2);
    q->made++;
    if (!is_packed(queue)) store(h, q->at[DRIVER] + 2, q->made, 2);
    q->next += count;
    give_back(h);
    write_reg_of(&h->machine, DEVICE_OF[queue], 0x050, NUMBER_OF[queue]);
}

/* The device gave the last chain, of so many descriptors, back, with this length. */
static void is_used(struct host *h, uint32_t queue, uint32_t count, uint32_t len)
{
    struct queue *q = &h->queues[queue];
    uint32_t head = q->next - count, slot = head % ENTRIES;
    uint64_t at = q->at[DEVICE] + 4 + 8u * ((q->made - 1u) % ENTRIES);

    if (is_packed(queue)) {
        at = q->at[TABLE] + 16 * slot;
        expect("the flags of a used chain", load(h, at + 14, 2) & (AVAILABLE | USED_ONCE), head / ENTRIES % 2 == 0 ? AVAILABLE | USED_ONCE : 0);
        expect("its id", load(h, at + 12, 2), slot);
        expect("its length", load(h, at + 8, 4), len);
        return;
    }
    expect("the used index", load(h, q->at[DEVICE] + 2, 2), q->made);
    expect("its chain", load(h, at, 4), slot);
    expect("its length", load(h, at + 4, 4), len);
}

/* Whether a page has a part of a queue, or is the one after its first. */
static int is_of_a_queue(const struct host *h, uint32_t page)
{
    for (uint32_t queue = 0; queue < QUEUES; queue++)
        for (uint32_t object = 0; object <= HEADERS; object++)
            if (page - page_of(h->queues[queue].at[object]) <= 1) return 1;
    return 0;
}

/* The devices do their work. A message of the guest is these bytes. The pages that they wrote are told, and each has a part of a queue. */
static void work(struct host *h, const uint8_t *message)
{
    uint32_t pages[16];
    vmig_turn turn = VMIG_TURN;
    vmig_status status;
    size_t count = 77;

    turn.left = 100;
    do {
        status = vmig_work(&h->machine, &turn, sent, sizeof sent);
        if (status == VMIG_SYNC) status = vmig_step(&h->machine, turn.dev, turn.pick, sent, sizeof sent, &turn.len);
        if (status != VMIG_SENT) continue;
        expect("a message", message != NULL && turn.len == LENGTH && memcmp(sent, message, LENGTH) == 0, 1);
    } while (status != VMIG_IDLE && status != VMIG_WORK && !vmig_refused(status));
    expect("no work is left", status, VMIG_IDLE);
    expect("pages that were written", vmig_written(&h->machine, pages, 16, &count), VMIG_OK);
    expect("some, and not all of the array", count > 0 && count < 16, 1);
    for (size_t i = 0; i < count && i < 16; i++) expect("a page of a queue", (uint64_t)is_of_a_queue(h, pages[i]), 1);
}

/* ---- what a guest does with each queue ------------------------------------------------------------------------------------------ */

/* Bytes that are others each time. */
static const uint8_t *new_bytes(void)
{
    static uint8_t bytes[SECTOR];
    static uint32_t state = 2463534242;

    for (size_t i = 0; i < sizeof bytes; i++) {
        state ^= state << 13;
        state ^= state >> 17;
        state ^= state << 5;
        bytes[i] = (uint8_t)state;
    }
    return bytes;
}

/* A buffer of the guest is filled with what the host puts in. */
static void fill(struct host *h, uint32_t queue)
{
    const uint8_t *bytes = new_bytes();
    uint32_t before = kind_of(queue) == NETWORK ? FRAME_HEADER : 0;
    struct part part = {h->queues[queue].at[BUFFER], before + LENGTH, WRITABLE};
    size_t kept = 77;

    offer_chain(h, queue, &part, 1);
    expect("input", vmig_input(&h->machine, DEVICE_OF[queue], bytes, LENGTH, &kept), VMIG_OK);
    expect("all of it", kept, LENGTH);
    work(h, NULL);
    is_used(h, queue, 1, before + LENGTH);
    expect("its bytes", (uint64_t)memcmp(bytes_at(h, part.addr + before), bytes, LENGTH), 0);
}

/* The guest sends a message. */
static void send(struct host *h, uint32_t queue)
{
    const uint8_t *bytes = new_bytes();
    uint32_t before = kind_of(queue) == NETWORK ? FRAME_HEADER : 0;
    struct part part = {h->queues[queue].at[BUFFER], before + LENGTH, 0};

    store_bytes(h, part.addr, zeros, before + LENGTH);
    store_bytes(h, part.addr + before, bytes, LENGTH);
    offer_chain(h, queue, &part, 1);
    work(h, bytes);
    is_used(h, queue, 1, 0);
}

static void request(struct host *h, uint32_t queue, uint32_t type, uint64_t sector)
{
    struct queue *q = &h->queues[queue];
    struct part parts[] = {
        {q->at[HEADERS], 16, 0}, {q->at[BUFFER], SECTOR, type == IN ? WRITABLE : 0}, {q->at[HEADERS] + OUTCOME, 1, WRITABLE}};

    store(h, parts[0].addr, type, 8);
    store(h, parts[0].addr + 8, sector, 8);
    store(h, parts[2].addr, 0xff, 1);
    offer_chain(h, queue, parts, 3);
}

static void is_done(struct host *h, uint32_t queue, uint32_t len)
{
    is_used(h, queue, 3, len);
    expect("its outcome", load(h, h->queues[queue].at[HEADERS] + OUTCOME, 1), 0);
}

/* The guest writes a sector of its disk, and reads it. */
static void write_and_read(struct host *h, uint32_t queue)
{
    uint64_t sector = h->queues[queue].made % SECTORS, addr = h->queues[queue].at[BUFFER];
    uint8_t bytes[SECTOR];

    memcpy(bytes, new_bytes(), SECTOR);
    store_bytes(h, addr, bytes, SECTOR);
    request(h, queue, OUT, sector);
    work(h, NULL);
    is_done(h, queue, 1);
    store_bytes(h, addr, zeros, SECTOR);
    request(h, queue, IN, sector);
    work(h, NULL);
    is_done(h, queue, SECTOR + 1);
    expect("a sector", (uint64_t)memcmp(bytes_at(h, addr), bytes, SECTOR), 0);
}

static void use(struct host *h, uint32_t queue)
{
    if (kind_of(queue) == BLOCK) write_and_read(h, queue);
    else if (NUMBER_OF[queue] == 1) send(h, queue);
    else fill(h, queue);
}

/* Each queue gets its places, and each device its driver: two tables lie across the edges, and all the rest above 4 GiB. */
static void lay_out_all(struct host *h)
{
    for (uint32_t queue = 0; queue < QUEUES; queue++) {
        int is_split_disk = queue == 0, is_packed_disk = kind_of(queue) == BLOCK && !is_split_disk;
        lay_out(h, queue, EDGES[!is_split_disk], is_split_disk || is_packed_disk ? TABLE : NOTHING);
        give_back(h);
    }
    for (uint8_t dev = 0; dev < DEVICES; dev++) take_over(h, dev);
}

/* Each part of each queue across each edge in turn, until its ring has come round. */
static void across_the_edges(struct host *h)
{
    for (size_t edge = 0; edge < 2; edge++)
        for (uint32_t queue = 0; queue < QUEUES; queue++)
            for (uint32_t across = 0; across < OBJECTS; across++) {
                lay_out(h, queue, EDGES[edge], across);
                give_back(h);
                take_over(h, DEVICE_OF[queue]);
                for (int turn = 0; turn <= ENTRIES; turn++) use(h, queue);
            }
}

/* The calls that read and write RAM, across the edges and at both ends, and the pages that they wrote. */
static void accesses(struct host *h)
{
    static const uint32_t wanted[] = {0, 524287, 524288, 1048575, 1048576, PAGES - 1};
    vmig_machine *m = &h->machine;
    uint32_t pages[16];
    size_t count = 77;

    give_back(h);
    put(m, BASE, 0x11, 1);
    for (size_t i = 0; i < 2; i++) {
        put(m, EDGES[i] - 4, UINT64_C(0x1122334455667788), 8);
        expect("across an edge", get(m, EDGES[i] - 4, 8), UINT64_C(0x1122334455667788));
        expect("above it", get(m, EDGES[i], 4), 0x11223344);
    }
    put(m, BASE + RAM - 1, 0x99, 1);
    expect("past the end", vmig_ram_read(m, BASE + RAM - 1, sent, 2), VMIG_OUT_OF_RAM);
    expect("at RAM's length", vmig_ram_read(m, RAM, sent, 4), VMIG_OK);
    expect("below RAM", vmig_ram_write(m, BASE - 1, sent, 1), VMIG_OUT_OF_RAM);
    expect("pages that were written", vmig_written(m, pages, 16, &count), VMIG_OK);
    expect("as many", count, 6);
    expect("exactly these", (uint64_t)memcmp(pages, wanted, sizeof wanted), 0);
    expect("the last byte", load(h, BASE + RAM - 1, 1), 0x99);
    expect("the byte above 4 GiB", load(h, EDGES[1], 1), 0x44);
}

/* ---- a move ---------------------------------------------------------------------------------------------------------------------- */

/* The pages that the guest writes while it moves: on both sides of the edges, and at both ends. */
static const uint64_t LATE[] = {BASE, (UINT64_C(1) << 32) - 2048, (UINT64_C(1) << 32) + 2048, BASE + (UINT64_C(1) << 32) - 2048,
                                BASE + (UINT64_C(1) << 32) + 2048, BASE + RAM - 1};
enum { LATE_PAGES = sizeof LATE / sizeof *LATE };

/* One page of the guest is written with zeros alone, and one of the target's memory has bytes where zeros arrive. */
enum { ONLY_ZEROS = 77, HAD_BYTES = 1200000 };

/* The pages whose bytes are in the stream, by its records (docs/stream-format.md). */
static uint8_t in_stream[PAGES];

static uint64_t number_at(const uint8_t *bytes)
{
    return bytes[0] | (uint64_t)bytes[1] << 8 | (uint64_t)bytes[2] << 16 | (uint64_t)bytes[3] << 24;
}

/* How many bytes follow this head of a record. A page that it has is noted. */
static size_t body_of(const uint8_t *head)
{
    if (head[0] == 1) in_stream[number_at(head + 1) % PAGES] = 1;
    if (head[0] == 1) return PAGE;
    if (head[0] == 2) return head[6] == 1 ? SECTOR : 0;
    if (head[0] == 4) return number_at(head + 2);
    return head[0] == 5 ? 32 : 0;
}

/* The next bytes of the stream pass by. Its header is as long as the shapes of all devices. */
static void look_at(const uint8_t *bytes, size_t len)
{
    static const size_t heads[] = {0, 5, 7, 5, 6, 1, 5};
    static size_t have, skip = 16 + 2 * (30 + 7 + 1 + 1);
    static uint8_t head[7];

    for (size_t at = 0; at < len;) {
        size_t part = skip < len - at ? skip : len - at;
        at += part, skip -= part;
        if (at == len) break;
        head[have++] = bytes[at++];
        if (have < heads[head[0] % 7]) continue;
        skip = body_of(head);
        have = 0;
    }
}

static void hand_over(struct host *h, vmig_machine *target)
{
    static uint8_t piece[1 << 16];
    size_t got = 0;

    do {
        expect("take", vmig_send_take(&h->machine, piece, sizeof piece, &got), VMIG_OK);
        look_at(piece, got);
        if (vmig_refused(vmig_feed(target, piece, got))) expect("feed", 0, 1);
    } while (got > 0 && failures == 0);
}

/* All that is due is sent. Returns how many pages were due. */
static uint64_t send_round(struct host *h, vmig_machine *target)
{
    vmig_status status;
    vmig_left left;

    expect("what is left", vmig_send_left(&h->machine, &left), VMIG_OK);
    do {
        status = vmig_send_some(&h->machine, 1024);
        hand_over(h, target);
    } while (status == VMIG_OK && failures == 0);
    expect("all of the round", status, VMIG_ROUND_DONE);
    return left.due_pages;
}

static void dirty_pages_are(struct host *h, uint64_t wanted)
{
    vmig_left left;

    expect("what is left", vmig_send_left(&h->machine, &left), VMIG_OK);
    expect("dirty pages", left.dirty_pages, wanted);
}

/* The guest writes a byte into each of these pages, which are named by a list, or by bitmaps. */
static void write_late(struct host *h, uint8_t byte, int is_listed)
{
    give_back(h);
    for (size_t i = 0; i < LATE_PAGES; i++) store(h, LATE[i], byte, 1);
    if (is_listed) give_back_listed(h);
    else give_back_by_bitmaps(h);
}

static void let_arrive(uint8_t *room, uint8_t (*disks)[SECTORS * SECTOR], vmig_machine *target)
{
    vmig_image images[2] = {{disks[0], SECTORS}, {disks[1], SECTORS}};
    vmig_arrival arrival = VMIG_ARRIVAL;

    arrival.ram = (vmig_ram){room, RAM}, arrival.base = BASE, arrival.flags = VMIG_LARGE | VMIG_LOG;
    arrival.images = images, arrival.count_images = 2;
    expect("arrive", vmig_arrive(&arrival, target), VMIG_OK);
    expect("RAM is taken", arrival.ram.len, 0);
}

/* What a request asks for lies above 2^32 while the machine moves: each disk took one, and has read nothing yet. */
static void leave_requests(struct host *h)
{
    for (uint32_t queue = 0; queue < QUEUES; queue++) {
        uint32_t len;
        if (kind_of(queue) != BLOCK) continue;
        request(h, queue, IN, 3);
        expect("a request", vmig_step(&h->machine, DEVICE_OF[queue], 0, sent, sizeof sent, &len), VMIG_TAKEN);
    }
}

static void move(struct host *h, vmig_machine *target)
{
    uint64_t pages = 77, sectors = 77;
    vmig_left left;

    expect("begin", vmig_send_begin(&h->machine), VMIG_OK);
    expect("pages of the first round", send_round(h, target), PAGES);
    dirty_pages_are(h, 0);
    write_late(h, 0x5a, 1);
    dirty_pages_are(h, LATE_PAGES);
    expect("end of the round", vmig_send_round(&h->machine), VMIG_OK);
    expect("pages of the second", send_round(h, target), LATE_PAGES);
    write_late(h, 0xa5, 0);
    dirty_pages_are(h, LATE_PAGES);
    for (uint32_t queue = 0; queue < QUEUES; queue++) use(h, queue);
    leave_requests(h);
    expect("what is left", vmig_send_left(&h->machine, &left), VMIG_OK);
    expect("stop", vmig_send_stop(&h->machine, &pages, &sectors), VMIG_OK);
    expect("pages of the stop", pages, left.dirty_pages);
    expect("sectors of the stop", sectors, left.dirty_sectors);
    hand_over(h, target);
    expect("finish", vmig_finish(target), VMIG_OK);
}

/* RAM has arrived, and both machines' memory is this program's: the source's was freed, and the target's is lent. */
static void has_arrived(struct host *h, const uint8_t *from)
{
    uint64_t taken = taken_pages(h->room, RAM), most = 1, other = 0;    /* one had bytes before */

    lend(h);
    for (uint32_t page = 0; page < PAGES; page++) {
        most += in_stream[page];
        other += memcmp(h->room + (size_t)page * PAGE, from + (size_t)page * PAGE, PAGE) != 0;
    }
    expect("pages that are not the source's", other, 0);
    if (taken == NOT_MEASURED) printf("large: how much memory was taken is not measured: the system does not list it so\n");
    else expect("no more memory than for what was sent", taken <= most ? 0 : taken, 0);
}

/* The machine goes on where it arrived: the requests that were left end, and each queue is used. */
static void go_on(struct host *h)
{
    give_back(h);
    work(h, NULL);
    for (uint32_t queue = 0; queue < QUEUES; queue++) {
        if (kind_of(queue) != BLOCK) continue;
        is_done(h, queue, SECTOR + 1);
        expect("its sector", (uint64_t)memcmp(bytes_at(h, h->queues[queue].at[BUFFER]), h->disks[queue != 0] + 3 * SECTOR, SECTOR), 0);
    }
    for (uint32_t queue = 0; queue < QUEUES; queue++) use(h, queue);
    give_back(h);
}

static void is_large(const vmig_machine *m)
{
    vmig_description found = description_of(m);

    expect("its pages", found.pages, PAGES);
    expect("its base", found.base, BASE);
    expect("its flags", found.flags, VMIG_LARGE | VMIG_LOG);
}

static void make_one(struct host *h)
{
    vmig_image images[2] = {{h->disks[0], SECTORS}, {h->disks[1], SECTORS}};
    vmig_setup setup = VMIG_SETUP;

    setup.ram = (vmig_ram){h->room, RAM}, setup.base = BASE, setup.shapes = SHAPES, setup.count = DEVICES;
    setup.images = images, setup.count_images = 2, setup.flags = VMIG_LOG;
    expect("without VMIG_LARGE", vmig_make(&setup, &h->machine), VMIG_BAD_RAM);
    expect("RAM is not taken", setup.ram.len, RAM);
    setup.flags |= VMIG_LARGE;
    expect("make", vmig_make(&setup, &h->machine), VMIG_OK);
    is_large(&h->machine);
}

/* All that a guest does without a move. */
static void makes_and_serves(struct host *h, uint8_t *from)
{
    h->room = from;
    make_one(h);
    if (failures != 0) return;
    accesses(h);
    lay_out_all(h);
    across_the_edges(h);
    lay_out_all(h);
    store_bytes(h, BASE + (uint64_t)ONLY_ZEROS * PAGE, zeros, PAGE);
    give_back(h);
}

/* The move, into another mapping. */
static void moves(struct host *h, const uint8_t *from, uint8_t *to)
{
    vmig_machine target = VMIG_NONE;
    static uint8_t disks[2][SECTORS * SECTOR];

    memset(to + (size_t)HAD_BYTES * PAGE, 0xee, PAGE);
    let_arrive(to, disks, &target);
    move(h, &target);
    is_large(&target);
    vmig_free(&h->machine);
    h->machine = target, h->room = to;
    expect("the disks", (uint64_t)memcmp(disks, h->disks, sizeof disks), 0);
    if (failures == 0) has_arrived(h, from);
    if (failures == 0) go_on(h);
}

int main(void)
{
    uint8_t *from = map_unreserved(RAM), *to = map_unreserved(RAM);

    if (from == NULL || to == NULL) printf("large: not run: the system maps no 5 GiB without reserve\n");
    else {
        makes_and_serves(&host, from);
        if (takes_by_reading()) printf("large: the move is not run: pages that are only read may take memory here, which would be 10 GiB\n");
        else if (failures == 0) moves(&host, from, to);
        vmig_free(&host.machine);
    }
    unmap_unreserved(from, RAM);
    unmap_unreserved(to, RAM);
    return ended("large");
}
