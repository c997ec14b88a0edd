/* A guest in ring 3 without an operating system, over pages that are where they are. It drives the disk, the entropy
 * device, the network and the console, over split rings and over packed ones, writes 4 MiB of RAM, and adds up all
 * that it reads, again and again until the byte `e` is typed. Each pass has to give the same sum, wherever it runs.
 * It takes no interrupts: it looks until a chain came back. */
#define ORDER "mfence"
#include "../../hypervisor/guest/queue.h"

enum {
    WINDOWS = 8, WINDOW_SIZE = 0x1000, MAGIC = 0x74726976, NETWORK = 1, BLOCK = 2, CONSOLE = 3, ENTROPY = 4,
    KINDS = 5
};
enum {
    ROUNDS = 48, SECTOR = 512, WRITTEN_AT = 64, RANDOM = 16, FRAME = 600, PAYLOAD = 22, FRAMES_EVERY = 4,
    PATIENCE = 1000000
};
enum { AREA = 0x300000, PAGES = 1024, STRIDE = 16, PAGE_WORDS = 512, WORDS_APART = 64 };
enum { POWER = 0x604, POWER_OFF = 0x2000, FAILED = 0xf4, FLUSH = 1 << 9 };

/* Registers of a device (VIRTIO 1.2, 4.2.2). */
enum {
    DEVICE_ID = 0x008, FEATURES = 0x020, FEATURES_SELECT = 0x024, QUEUE_SELECT = 0x030, QUEUE_SIZE = 0x038,
    QUEUE_READY = 0x044, NOTIFY = 0x050, INTERRUPT_STATUS = 0x060, INTERRUPT_ACK = 0x064, STATUS = 0x070,
    TABLE = 0x080, DRIVER_AREA = 0x090, DEVICE_AREA = 0x0a0
};

#define WINDOWS_AT UINT64_C(0xd0000000)

static uint64_t windows[KINDS];
static struct queue queues[KINDS][2];
static volatile uint8_t sector[SECTOR], came[FRAME + 12], sent[FRAME + 12], typed[16], random_bytes[RANDOM], outcome;
static volatile struct { uint32_t type, reserved; uint64_t sector; } request;
static uint64_t sum, rounds_so_far;
static uint32_t number_of_frame, is_ended;

__asm__(".section .text.start, \"ax\"\n"
        ".globl start\n"
        "start: call run\n");

static volatile uint32_t *reg(uint32_t kind, uint32_t offset)
{
    return (volatile uint32_t *)(windows[kind] + offset);
}

__attribute__((noreturn)) static void power_off(uint32_t has_failed)
{
    for (;;) {
        if (has_failed) __asm__ volatile("outb %b0, %w1" : : "a"(1), "d"(FAILED));
        else __asm__ volatile("outw %w0, %w1" : : "a"(POWER_OFF), "d"(POWER));
    }
}

static void add(const volatile uint8_t *bytes, uint32_t length)
{
    for (uint32_t i = 0; i < length; i++) sum = (sum ^ bytes[i]) * UINT64_C(1099511628211);
}

static uint64_t mix(uint64_t a, uint64_t b)
{
    return (a ^ b) * UINT64_C(0x100000001b3) + UINT64_C(0x9e3779b97f4a7c15);
}

/* Offers a chain and looks until it came back. Returns how many bytes the device wrote. */
static uint32_t exchange(uint32_t kind, uint32_t queue, const struct part *parts, uint32_t count)
{
    uint32_t length = 0;

    queue_offer(&queues[kind][queue], parts, count);
    *reg(kind, NOTIFY) = queue;
    while (!queue_take(&queues[kind][queue], &length)) __asm__ volatile("pause");
    *reg(kind, INTERRUPT_ACK) = *reg(kind, INTERRUPT_STATUS);
    return length;
}

static void print(const char *text)
{
    struct part part = part_of(text, 0, 0);

    while (text[part.length] != '\0') part.length++;
    exchange(CONSOLE, 1, &part, 1);
}

__attribute__((noreturn)) static void fail(const char *what)
{
    print("guest: wrong: ");
    print(what);
    print("\n");
    power_off(1);
}

static void set_queue(uint32_t kind, uint32_t number, uint32_t is_packed)
{
    struct queue *q = &queues[kind][number];

    queue_clear(q, number, is_packed);
    *reg(kind, QUEUE_SELECT) = number;
    *reg(kind, QUEUE_SIZE) = ENTRIES;
    *reg(kind, TABLE) = (uint32_t)(uint64_t)&q->table;
    *reg(kind, DRIVER_AREA) = (uint32_t)(uint64_t)&q->available;
    *reg(kind, DEVICE_AREA) = (uint32_t)(uint64_t)&q->used;
    *reg(kind, QUEUE_READY) = 1;
}

/* Takes a device over (VIRTIO 1.2, 3.1.1), with VERSION_1, FLUSH of a disk, and, for packed rings, RING_PACKED. */
static void set_up(uint32_t kind, uint32_t is_packed)
{
    *reg(kind, STATUS) = 0;
    *reg(kind, STATUS) = 1;
    *reg(kind, STATUS) = 3;
    *reg(kind, FEATURES_SELECT) = 0;
    *reg(kind, FEATURES) = kind == BLOCK ? FLUSH : 0;
    *reg(kind, FEATURES_SELECT) = 1;
    *reg(kind, FEATURES) = is_packed ? 5 : 1;
    *reg(kind, STATUS) = 0xb;
    set_queue(kind, 0, is_packed);
    if (kind == NETWORK || kind == CONSOLE) set_queue(kind, 1, is_packed);
    *reg(kind, STATUS) = 0xf;
    if (*reg(kind, STATUS) != 0xf) power_off(1);
}

static void find_devices(void)
{
    for (uint64_t at = WINDOWS_AT; at < WINDOWS_AT + WINDOWS * WINDOW_SIZE; at += WINDOW_SIZE) {
        uint32_t magic = *(volatile uint32_t *)at, kind = *(volatile uint32_t *)(at + DEVICE_ID);

        if (magic == MAGIC && kind > 0 && kind < KINDS && windows[kind] == 0) windows[kind] = at;
    }
    for (uint32_t kind = NETWORK; kind < KINDS; kind++)
        if (windows[kind] == 0) power_off(1);
}

static void use_disk(uint32_t type, uint64_t number)
{
    struct part parts[] = {part_of(&request, sizeof request, 0), part_of(sector, SECTOR, type == 0 ? WRITABLE : 0),
                           part_of(&outcome, 1, WRITABLE)};

    request.type = type;
    request.sector = number;
    outcome = 0xff;
    exchange(BLOCK, 0, parts, 3);
    if (outcome != 0) fail("a request of the disk");
}

/* What was on the disk at first is read, and what is written is read back. */
static void do_disk(uint32_t round)
{
    use_disk(0, round);
    add(sector, SECTOR);
    for (uint32_t i = 0; i < SECTOR; i++) sector[i] = (uint8_t)(i * 7 + round + (i >> 8));
    use_disk(1, WRITTEN_AT + round);
    for (uint32_t i = 0; i < SECTOR; i++) sector[i] = 0;
    use_disk(0, WRITTEN_AT + round);
    add(sector, SECTOR);
}

static void do_entropy(void)
{
    struct part part = part_of(random_bytes, RANDOM, WRITABLE);
    uint8_t all = 0, length;

    for (uint32_t i = 0; i < RANDOM; i++) random_bytes[i] = 0;
    length = (uint8_t)exchange(ENTROPY, 0, &part, 1);
    for (uint32_t i = 0; i < RANDOM; i++) all |= random_bytes[i];
    if (all == 0) fail("random bytes");
    add(&length, 1);
}

/* Each 16th page, from another one in each round, has what it was given 16 rounds before, and is given anew. */
static void do_area(uint32_t round)
{
    volatile uint64_t *area = (volatile uint64_t *)AREA;
    uint32_t before = (round + ROUNDS - STRIDE) % ROUNDS;

    for (uint32_t page = round % STRIDE; page < PAGES; page += STRIDE) {
        uint64_t was = rounds_so_far < STRIDE ? 0 : mix(before, page), is = mix(round, page);

        for (uint32_t i = 0; i < PAGE_WORDS; i += WORDS_APART) {
            if (area[page * PAGE_WORDS + i] != was) fail("a page of RAM");
            area[page * PAGE_WORDS + i] = is;
        }
        sum = mix(sum, is);
    }
    rounds_so_far++;
}

/* A buffer for the next frame, or for typed bytes, waits at the device. */
static void await(uint32_t kind, volatile uint8_t *at, uint32_t length)
{
    struct part part = part_of(at, length, WRITABLE);

    if (queues[kind][0].is_out) return;
    queue_offer(&queues[kind][0], &part, 1);
    *reg(kind, NOTIFY) = 0;
}

static uint32_t number_in(const volatile uint8_t *frame)
{
    return frame[0] | (uint32_t)frame[1] << 8 | (uint32_t)frame[2] << 16 | (uint32_t)frame[3] << 24;
}

static void send_frame(uint32_t round)
{
    struct part part = part_of(sent, FRAME + 12, 0);
    volatile uint8_t *frame = sent + 12;

    for (uint32_t i = 0; i < FRAME; i++) frame[i] = (uint8_t)(i * 3 + round);
    for (uint32_t i = 0; i < 4; i++) frame[14 + i] = (uint8_t)(number_of_frame >> (8 * i));
    exchange(NETWORK, 1, &part, 1);
}

/* Whether the answer to the last frame came. Another one is an answer that came too late. */
static int has_answer(void)
{
    uint32_t length;

    for (uint32_t i = 0; i < PATIENCE; i++) {
        await(NETWORK, came, FRAME + 12);
        if (queue_take(&queues[NETWORK][0], &length) && length == FRAME + 12 &&
            number_in(came + 12 + 14) == number_of_frame)
            return 1;
        __asm__ volatile("pause");
    }
    return 0;
}

/* A frame goes out, and its answer comes. Frames may be lost: then another one goes. */
static void do_network(uint32_t round)
{
    do {
        number_of_frame++;
        send_frame(round);
    } while (!has_answer());
    add(came + 12 + PAYLOAD, FRAME - PAYLOAD);
}

static void do_typed(void)
{
    uint32_t length;

    await(CONSOLE, typed, sizeof typed);
    if (!queue_take(&queues[CONSOLE][0], &length)) return;
    for (uint32_t i = 0; i < length; i++)
        if (typed[i] == 'e') is_ended = 1;
}

static uint64_t pass(void)
{
    sum = UINT64_C(14695981039346656037);
    for (uint32_t is_packed = 0; is_packed < 2; is_packed++) {
        for (uint32_t kind = NETWORK; kind < KINDS; kind++) set_up(kind, is_packed);
        for (uint32_t round = 0; round < ROUNDS; round++) {
            do_disk(round);
            do_entropy();
            do_area(round);
            if (round % FRAMES_EVERY == 0) do_network(round);
            do_typed();
        }
    }
    return sum;
}

static void print_number(uint64_t value)
{
    char text[18];

    for (int i = 15; i >= 0; i--) {
        uint32_t digit = value & 15;

        text[i] = (char)(digit < 10 ? '0' + digit : 'a' + digit - 10);
        value >>= 4;
    }
    text[16] = '\n';
    text[17] = '\0';
    print(text);
}

__attribute__((used, noreturn)) static void run(void)
{
    uint64_t first;

    find_devices();
    first = pass();
    print("guest: works\n");
    while (!is_ended)
        if (pass() != first) fail("another sum than before");
    print("guest: sum ");
    print_number(first);
    power_off(0);
}
