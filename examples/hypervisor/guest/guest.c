/* A guest without an operating system. It drives the console, the disk, the network and the entropy device, over
 * split rings and over packed ones, adds up all that it reads, and does so again and again until the byte `e` is
 * typed. Each pass has to give the same sum, wherever it runs. It lies anywhere in RAM, as all its addresses are
 * relative. It runs with paging, and waits for interrupts. */
#include "paging.h"
#include "queue.h"
#include "registers.h"

enum {
    WINDOWS = 8, WINDOW_SIZE = 0x1000, MAGIC = 0x74726976, NETWORK = 1, BLOCK = 2, CONSOLE = 3, ENTROPY = 4,
    KINDS = 5
};
enum { ROUNDS = 6, PIECE = 4096, SECTORS = 8, FRAME = 600, PAYLOAD = 22, RANDOM = 64, PATIENCE = 1000000 };

/* Registers of a device (VIRTIO 1.2, 4.2.2). */
enum {
    DEVICE_ID = 0x008, FEATURES = 0x020, FEATURES_SELECT = 0x024, QUEUE_SELECT = 0x030, QUEUE_SIZE = 0x038,
    QUEUE_READY = 0x044, NOTIFY = 0x050, INTERRUPT_STATUS = 0x060, INTERRUPT_ACK = 0x064, STATUS = 0x070,
    TABLE = 0x080, DRIVER_AREA = 0x090, DEVICE_AREA = 0x0a0
};

#define WINDOWS_AT UINT64_C(0x10001000)

/* The interrupt controller: its registers for the context of supervisor mode. The device of window n has the source n
 * + 1. */
#ifndef CONTEXT
#define CONTEXT 0
#endif
#define CONTROLLER UINT64_C(0x0c000000)
enum { ENABLED = 0x2000 + 0x80 * CONTEXT, THRESHOLD = 0x200000 + 0x1000 * CONTEXT, CLAIM = THRESHOLD + 4 };

/* The devices: where their registers are, and two queues for each. Queue 0 of the first two kinds takes what comes. */
static uint64_t windows[KINDS];
static struct queue queues[KINDS][2];

static volatile uint8_t piece[PIECE], came[FRAME + 12], sent[FRAME + 12], typed[16], random_bytes[RANDOM], outcome;
static volatile struct { uint32_t type, reserved; uint64_t sector; } request;
static uint64_t sum;
static uint32_t number_of_frame, is_ended;

__asm__(".section .text.start, \"ax\"\n"
        ".globl start\n"
        "start: lla sp, stack_end\n"
        "call run\n");
__attribute__((used)) static uint8_t stack[16384] __attribute__((aligned(16)));
__asm__(".set stack_end, stack + 16384\n");

static uint32_t read_register(uint32_t kind, uint32_t offset)
{
    return *(volatile uint32_t *)(windows[kind] + offset);
}

static void write_register(uint32_t kind, uint32_t offset, uint32_t value)
{
    *(volatile uint32_t *)(windows[kind] + offset) = value;
}

static volatile uint32_t *controller(uint32_t offset)
{
    return (volatile uint32_t *)(CONTROLLER + offset);
}

/* All devices may interrupt. An interrupt is not taken: it ends a wait. */
static void allow_interrupts(void)
{
    for (uint32_t source = 1; source <= WINDOWS; source++) *controller(4 * source) = 1;
    *controller(ENABLED) = (1 << (WINDOWS + 1)) - 2;
    *controller(THRESHOLD) = 0;
}

/* Waits for an interrupt, and acknowledges it at its device. A wait may end before. */
static void await_interrupt(void)
{
    uint32_t source;

    do __asm__ volatile("wfi");
    while ((source = *controller(CLAIM)) == 0);
    volatile uint8_t *window = (volatile uint8_t *)(WINDOWS_AT + (source - 1) * WINDOW_SIZE);
    *(volatile uint32_t *)(window + INTERRUPT_ACK) = *(volatile uint32_t *)(window + INTERRUPT_STATUS);
    *controller(CLAIM) = source;
}

static uint64_t time_now(void)
{
    uint64_t time;

    __asm__ volatile("rdtime %0" : "=r"(time));
    return time;
}

/* The firmware powers off: a reason of 1 says that the guest failed. */
__attribute__((noreturn)) static void power_off(uint64_t reason)
{
    register uint64_t a0 __asm__("a0") = 0, a1 __asm__("a1") = reason, a6 __asm__("a6") = 0,
                         a7 __asm__("a7") = 0x53525354;

    for (;;) __asm__ volatile("ecall" : "+r"(a0), "+r"(a1) : "r"(a6), "r"(a7) : "memory");
}

static void add(const volatile uint8_t *bytes, uint32_t length)
{
    for (uint32_t i = 0; i < length; i++) sum = (sum ^ bytes[i]) * UINT64_C(1099511628211);
}

/* Offers a chain and waits until it came back, with an interrupt at least. Returns how many bytes the device wrote. */
static uint32_t exchange(uint32_t kind, uint32_t queue, const struct part *parts, uint32_t count)
{
    uint32_t length = 0;

    queue_offer(&queues[kind][queue], parts, count);
    write_register(kind, NOTIFY, queue);
    do await_interrupt();
    while (!queue_take(&queues[kind][queue], &length));
    return length;
}

static void print(const char *text)
{
    struct part part = part_of(text, 0, 0);

    while (text[part.length] != '\0') part.length++;
    exchange(CONSOLE, 1, &part, 1);
}

__attribute__((noreturn)) static void fail(const char *what)
{
    print("guest: failed: ");
    print(what);
    print("\n");
    power_off(1);
}

static void set_queue(uint32_t kind, uint32_t number, uint32_t is_packed)
{
    struct queue *q = &queues[kind][number];
    uint64_t areas[] = {(uint64_t)&q->table, (uint64_t)&q->available, (uint64_t)&q->used};
    static const uint16_t REGISTERS[] = {TABLE, DRIVER_AREA, DEVICE_AREA};

    queue_clear(q, number, is_packed);
    write_register(kind, QUEUE_SELECT, number);
    write_register(kind, QUEUE_SIZE, ENTRIES);
    for (int i = 0; i < 3; i++) {
        write_register(kind, REGISTERS[i], (uint32_t)areas[i]);
        write_register(kind, REGISTERS[i] + 4u, (uint32_t)(areas[i] >> 32));
    }
    write_register(kind, QUEUE_READY, 1);
}

/* Takes a device over (VIRTIO 1.2, 3.1.1), with VERSION_1 and, for packed rings, RING_PACKED. */
static void set_up(uint32_t kind, uint32_t is_packed)
{
    write_register(kind, STATUS, 0);
    write_register(kind, STATUS, 1);
    write_register(kind, STATUS, 3);
    write_register(kind, FEATURES_SELECT, 0);
    write_register(kind, FEATURES, 0);
    write_register(kind, FEATURES_SELECT, 1);
    write_register(kind, FEATURES, is_packed ? 5 : 1);
    write_register(kind, STATUS, 0xb);
    set_queue(kind, 0, is_packed);
    if (kind == NETWORK || kind == CONSOLE) set_queue(kind, 1, is_packed);
    write_register(kind, STATUS, 0xf);
    if (read_register(kind, STATUS) != 0xf) power_off(1);
}

static void find_devices(void)
{
    for (uint64_t at = WINDOWS_AT; at < WINDOWS_AT + WINDOWS * WINDOW_SIZE; at += WINDOW_SIZE) {
        uint32_t magic = *(volatile uint32_t *)at, kind = *(volatile uint32_t *)(at + DEVICE_ID);

        if (magic == MAGIC && kind > 0 && kind < KINDS) windows[kind] = at;
    }
    for (uint32_t kind = NETWORK; kind < KINDS; kind++)
        if (windows[kind] == 0) power_off(1);
}

/* Reads or writes eight sectors. */
static void use_disk(uint32_t type, uint64_t sector)
{
    struct part parts[] = {part_of(&request, sizeof request, 0), part_of(piece, PIECE, type == 0 ? WRITABLE : 0),
                           part_of(&outcome, 1, WRITABLE)};

    request.type = type;
    request.sector = sector;
    outcome = 0xff;
    exchange(BLOCK, 0, parts, 3);
    if (outcome != 0) fail("a request of the disk");
}

/* What was on the disk at first is read, and what is written is read back. The piece is overwritten between. */
static void do_disk(uint32_t round)
{
    use_disk(0, round * SECTORS);
    add(piece, PIECE);
    for (uint32_t i = 0; i < PIECE; i++) piece[i] = (uint8_t)(i * 7 + round + (i >> 8));
    use_disk(1, (ROUNDS + round) * SECTORS);
    for (uint32_t i = 0; i < PIECE; i++) piece[i] = 0;
    use_disk(0, (ROUNDS + round) * SECTORS);
    add(piece, PIECE);
}

static void do_entropy(void)
{
    struct part part = part_of(random_bytes, RANDOM, WRITABLE);
    uint8_t all = 0, length;

    for (uint32_t i = 0; i < RANDOM; i++) random_bytes[i] = 0;
    length = (uint8_t)exchange(ENTROPY, 0, &part, 1);
    for (uint32_t i = 0; i < RANDOM; i++) all |= random_bytes[i];
    if (all == 0) fail("random bytes");
    add(&length, 1);
}

/* A buffer for the next frame, or for typed bytes, waits at the device. */
static void await(uint32_t kind, volatile uint8_t *at, uint32_t length)
{
    struct part part = part_of(at, length, WRITABLE);

    if (queues[kind][0].is_out) return;
    queue_offer(&queues[kind][0], &part, 1);
    write_register(kind, NOTIFY, 0);
}

static uint32_t number_in(const volatile uint8_t *frame)
{
    return frame[0] | (uint32_t)frame[1] << 8 | (uint32_t)frame[2] << 16 | (uint32_t)frame[3] << 24;
}

static void send_frame(uint32_t round)
{
    struct part part = part_of(sent, FRAME + 12, 0);
    volatile uint8_t *frame = sent + 12;

    for (uint32_t i = 0; i < FRAME; i++) frame[i] = (uint8_t)(i * 3 + round);
    for (uint32_t i = 0; i < 4; i++) frame[14 + i] = (uint8_t)(number_of_frame >> (8 * i));
    exchange(NETWORK, 1, &part, 1);
}

/* Whether the answer to the last frame came. Another one is an answer that came too late. */
static int has_answer(uint64_t until)
{
    uint32_t length;

    while (time_now() < until) {
        await(NETWORK, came, FRAME + 12);
        if (queue_take(&queues[NETWORK][0], &length) && length == FRAME + 12 &&
            number_in(came + 12 + 14) == number_of_frame)
            return 1;
    }
    return 0;
}

/* A frame goes out, and its answer comes. Frames may be lost: then another one goes. */
static void do_network(uint32_t round)
{
    do {
        number_of_frame++;
        send_frame(round);
    } while (!has_answer(time_now() + PATIENCE));
    add(came + 12 + PAYLOAD, FRAME - PAYLOAD);
}

/* Writes pages by their addresses in the page table, and reads them by those in RAM. */
static void do_heap(uint32_t round)
{
    uint64_t all = 0;

    for (uint32_t page = 0; page < HEAP; page++)
        for (uint32_t i = 0; i < PIECE / 8; i += 8) mapped_page(page)[i] = (uint64_t)page * i + round;
    for (uint32_t page = 0; page < HEAP; page++)
        for (uint32_t i = 0; i < PIECE / 8; i += 8) all += heap_page(page)[i] * (page + 1);
    add((volatile uint8_t *)&all, 8);
}

static void do_typed(void)
{
    uint32_t length;

    await(CONSOLE, typed, sizeof typed);
    if (!queue_take(&queues[CONSOLE][0], &length)) return;
    for (uint32_t i = 0; i < length; i++)
        if (typed[i] == 'e') is_ended = 1;
}

static uint64_t pass(void)
{
    sum = UINT64_C(14695981039346656037);
    for (uint32_t is_packed = 0; is_packed < 2; is_packed++) {
        for (uint32_t kind = NETWORK; kind < KINDS; kind++) set_up(kind, is_packed);
        for (uint32_t round = 0; round < ROUNDS; round++) {
            do_disk(round);
            do_entropy();
            do_heap(round);
            do_network(round);
            do_typed();
            if (!are_registers_as_set()) fail("a register of supervisor mode");
        }
    }
    return sum;
}

static void print_number(uint64_t value)
{
    char text[18];

    for (int i = 15; i >= 0; i--) {
        uint32_t digit = value & 15;

        text[i] = (char)(digit < 10 ? '0' + digit : 'a' + digit - 10);
        value >>= 4;
    }
    text[16] = '\n';
    text[17] = '\0';
    print(text);
}

__attribute__((used, noreturn)) static void run(void)
{
    uint64_t first;

    begin_paging();
    find_devices();
    allow_interrupts();
    set_registers();
    first = pass();
    print("guest: works\n");
    while (!is_ended)
        if (pass() != first) fail("another sum than before");
    print("guest: sum ");
    print_number(first);
    power_off(0);
}
