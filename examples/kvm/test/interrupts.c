/* A guest in ring 0 with tables of its own, which takes interrupts: those of its LAPIC's timer, and those of the
 * entropy device, through the IOAPIC. It waits in HLT, and asks for random bytes again and again; each answer has to
 * come with an interrupt. Some ten times a second it prints what it counted, its TSC, KVM's clock in nanoseconds, and
 * a word that test/late.c writes, at the UART, until a byte comes there. */
#define ORDER "mfence"
#include "../../hypervisor/guest/queue.h"

enum { TIMER = 0x40, DEVICE = 0x50, VECTORS = 256, CODE = 8, GATE = 0x8e00, TICKS_A_LINE = 10, PATIENCE = 3000 };
enum {
    UART = 0x3f8, LINE_STATUS = UART + 5, HAS_BYTE = 1, POWER = 0x604, POWER_OFF = 0x2000, FAILED = 0xf4,
    KVM_CLOCK = 0x4b564d01
};
enum {
    WINDOWS = 8, WINDOW_SIZE = 0x1000, ENTROPY = 4, RANDOM = 16, LEVEL = 1 << 15, PERIODIC = 1 << 17, MASKED = 1
    << 16, LATE_AT = 0x90000
};

/* Registers of a device, of the LAPIC and of the IOAPIC. The LAPIC's timer counts nanoseconds: ten milliseconds are a
 * tick. */
enum {
    DEVICE_ID = 0x008, FEATURES = 0x020, FEATURES_SELECT = 0x024, QUEUE_SELECT = 0x030, QUEUE_SIZE = 0x038,
    QUEUE_READY = 0x044, NOTIFY = 0x050, INTERRUPT_STATUS = 0x060, INTERRUPT_ACK = 0x064, STATUS = 0x070,
    TABLE = 0x080, DRIVER_AREA = 0x090, DEVICE_AREA = 0x0a0
};
enum {
    END_OF_INTERRUPT = 0xb0, SPURIOUS = 0xf0, LVT_TIMER = 0x320, LVT_LINE = 0x350, INITIAL_COUNT = 0x380,
    DIVIDE = 0x3e0, BY_ONE = 0xb, TICK = 10000000
};

#define WINDOWS_AT UINT64_C(0xd0000000)
#define LAPIC_AT UINT64_C(0xfee00000)
#define IOAPIC_AT UINT64_C(0xfec00000)

struct gate {
    uint16_t low, selector, flags, middle;
    uint32_t high, reserved;
};

struct table {
    uint16_t limit;
    uint64_t at;
} __attribute__((packed));

/* KVM's clock: its time at a TSC, and how a later TSC counts. An odd version is being written. */
static volatile struct {
    uint32_t version, pad;
    uint64_t tsc, time;
    uint32_t factor;
    int8_t shift;
    uint8_t flags, pad_2[2];
} clock __attribute__((aligned(64)));

static struct gate gates[VECTORS] __attribute__((aligned(16)));
static uint64_t segments[] = {0, UINT64_C(0x00af9a000000ffff), UINT64_C(0x00cf92000000ffff)};
static volatile uint32_t timers, devices, turns;
static volatile uint8_t random_bytes[RANDOM];
static struct queue queue;
static uint64_t window;

__asm__(".section .text.start, \"ax\"\n"
        ".globl start\n"
        "start: call run\n"
        ".text\n"
        ".macro entry name, function\n"
        "\\name: push %rax; push %rcx; push %rdx; push %rsi; push %rdi; push %r8; push %r9; push %r10; push %r11\n"
        "cld; call \\function\n"
        "pop %r11; pop %r10; pop %r9; pop %r8; pop %rdi; pop %rsi; pop %rdx; pop %rcx; pop %rax; iretq\n"
        ".endm\n"
        "entry timer_entry on_timer\n"
        "entry device_entry on_device\n"
        "entry fault_entry on_fault\n");
void timer_entry(void), device_entry(void), fault_entry(void);

static volatile uint32_t *reg(uint64_t at)
{
    return (volatile uint32_t *)at;
}

static void out(uint16_t port, uint8_t value)
{
    __asm__ volatile("outb %b0, %w1" : : "a"(value), "d"(port));
}

static uint8_t in(uint16_t port)
{
    uint8_t value;

    __asm__ volatile("inb %w1, %b0" : "=a"(value) : "d"(port));
    return value;
}

static void print(const char *text)
{
    while (*text != '\0') out(UART, (uint8_t)*text++);
}

static void print_number(const char *name, uint64_t value)
{
    char digits[24];
    int at = sizeof digits - 1;

    digits[at] = '\0';
    do digits[--at] = (char)('0' + value % 10);
    while ((value /= 10) != 0);
    print(name);
    print(digits + at);
}

__attribute__((noreturn)) static void power_off(uint32_t has_failed)
{
    for (;;) {
        if (has_failed) out(FAILED, 1);
        else __asm__ volatile("outw %w0, %w1" : : "a"(POWER_OFF), "d"(POWER));
    }
}

__attribute__((noreturn)) static void fail(const char *what)
{
    print("guest: wrong: ");
    print(what);
    print("\n");
    power_off(1);
}

__attribute__((used)) static void on_timer(void)
{
    timers++;
    *reg(LAPIC_AT + END_OF_INTERRUPT) = 0;
}

/* A line is high as long as its device waits for this word. */
__attribute__((used)) static void on_device(void)
{
    devices++;
    *reg(window + INTERRUPT_ACK) = *reg(window + INTERRUPT_STATUS);
    *reg(LAPIC_AT + END_OF_INTERRUPT) = 0;
}

__attribute__((used)) static void on_fault(void)
{
    fail("a fault");
}

static void set_gate(uint32_t vector, void (*entry)(void))
{
    uint64_t at = (uint64_t)entry;
    struct gate gate;

    gate.low = (uint16_t)at;
    gate.selector = CODE;
    gate.flags = GATE;
    gate.middle = (uint16_t)(at >> 16);
    gate.high = (uint32_t)(at >> 32);
    gate.reserved = 0;
    gates[vector] = gate;
}

static void set_tables(void)
{
    struct table interrupts, descriptors;

    for (uint32_t vector = 0; vector < VECTORS; vector++) set_gate(vector, fault_entry);
    set_gate(TIMER, timer_entry);
    set_gate(DEVICE, device_entry);
    interrupts.limit = sizeof gates - 1;
    interrupts.at = (uint64_t)gates;
    descriptors.limit = sizeof segments - 1;
    descriptors.at = (uint64_t)segments;
    __asm__ volatile("lgdt %0; lidt %1" : : "m"(descriptors), "m"(interrupts));
}

static void write_ioapic(uint32_t number, uint32_t value)
{
    *reg(IOAPIC_AT) = number;
    *reg(IOAPIC_AT + 0x10) = value;
}

/* The PICs' line to the LAPIC is masked: they have no vectors. */
static void set_controllers(uint32_t pin)
{
    *reg(LAPIC_AT + LVT_LINE) = MASKED;
    *reg(LAPIC_AT + SPURIOUS) = 0x1ff;
    *reg(LAPIC_AT + DIVIDE) = BY_ONE;
    *reg(LAPIC_AT + LVT_TIMER) = PERIODIC | TIMER;
    *reg(LAPIC_AT + INITIAL_COUNT) = TICK;
    write_ioapic(0x10 + 2 * pin + 1, 0);
    write_ioapic(0x10 + 2 * pin, LEVEL | DEVICE);
}

/* Finds the entropy device. Returns its pin. */
static uint32_t find_device(void)
{
    static const uint8_t PINS[WINDOWS] = {5, 6, 7, 9, 10, 11, 12, 14};

    for (uint32_t n = 0; n < WINDOWS; n++) {
        window = WINDOWS_AT + n * WINDOW_SIZE;
        if (*reg(window + DEVICE_ID) == ENTROPY) return PINS[n];
    }
    fail("no entropy device");
}

static void set_device(void)
{
    *reg(window + STATUS) = 0;
    *reg(window + STATUS) = 3;
    *reg(window + FEATURES_SELECT) = 1;
    *reg(window + FEATURES) = 1;
    *reg(window + STATUS) = 0xb;
    queue_clear(&queue, 0, 0);
    *reg(window + QUEUE_SELECT) = 0;
    *reg(window + QUEUE_SIZE) = ENTRIES;
    *reg(window + TABLE) = (uint32_t)(uint64_t)&queue.table;
    *reg(window + DRIVER_AREA) = (uint32_t)(uint64_t)&queue.available;
    *reg(window + DEVICE_AREA) = (uint32_t)(uint64_t)&queue.used;
    *reg(window + QUEUE_READY) = 1;
    *reg(window + STATUS) = 0xf;
}

static uint64_t read_tsc(void)
{
    uint32_t low, high;

    __asm__ volatile("lfence; rdtsc" : "=a"(low), "=d"(high));
    return (uint64_t)high << 32 | low;
}

static void begin_clock(void)
{
    uint64_t at = (uint64_t)&clock | 1;

    __asm__ volatile("wrmsr" : : "c"(KVM_CLOCK), "a"((uint32_t)at), "d"((uint32_t)(at >> 32)) : "memory");
}

/* The time, of this TSC. */
static uint64_t read_clock(uint64_t *tsc)
{
    uint64_t time;
    uint32_t version;

    do {
        version = clock.version;
        *tsc = read_tsc();
        time = *tsc - clock.tsc;
        time = clock.shift < 0 ? time >> -clock.shift : time << clock.shift;
        time = clock.time + (uint64_t)((unsigned __int128)time * clock.factor >> 32);
    } while (version % 2 != 0 || version != clock.version);
    return time;
}

static void print_counts(void)
{
    uint64_t tsc, time = read_clock(&tsc);

    print_number("guest: turns ", turns);
    print_number(", timers ", timers);
    print_number(", devices ", devices);
    print_number(", late ", *(volatile uint32_t *)LATE_AT);
    print_number(", clock ", time);
    print_number(", tsc ", tsc);
    print("\n");
}

/* One request, whose interrupt comes. The timer's come meanwhile. */
static void do_turn(void)
{
    struct part part = part_of(random_bytes, RANDOM, WRITABLE);
    uint32_t before = devices, since = timers, length;

    queue_offer(&queue, &part, 1);
    *reg(window + NOTIFY) = 0;
    for (;;) {
        __asm__ volatile("cli" : : : "memory");
        if (devices != before) break;
        if (timers - since > PATIENCE) fail("no interrupt of the device");
        __asm__ volatile("sti; hlt" : : : "memory");
    }
    __asm__ volatile("sti" : : : "memory");
    if (!queue_take(&queue, &length)) fail("an interrupt without an answer");
    turns++;
}

/* A tick later. */
static void rest(void)
{
    uint32_t before = timers;

    while (timers == before) __asm__ volatile("hlt" : : : "memory");
}

__attribute__((used, noreturn)) static void run(void)
{
    uint32_t pin = find_device(), printed = 0;

    set_tables();
    set_controllers(pin);
    set_device();
    begin_clock();
    __asm__ volatile("sti");
    while (!(in(LINE_STATUS) & HAS_BYTE)) {
        do_turn();
        rest();
        if (timers - printed < TICKS_A_LINE) continue;
        printed = timers;
        print_counts();
    }
    print("guest: ended\n");
    power_off(0);
}
