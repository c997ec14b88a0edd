/* A guest in ring 3 that writes memory at a rate: a page after another, each drawn anew, with bytes of its own that
 * depend on how often it was written. It keeps these counts. Before it writes a page it compares what lies there with
 * its count, and all pages once the letter `e` comes at the UART, which ends it: it prints how many it wrote, and how
 * many were not as they were written last. It is told by ring3.c how much RAM there is, the frequency of its TSC, and
 * how many MB it writes a second: 0 is as many as it can. */
#include <stdint.h>

enum { TOLD_AT = 0x90100, AREA = 0x400000, PAGE = 4096, WORDS = PAGE / 8, COUNTS = 0x200000 };
enum { UART = 0x3f8, LINE_STATUS = UART + 5, HAS_BYTE = 1, POWER = 0x604, POWER_OFF = 0x2000, FAILED = 0xf4 };
enum { LOOKS_A_SECOND = 100, MB = 1000000 };

static volatile const struct {
    uint64_t length, khz, mb;
} *const told = (const void *)TOLD_AT;

/* How often each page was written: it lies in RAM too, below the area. */
static uint32_t *const counts = (uint32_t *)COUNTS;
static uint64_t wrong;

__asm__(".section .text.start, \"ax\"\n"
        ".globl start\n"
        "start: call run\n");

static uint64_t ticks(void)
{
    uint32_t low, high;

    __asm__ volatile("rdtsc" : "=a"(low), "=d"(high));
    return (uint64_t)high << 32 | low;
}

static void print(const char *text)
{
    for (; *text != '\0'; text++) __asm__ volatile("outb %b0, %w1" : : "a"(*text), "d"(UART));
}

static void print_number(uint64_t number)
{
    char digits[21], *at = digits + 20;

    *at = '\0';
    do *--at = (char)('0' + number % 10);
    while ((number /= 10) > 0);
    print(at);
}

static uint8_t byte_at(uint16_t port)
{
    uint8_t byte;

    __asm__ volatile("inb %w1, %b0" : "=a"(byte) : "d"(port));
    return byte;
}

static uint64_t mix(uint64_t a, uint64_t b)
{
    return (a + 1) * UINT64_C(0x9e3779b97f4a7c15) ^ b * UINT64_C(0x100000001b3);
}

static int is_wrong(uint64_t page)
{
    const volatile uint64_t *at = (const volatile uint64_t *)(AREA + page * PAGE);
    uint32_t count = counts[page];

    for (uint64_t i = 0; i < WORDS; i++)
        if (at[i] != (count == 0 ? 0 : mix(page * WORDS + i, count))) return 1;
    return 0;
}

static void write_page(uint64_t page)
{
    volatile uint64_t *at = (volatile uint64_t *)(AREA + page * PAGE);
    uint32_t count;

    wrong += (uint64_t)is_wrong(page);
    count = ++counts[page];
    for (uint64_t i = 0; i < WORDS; i++) at[i] = mix(page * WORDS + i, count);
}

/* That all counts are those of one moment is seen by their sum, which is in a register meanwhile. */
__attribute__((noreturn)) static void end(uint64_t pages, uint64_t written)
{
    uint64_t sum = 0;

    for (uint64_t page = 0; page < pages; page++) {
        wrong += (uint64_t)is_wrong(page);
        sum += counts[page];
    }
    wrong += sum != written;
    print("busy: ");
    print_number(written);
    print(" written, ");
    print_number(wrong);
    print(" wrong\n");
    for (;;) {
        if (wrong > 0) __asm__ volatile("outb %b0, %w1" : : "a"(1), "d"(FAILED));
        else __asm__ volatile("outw %w0, %w1" : : "a"(POWER_OFF), "d"(POWER));
    }
}

/* A host may have another TSC: one that went back, or far on, counts as no time. */
static uint64_t passed(uint64_t *last)
{
    uint64_t now = ticks(), since = now - *last;

    *last = now;
    return since < told->khz * 1000 ? since : 0;
}

__attribute__((noreturn)) void run(void);

void run(void)
{
    uint64_t pages = (told->length - AREA) / PAGE, drawn = 1, written = 0, last = ticks(), time = 0, looked = 0;
    uint64_t ticks_a_page = told->mb == 0 ? 0 : told->khz * 1000 / (told->mb * MB / PAGE), due = 0;

    print("busy: begins\n");
    for (;;) {
        time += passed(&last);
        if (time >= looked + told->khz * 1000 / LOOKS_A_SECOND) {
            looked = time;
            if ((byte_at(LINE_STATUS) & HAS_BYTE) && byte_at(UART) == 'e') end(pages, written);
        }
        if (time < due) continue;
        due += ticks_a_page;
        if (time > due + told->khz * 1000 / LOOKS_A_SECOND) due = time;
        drawn = drawn * UINT64_C(6364136223846793005) + UINT64_C(1442695040888963407);
        write_page((drawn >> 33) % pages);
        written++;
    }
}
