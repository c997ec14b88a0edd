/* The table of processors (Intel's MultiProcessor Specification 1.4): one LAPIC, one IOAPIC, and the interrupts of an
 * ISA bus. With it a kernel without ACPI uses the IOAPIC, with lines that are active while they are high; without it
 * the PICs, by edges. */
#include <string.h>
#include "boot.h"

enum { PIN_COUNT = 16, LEVEL_HIGH = 0xd, SIZE = 44 + 20 + 8 + 8 + 8 * PIN_COUNT + 16, AT = TABLE_AT + 16 };
enum { PROCESSOR = 0, BUS = 1, IOAPIC = 2, INTERRUPT = 3, LOCAL = 4 };

static uint8_t *put(uint8_t *at, const uint8_t *entry, unsigned length)
{
    memcpy(at, entry, length);
    return at + length;
}

static void write_sum(const uint8_t *from, int length, uint8_t *to)
{
    uint8_t sum = 0;

    for (int i = 0; i < length; i++) sum = (uint8_t)(sum + from[i]);
    *to = (uint8_t)-sum;
}

/* Pin n is the interrupt n, but that of the timer is at pin 2. */
static uint8_t *write_pins(uint8_t *at)
{
    for (uint8_t n = 0; n < PIN_COUNT; n++) {
        const uint8_t pin = n == 0 ? 2 : n == 2 ? 0 : n, mode = n >= 3 ? LEVEL_HIGH : 0;
        const uint8_t entry[8] = {INTERRUPT, 0, mode, 0, 0, n, 1, pin};

        at = put(at, entry, sizeof entry);
    }
    return at;
}

void table_write(uint8_t *ram)
{
    static const uint8_t POINTER[16] = {'_', 'M', 'P', '_', AT & 0xff, AT >> 8 & 0xff, AT >> 16, 0, 1, 4};
    static const uint8_t HEAD[44] = {'P', 'C', 'M', 'P', SIZE & 0xff, SIZE >> 8, 4, 0,
                                     'V', 'M', 'I', 'G', ' ', ' ', ' ', ' ',
                                     'H', 'Y', 'P', 'E', 'R', 'V', 'I', 'S', 'O', 'R', ' ', ' ',
                                     [34] = 3 + PIN_COUNT + 2, 0, 0, 0, 0xe0, 0xfe};
    static const uint8_t FIRST[20] = {PROCESSOR, 0, 0x14, 3}, ISA[8] = {BUS, 0, 'I', 'S', 'A', ' ', ' ', ' '};
    static const uint8_t CONTROLLER[8] = {IOAPIC, 1, 0x11, 1, 0, 0, 0xc0, 0xfe};
    static const uint8_t INPUTS[16] = {LOCAL, 3, 0, 0, 0, 0, 0xff, 0,
                                       LOCAL, 1, 0, 0, 0, 0, 0xff, 1}; /* the PICs', and NMI */
    uint8_t *pointer = ram + TABLE_AT, *table = put(pointer, POINTER, sizeof POINTER),
            *at = put(table, HEAD, sizeof HEAD);

    at = put(at, FIRST, sizeof FIRST);
    at = put(at, ISA, sizeof ISA);
    at = put(at, CONTROLLER, sizeof CONTROLLER);
    at = write_pins(at);
    put(at, INPUTS, sizeof INPUTS);
    write_sum(pointer, sizeof POINTER, pointer + 10);
    write_sum(table, SIZE, table + 7);
}
