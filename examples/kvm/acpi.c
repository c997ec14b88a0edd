/* ACPI 6.3: how a kernel that has it finds the processor, the interrupt controller, the UART and the windows of the
 * devices; and how it reboots and powers off. The hardware is reduced: no timer, no events, none of an old PC's
 * registers. Five tables, of which the first names the second, the second the third and fourth, and the third the
 * last. */
#include <string.h>
#include "boot.h"

enum { HEAD = 36, RSDP_SIZE = 36, RSDP_OLD_SIZE = 20, XSDT_SIZE = HEAD + 16, FADT_SIZE = 276, MADT_SIZE = 64 };
enum { RSDP_AT = ACPI_AT, XSDT_AT = ACPI_AT + 0x40, FADT_AT = ACPI_AT + 0x100 };
enum { MADT_AT = ACPI_AT + 0x300, DSDT_AT = ACPI_AT + 0x400, RESET_VECTOR = 0xffff0 };

#define UART_PORT UART_AT & 0xff, UART_AT >> 8

/* Where, in the bytes of a device, its number stands twice, its address and its interrupt. */
enum { NAME_AT = 7, UID_AT = 29, ADDRESS_AT = 50, INTERRUPT_AT = 63, SCOPE_SIZE = 7 };

/* The bytes of the DSDT are those that iasl makes of dsdt.asl, whose words are beside them. `run` compares them. */
static const uint8_t SLEEP[] = {
    0x08, '_', 'S', '5', '_', 0x12, 0x07, 0x04, 0x0a, SLEEP_TYPE, 0, 0, 0   /* Name (_S5, Package () {5, 0, 0, 0}) */
};
static const uint8_t WINDOW[] = {
    0x5b, 0x82, 0x43, 0x04, 'V', '0', '0', '0',                             /* Device (V000) */
    0x08, '_', 'H', 'I', 'D', 0x0d, 'L', 'N', 'R', 'O', '0', '0', '0', '5', 0, /* Name (_HID, "LNRO0005") */
    0x08, '_', 'U', 'I', 'D', 0x0d, '0', 0,                                 /* Name (_UID, "0") */
    0x08, '_', 'C', 'C', 'A', 0x01,                                         /* Name (_CCA, One) */
    0x08, '_', 'C', 'R', 'S', 0x11, 0x1a, 0x0a, 0x17,                       /* Name (_CRS, ResourceTemplate () */
    0x86, 0x09, 0x00, 0x01, 0x00, 0x00, 0x00, 0xd0, 0x00, 0x10, 0x00, 0x00, /* Memory32Fixed (.., 0xD0000000, 0x1000) */
    0x89, 0x06, 0x00, 0x01, 0x01, 0x05, 0x00, 0x00, 0x00,                   /* Interrupt (..) { 5 } */
    0x79, 0x00
};
static const uint8_t UART[] = {
    0x5b, 0x82, 0x31, 'C', 'O', 'M', '1',                                   /* Device (COM1) */
    0x08, '_', 'H', 'I', 'D', 0x0c, 0x41, 0xd0, 0x05, 0x01,                 /* Name (_HID, EisaId ("PNP0501")) */
    0x08, '_', 'U', 'I', 'D', 0x01,                                         /* Name (_UID, One) */
    0x08, '_', 'C', 'R', 'S', 0x11, 0x16, 0x0a, 0x13,                       /* Name (_CRS, ResourceTemplate () */
    0x47, 0x01, UART_PORT, UART_PORT, 0x01, UART_SIZE,                      /* IO (.., 0x3F8, 0x3F8, 1, 8) */
    0x89, 0x06, 0x00, 0x01, 0x01, UART_INTERRUPT, 0x00, 0x00, 0x00,         /* Interrupt (..) { 4 } */
    0x79, 0x00
};

static void put(uint8_t *at, uint64_t value, unsigned size)
{
    for (unsigned i = 0; i < size; i++) at[i] = (uint8_t)(value >> (8 * i));
}

/* All bytes of a table add up to 0. */
static void write_sum(uint8_t *table, uint32_t length, unsigned at)
{
    uint8_t sum = 0;

    table[at] = 0;
    for (uint32_t i = 0; i < length; i++) sum = (uint8_t)(sum + table[i]);
    table[at] = (uint8_t)-sum;
}

/* The head that all tables but the first have: name, length, revision, a sum at 9, and who made it. */
static uint8_t *begin_table(uint8_t *ram, uint32_t at, const char *name, uint32_t length, uint8_t revision)
{
    uint8_t *table = ram + at;

    memset(table, 0, length);
    memcpy(table, name, 4);
    put(table + 4, length, 4);
    table[8] = revision;
    memcpy(table + 10, "VMIG  HYPERVIS", 14);
    put(table + 24, 1, 4);
    memcpy(table + 28, "VMIG", 4);
    put(table + 32, 1, 4);
    return table;
}

/* A register of one byte at a port. */
static void put_port(uint8_t *at, uint16_t port)
{
    static const uint8_t BYTE_AT_PORT[4] = {1, 8, 0, 1};

    memcpy(at, BYTE_AT_PORT, sizeof BYTE_AT_PORT);
    put(at + 4, port, 8);
}

static uint8_t *write_window(uint8_t *at, unsigned device)
{
    memcpy(at, WINDOW, sizeof WINDOW);
    at[NAME_AT] = at[UID_AT] = (uint8_t)('0' + device);
    put(at + ADDRESS_AT, WINDOWS_AT + device * WINDOW_SIZE, 4);
    put(at + INTERRUPT_AT, interrupt_of(device), 4);
    return at + sizeof WINDOW;
}

/* The length of a Scope has its low four bits in its first byte, whose high bits say that one follows. */
static void write_dsdt(uint8_t *ram, unsigned devices)
{
    static const uint8_t SYSTEM_BUS[] = {'_', 'S', 'B', '_'};
    uint32_t scope = SCOPE_SIZE - 1 + devices * (uint32_t)sizeof WINDOW + (uint32_t)sizeof UART;
    uint32_t length = HEAD + (uint32_t)sizeof SLEEP + 1 + scope;
    uint8_t *table = begin_table(ram, DSDT_AT, "DSDT", length, 2), *at = table + HEAD;

    memcpy(at, SLEEP, sizeof SLEEP);
    at += sizeof SLEEP;
    at[0] = 0x10;
    at[1] = (uint8_t)(0x40 | (scope & 0xf));
    at[2] = (uint8_t)(scope >> 4);
    memcpy(at + 3, SYSTEM_BUS, sizeof SYSTEM_BUS);
    at += SCOPE_SIZE;
    for (unsigned d = 0; d < devices; d++) at = write_window(at, d);
    memcpy(at, UART, sizeof UART);
    write_sum(table, length, 9);
}

/* One LAPIC, and the IOAPIC with the interrupts from 0 on. */
static void write_madt(uint8_t *ram)
{
    static const uint8_t LAPIC[8] = {0, 8, 0, 0, 1}, IOAPIC[12] = {1, 12, 1, 0, 0, 0, 0xc0, 0xfe};
    uint8_t *table = begin_table(ram, MADT_AT, "APIC", MADT_SIZE, 4);

    put(table + 36, 0xfee00000, 4);
    memcpy(table + 44, LAPIC, sizeof LAPIC);
    memcpy(table + 52, IOAPIC, sizeof IOAPIC);
    write_sum(table, MADT_SIZE, 9);
}

/* There is no VGA, no clock of an old PC and no keyboard's controller, whose reset there is nevertheless. */
static void write_fadt(uint8_t *ram)
{
    enum { NO_VGA = 1 << 2, NO_RTC = 1 << 5 };
    enum { WBINVD = 1, NO_POWER_BUTTON = 1 << 4, NO_SLEEP_BUTTON = 1 << 5, HAS_RESET = 1 << 10, IS_REDUCED = 1 << 20 };
    uint8_t *table = begin_table(ram, FADT_AT, "FACP", FADT_SIZE, 6);

    put(table + 109, NO_VGA | NO_RTC, 2);
    put(table + 112, WBINVD | NO_POWER_BUTTON | NO_SLEEP_BUTTON | HAS_RESET | IS_REDUCED, 4);
    put_port(table + 116, RESET_AT);
    table[128] = RESET_WORD;
    table[131] = 3;
    put(table + 140, DSDT_AT, 8);
    put_port(table + 244, SLEEP_AT);
    put_port(table + 256, SLEEP_AT + 1);
    write_sum(table, FADT_SIZE, 9);
}

/* Linux on reduced hardware reboots by EFI, and without it by a jump to where a BIOS begins, in 16 bits: there the byte
 * goes to the reset register. */
static void write_reset(uint8_t *ram)
{
    static const uint8_t PROGRAM[] = {0xb0, RESET_WORD, 0xe6, RESET_AT, 0xf4, 0xeb, 0xfd}; /* mov, out, hlt, jmp */

    memcpy(ram + RESET_VECTOR, PROGRAM, sizeof PROGRAM);
}

uint64_t acpi_write(uint8_t *ram, unsigned devices)
{
    uint8_t *rsdp = ram + RSDP_AT, *xsdt = begin_table(ram, XSDT_AT, "XSDT", XSDT_SIZE, 1);

    write_reset(ram);
    write_dsdt(ram, devices);
    write_madt(ram);
    write_fadt(ram);
    put(xsdt + 36, FADT_AT, 8);
    put(xsdt + 44, MADT_AT, 8);
    write_sum(xsdt, XSDT_SIZE, 9);
    memset(rsdp, 0, RSDP_SIZE);
    memcpy(rsdp, "RSD PTR ", 8);
    memcpy(rsdp + 9, "VMIG  ", 6);
    rsdp[15] = 2;
    put(rsdp + 20, RSDP_SIZE, 4);
    put(rsdp + 24, XSDT_AT, 8);
    write_sum(rsdp, RSDP_OLD_SIZE, 8);
    write_sum(rsdp, RSDP_SIZE, 32);
    return RSDP_AT;
}
