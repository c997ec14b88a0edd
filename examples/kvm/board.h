/* The board: where RAM and the devices of an x86-64 guest are. Beside these it has what KVM makes: two PICs, an
 * IOAPIC, a LAPIC and a PIT. */
#ifndef BOARD_H
#define BOARD_H

#include <stdint.h>

/* RAM is one piece from address 0 on, of which the guest is told that 0x9fc00 to 0xfffff is reserved. It ends below
 * the windows. */
#define RAM_BASE UINT64_C(0)

/* RAM, unless --mem says how much, and at most. */
enum { PAGE = 4096, MIB = 1 << 20, RAM_MIB = 64, RAM_MIB_MAX = 3072 };

/* Ports: the UART, a 16550; the reset of a keyboard's controller; and, where QEMU has them, the word that powers the
 * board off and the byte by which a guest says that it failed. */
enum { UART_AT = 0x3f8, UART_SIZE = 8, UART_INTERRUPT = 4, RESET_AT = 0x64, RESET_WORD = 0xfe };
enum { POWER_AT = 0x604, POWER_OFF = 0x2000, FAILED_AT = 0xf4 };

/* The sleep control register of ACPI, and behind it that of the status: a sleep of this type, begun by bit 5, powers
 * the board off. */
enum { SLEEP_AT = 0x600, SLEEP_TYPE = 5, SLEEP_OFF = SLEEP_TYPE << 2 | 1 << 5 };

/* The windows of the virtio devices, one after another. */
#define WINDOWS_AT UINT64_C(0xd0000000)
#define WINDOW_SIZE UINT64_C(0x1000)
enum { WINDOWS = 8 };

/* The interrupts of the devices: those below 16 that nothing of an old PC takes. */
static inline unsigned interrupt_of(unsigned device)
{
    static const uint8_t INTERRUPTS[WINDOWS] = {5, 6, 7, 9, 10, 11, 12, 14};

    return INTERRUPTS[device];
}

/* Whether an address lies in `size` bytes from `start` on. */
static inline int lies_in(uint64_t address, uint64_t start, uint64_t size)
{
    return address - start < size;
}

#endif
