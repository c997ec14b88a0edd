/* The board: where RAM and the devices are. It is QEMU's `virt` of RISC-V, as far as these guests look. */
#ifndef BOARD_H
#define BOARD_H

#include <stdint.h>

/* The guest's physical address of the first byte of RAM. */
#define RAM_BASE UINT64_C(0x80000000)

/* An image is loaded this far into RAM, and begins to run there. */
#define LOAD_OFFSET UINT64_C(0x200000)

/* RAM, unless --mem says how much, and at most. */
enum { PAGE = 4096, MIB = 1 << 20, RAM_MIB = 32, RAM_MIB_MAX = 64 };

/* The word that powers the board off. */
#define POWER_AT UINT64_C(0x00100000)
#define POWER_SIZE UINT64_C(0x1000)
enum { POWER_OFF = 0x5555, POWER_FAIL = 0x3333, POWER_RESET = 0x7777 };

/* The interrupt controller (PLIC). It has one context: supervisor mode of the only processor. */
#define PLIC_AT UINT64_C(0x0c000000)
#define PLIC_SIZE UINT64_C(0x00600000)

/* The UART, a 16550. */
#define UART_AT UINT64_C(0x10000000)
#define UART_SIZE UINT64_C(0x100)
enum { UART_INTERRUPT = 10 };

/* The windows of the virtio devices, one after another. Device d has the window d and the interrupt d + 1. */
#define WINDOWS_AT UINT64_C(0x10001000)
#define WINDOW_SIZE UINT64_C(0x1000)
enum { WINDOWS = 8, FIRST_INTERRUPT = 1 };

/* How often the guest's clock ticks in a second. */
#define TICKS_A_SECOND UINT64_C(10000000)

/* Whether an address lies in `size` bytes from `start` on. */
static inline int lies_in(uint64_t address, uint64_t start, uint64_t size)
{
    return address - start < size;
}

/* Whether an access of `width` bytes is one to a device. RAM comes before all that overlaps it. No register has eight
 * bytes. */
static inline int is_device(uint64_t address, unsigned width)
{
    if (width > 4 || address % width != 0) return 0;
    return lies_in(address, WINDOWS_AT, WINDOWS * WINDOW_SIZE) || lies_in(address, UART_AT, UART_SIZE) ||
           lies_in(address, PLIC_AT, PLIC_SIZE) || lies_in(address, POWER_AT, POWER_SIZE);
}

#endif
