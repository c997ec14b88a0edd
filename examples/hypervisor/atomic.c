/* The atomic instructions (A): there is one processor, so each is a load and a store with nothing between. */
#include "arithmetic.h"
#include "memory.h"

/* What an instruction leaves in memory where `old` was. False where there is none. */
static int combine(unsigned function, uint64_t old, uint64_t b, uint64_t *new)
{
    switch (function) {
    case 0x01: *new = b; return 1;
    case 0x00: *new = old + b; return 1;
    case 0x04: *new = old ^ b; return 1;
    case 0x0c: *new = old & b; return 1;
    case 0x08: *new = old | b; return 1;
    case 0x10: *new = (old ^ SIGN) < (b ^ SIGN) ? old : b; return 1;
    case 0x14: *new = (old ^ SIGN) < (b ^ SIGN) ? b : old; return 1;
    case 0x18: *new = old < b ? old : b; return 1;
    case 0x1c: *new = old < b ? b : old; return 1;
    default: return 0;
    }
}

/* Where the bytes are, in RAM. Else the guest had an exception: a device takes no atomic access. */
static uint8_t *find_in_ram(struct processor *p, uint64_t address, enum access access, unsigned width)
{
    uint64_t device;
    uint8_t *at = find_quickly(p, address, access, width);

    if (at != NULL) return at;
    at = memory_find(p, address, access, width, &device);
    if (at == NULL && device != UINT64_MAX) trap(p, access == READ ? READ_ACCESS : WRITE_ACCESS, address);
    return at;
}

void run_atomic(struct processor *p, uint32_t word)
{
    unsigned function = word >> 27, width = word >> 12 & 1 ? 8 : 4;
    uint64_t address = p->x[word >> 15 & 31], b = p->x[word >> 20 & 31], old, new = 0, *to = &p->x[word >> 7 & 31];
    int is_reserve = function == 2, is_conditional = function == 3;
    uint8_t *at;

    if ((word >> 12 & 7) != 2 && (word >> 12 & 7) != 3) {
        trap(p, ILLEGAL, 0);
        return;
    }
    if (address % width != 0) {
        trap(p, is_reserve ? READ_MISALIGNED : WRITE_MISALIGNED, address);
        return;
    }
    at = find_in_ram(p, address, is_reserve ? READ : WRITE, width);
    if (at == NULL) return;
    old = sign_extend(get_number(at, width), 8 * width);
    if (is_reserve) {
        p->reserved = address;
        *to = old;
    } else if (is_conditional) {
        if (p->reserved == address) put_number(at, width, b);
        *to = p->reserved != address;
        p->reserved = NOT_RESERVED;
    } else if (combine(function, old, width == 4 ? sign_extend(b, 32) : b, &new)) {
        put_number(at, width, new);
        *to = old;
    } else {
        trap(p, ILLEGAL, 0);
    }
}
