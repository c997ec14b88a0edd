/* The registers of supervisor mode that the small guest leaves at values of its own, to find them again wherever it
 * runs. */
#ifndef REGISTERS_H
#define REGISTERS_H

#include <stdint.h>

#define REGISTER(name)                                                \
    static inline uint64_t read_##name(void)                          \
    {                                                                 \
        uint64_t value;                                               \
                                                                      \
        __asm__ volatile("csrr %0, " #name : "=r"(value));            \
        return value;                                                 \
    }                                                                 \
    static inline void write_##name(uint64_t value)                   \
    {                                                                 \
        __asm__ volatile("csrw " #name ", %0" : : "r"(value));        \
    }

REGISTER(sie)
REGISTER(stvec)
REGISTER(sscratch)
REGISTER(sepc)
REGISTER(scause)
REGISTER(stval)
REGISTER(sstatus)

enum { EXTERNAL = 1 << 9, USER_MEMORY = 1 << 18 };

static inline void set_registers(void)
{
    write_sie(EXTERNAL);
    write_stvec(0x54320);
    write_sscratch(UINT64_C(0x123456789abcdef0));
    write_sepc(0x7654);
    write_scause(5);
    write_stval(UINT64_C(0xfedcba9876543210));
    write_sstatus(read_sstatus() | USER_MEMORY);
}

static inline int are_registers_as_set(void)
{
    return read_sie() == EXTERNAL && read_stvec() == 0x54320 && read_sscratch() == UINT64_C(0x123456789abcdef0) &&
           read_sepc() == 0x7654 && read_scause() == 5 && read_stval() == UINT64_C(0xfedcba9876543210) &&
           (read_sstatus() & USER_MEMORY) != 0;
}

#endif
