/* The results of the instructions that compute: those of RV64I, and the multiplications and divisions of M. */
#ifndef ARITHMETIC_H
#define ARITHMETIC_H

#include "processor.h"

#define SIGN (UINT64_C(1) << 63)

static inline uint64_t shift_right_signed(uint64_t a, unsigned by)
{
    return a >> by | (-(a >> 63) << 1) << (63 - by);
}

/* The upper half of the product of two numbers without sign. */
static inline uint64_t multiply_high(uint64_t a, uint64_t b)
{
    uint64_t a_low = a & UINT32_MAX, a_high = a >> 32, b_low = b & UINT32_MAX, b_high = b >> 32;
    uint64_t middle = a_high * b_low + (a_low * b_low >> 32), other = a_low * b_high + (middle & UINT32_MAX);

    return a_high * b_high + (middle >> 32) + (other >> 32);
}

static inline uint64_t multiply_high_signed(uint64_t a, uint64_t b)
{
    return multiply_high(a, b) - (a & SIGN ? b : 0) - (b & SIGN ? a : 0);
}

static inline uint64_t divide(uint64_t a, uint64_t b)
{
    return b == 0 ? UINT64_MAX : a / b;
}

static inline uint64_t remainder_of(uint64_t a, uint64_t b)
{
    return b == 0 ? a : a % b;
}

/* The least number divided by -1 is itself, as its magnitude has the same bits. */
static inline uint64_t divide_signed(uint64_t a, uint64_t b)
{
    uint64_t quotient;

    if (b == 0) return UINT64_MAX;
    quotient = (a & SIGN ? -a : a) / (b & SIGN ? -b : b);
    return (a ^ b) & SIGN ? -quotient : quotient;
}

static inline uint64_t remainder_signed(uint64_t a, uint64_t b)
{
    uint64_t rest;

    if (b == 0) return a;
    rest = (a & SIGN ? -a : a) % (b & SIGN ? -b : b);
    return a & SIGN ? -rest : rest;
}

/* What the instruction computes: funct7 from bit 3 on, and funct3. False where there is none. */
static inline int compute(unsigned function, uint64_t a, uint64_t b, uint64_t *result)
{
    switch (function) {
    case 0x000: *result = a + b; return 1;
    case 0x100: *result = a - b; return 1;
    case 0x001: *result = a << (b & 63); return 1;
    case 0x002: *result = (a ^ SIGN) < (b ^ SIGN); return 1;
    case 0x003: *result = a < b; return 1;
    case 0x004: *result = a ^ b; return 1;
    case 0x005: *result = a >> (b & 63); return 1;
    case 0x105: *result = shift_right_signed(a, b & 63); return 1;
    case 0x006: *result = a | b; return 1;
    case 0x007: *result = a & b; return 1;
    case 0x008: *result = a * b; return 1;
    case 0x009: *result = multiply_high_signed(a, b); return 1;
    case 0x00a: *result = multiply_high(a, b) - (a & SIGN ? b : 0); return 1;
    case 0x00b: *result = multiply_high(a, b); return 1;
    case 0x00c: *result = divide_signed(a, b); return 1;
    case 0x00d: *result = divide(a, b); return 1;
    case 0x00e: *result = remainder_signed(a, b); return 1;
    case 0x00f: *result = remainder_of(a, b); return 1;
    default: return 0;
    }
}

/* The same of the instructions on words of 32 bits. */
static inline int compute_word(unsigned function, uint64_t a, uint64_t b, uint64_t *result)
{
    uint32_t low = (uint32_t)a;
    uint64_t a_signed = sign_extend(a, 32), b_signed = sign_extend(b, 32), value;

    switch (function) {
    case 0x000: value = a + b; break;
    case 0x100: value = a - b; break;
    case 0x001: value = (uint64_t)low << (b & 31); break;
    case 0x005: value = low >> (b & 31); break;
    case 0x105: value = shift_right_signed(a_signed, b & 31); break;
    case 0x008: value = a * b; break;
    case 0x00c: value = divide_signed(a_signed, b_signed); break;
    case 0x00d: value = divide(low, (uint32_t)b); break;
    case 0x00e: value = remainder_signed(a_signed, b_signed); break;
    case 0x00f: value = remainder_of(low, (uint32_t)b); break;
    default: return 0;
    }
    *result = sign_extend(value, 32);
    return 1;
}

#endif
