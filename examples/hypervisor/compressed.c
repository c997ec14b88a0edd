/* Compressed instructions (C): each is short for one of 32 bits. The names are the standard's. */
#include "processor.h"

static inline uint32_t bits(uint32_t half, unsigned low, unsigned count)
{
    return half >> low & ((1u << count) - 1);
}

/* Instructions of 32 bits, of the parts that the formats have. */
static uint32_t format_i(uint32_t opcode, uint32_t function, uint32_t rd, uint32_t rs1, uint32_t immediate)
{
    return opcode | rd << 7 | function << 12 | rs1 << 15 | immediate << 20;
}

static uint32_t format_s(uint32_t function, uint32_t rs1, uint32_t rs2, uint32_t immediate)
{
    return 0x23 | bits(immediate, 0, 5) << 7 | function << 12 | rs1 << 15 | rs2 << 20 | bits(immediate, 5, 7) << 25;
}

static uint32_t format_r(uint32_t opcode, uint32_t function, uint32_t rd, uint32_t rs1, uint32_t rs2)
{
    return opcode | rd << 7 | (function & 7) << 12 | rs1 << 15 | rs2 << 20 | function >> 3 << 25;
}

static uint32_t branch(uint32_t function, uint32_t rs1, uint32_t half)
{
    uint32_t offset = bits(half, 10, 2) << 3 | bits(half, 5, 2) << 6 | bits(half, 3, 2) << 1 | bits(half, 2, 1) << 5 |
                      bits(half, 12, 1) * 0x1f00;

    return 0x63 | bits(offset, 11, 1) << 7 | bits(offset, 1, 4) << 8 | function << 12 | rs1 << 15 |
           bits(offset, 5, 6) << 25 | bits(offset, 12, 1) << 31;
}

static uint32_t jump(uint32_t half)
{
    uint32_t offset = bits(half, 11, 1) << 4 | bits(half, 9, 2) << 8 | bits(half, 8, 1) << 10 | bits(half, 7, 1) << 6 |
                      bits(half, 6, 1) << 7 | bits(half, 3, 3) << 1 | bits(half, 2, 1) << 5 |
                      bits(half, 12, 1) * 0x1ff800;

    return 0x6f | bits(offset, 12, 8) << 12 | bits(offset, 11, 1) << 20 | bits(offset, 1, 10) << 21 |
           bits(offset, 20, 1) << 31;
}

/* The immediate of six bits that most instructions have, with its sign. */
static uint32_t immediate6(uint32_t half)
{
    return bits(half, 2, 5) | bits(half, 12, 1) * 0xfe0;
}

static uint32_t shift6(uint32_t half)
{
    return bits(half, 2, 5) | bits(half, 12, 1) << 5;
}

static uint32_t word_offset(uint32_t half)
{
    return bits(half, 10, 3) << 3 | bits(half, 6, 1) << 2 | bits(half, 5, 1) << 6;
}

static uint32_t double_offset(uint32_t half)
{
    return bits(half, 10, 3) << 3 | bits(half, 5, 2) << 6;
}

/* Loads and stores relative to a register, and addresses in the stack. */
static uint32_t quadrant0(uint32_t half)
{
    uint32_t rs1 = 8 + bits(half, 7, 3), other = 8 + bits(half, 2, 3);
    uint32_t stack = bits(half, 11, 2) << 4 | bits(half, 7, 4) << 6 | bits(half, 6, 1) << 2 | bits(half, 5, 1) << 3;

    switch (half >> 13) {
    case 0: return stack == 0 ? 0 : format_i(0x13, 0, other, 2, stack);      /* C.ADDI4SPN */
    case 2: return format_i(0x03, 2, other, rs1, word_offset(half));         /* C.LW */
    case 3: return format_i(0x03, 3, other, rs1, double_offset(half));       /* C.LD */
    case 6: return format_s(2, rs1, other, word_offset(half));               /* C.SW */
    case 7: return format_s(3, rs1, other, double_offset(half));             /* C.SD */
    default: return 0;
    }
}

/* C.SRLI to C.ADDW */
static uint32_t compute(uint32_t half)
{
    static const uint32_t FUNCTIONS[] = {0x100, 4, 6, 7};
    uint32_t rd = 8 + bits(half, 7, 3), rs2 = 8 + bits(half, 2, 3), which = bits(half, 5, 2);

    switch (bits(half, 10, 2)) {
    case 0: return format_i(0x13, 5, rd, rd, shift6(half));
    case 1: return format_i(0x13, 5, rd, rd, shift6(half) | 0x400);
    case 2: return format_i(0x13, 7, rd, rd, immediate6(half));
    default: break;
    }
    if (bits(half, 12, 1) == 0) return format_r(0x33, FUNCTIONS[which], rd, rd, rs2);
    return which > 1 ? 0 : format_r(0x3b, which == 0 ? 0x100 : 0, rd, rd, rs2);
}

/* C.ADDI16SP and C.LUI */
static uint32_t upper(uint32_t half, uint32_t rd)
{
    uint32_t stack = bits(half, 6, 1) << 4 | bits(half, 5, 1) << 6 | bits(half, 3, 2) << 7 | bits(half, 2, 1) << 5 |
                     bits(half, 12, 1) * 0xe00;

    if (immediate6(half) == 0) return 0;
    if (rd == 2) return format_i(0x13, 0, 2, 2, stack);
    return 0x37 | rd << 7 | bits(half, 2, 5) << 12 | bits(half, 12, 1) * 0xfffe0000;
}

static uint32_t quadrant1(uint32_t half)
{
    uint32_t rd = bits(half, 7, 5), rs1 = 8 + bits(half, 7, 3);

    switch (half >> 13) {
    case 0: return format_i(0x13, 0, rd, rd, immediate6(half));              /* C.ADDI */
    case 1: return rd == 0 ? 0 : format_i(0x1b, 0, rd, rd, immediate6(half)); /* C.ADDIW */
    case 2: return format_i(0x13, 0, rd, 0, immediate6(half));               /* C.LI */
    case 3: return upper(half, rd);
    case 4: return compute(half);
    case 5: return jump(half);                                               /* C.J */
    case 6: return branch(0, rs1, half);                                     /* C.BEQZ */
    default: return branch(1, rs1, half);                                    /* C.BNEZ */
    }
}

/* C.JR, C.MV, C.EBREAK, C.JALR and C.ADD */
static uint32_t move_or_jump(uint32_t half, uint32_t rd, uint32_t rs2)
{
    uint32_t is_second = bits(half, 12, 1);

    if (rs2 != 0) return format_r(0x33, 0, rd, is_second ? rd : 0, rs2);
    if (rd == 0) return is_second ? 0x00100073 : 0;
    return format_i(0x67, 0, is_second, rd, 0);
}

static uint32_t quadrant2(uint32_t half)
{
    uint32_t rd = bits(half, 7, 5), rs2 = bits(half, 2, 5);
    uint32_t load_word = bits(half, 12, 1) << 5 | bits(half, 4, 3) << 2 | bits(half, 2, 2) << 6;
    uint32_t load_double = bits(half, 12, 1) << 5 | bits(half, 5, 2) << 3 | bits(half, 2, 3) << 6;

    switch (half >> 13) {
    case 0: return format_i(0x13, 1, rd, rd, shift6(half));                  /* C.SLLI */
    case 2: return rd == 0 ? 0 : format_i(0x03, 2, rd, 2, load_word);        /* C.LWSP */
    case 3: return rd == 0 ? 0 : format_i(0x03, 3, rd, 2, load_double);      /* C.LDSP */
    case 4: return move_or_jump(half, rd, rs2);
    case 6: return format_s(2, 2, rs2, bits(half, 9, 4) << 2 | bits(half, 7, 2) << 6);  /* C.SWSP */
    case 7: return format_s(3, 2, rs2, bits(half, 10, 3) << 3 | bits(half, 7, 3) << 6); /* C.SDSP */
    default: return 0;
    }
}

uint32_t expansions[65536];

void processor_prepare(void)
{
    for (uint32_t half = 0; half < 65536; half++) {
        switch (half & 3) {
        case 0: expansions[half] = quadrant0(half); break;
        case 1: expansions[half] = quadrant1(half); break;
        case 2: expansions[half] = quadrant2(half); break;
        default: break;
        }
    }
}
