/* The instructions of RV64I, and the loop that fetches and runs them. */
#include "arithmetic.h"
#include "clock.h"
#include "memory.h"

/* A function that no instruction has. */
enum { UNKNOWN = 0xfff };

/* The bits of an instruction, from `low` on. */
static inline uint32_t bits(uint32_t word, unsigned low, unsigned count)
{
    return word >> low & ((1u << count) - 1);
}

static inline uint64_t immediate_i(uint32_t word)
{
    return sign_extend(word >> 20, 12);
}

static inline uint64_t immediate_s(uint32_t word)
{
    return sign_extend(bits(word, 25, 7) << 5 | bits(word, 7, 5), 12);
}

static inline uint64_t immediate_b(uint32_t word)
{
    return sign_extend(
        bits(word, 31, 1) << 12 | bits(word, 7, 1) << 11 | bits(word, 25, 6) << 5 | bits(word, 8, 4) << 1, 13);
}

static inline uint64_t immediate_u(uint32_t word)
{
    return sign_extend(word & 0xfffff000, 32);
}

static inline uint64_t immediate_j(uint32_t word)
{
    return sign_extend(
        bits(word, 31, 1) << 20 | bits(word, 12, 8) << 12 | bits(word, 20, 1) << 11 | bits(word, 21, 10) << 1, 21);
}

static void run_load(struct processor *p, uint32_t word, uint64_t address)
{
    unsigned kind = bits(word, 12, 3), width = 1u << (kind & 3);
    uint64_t value;

    if (kind == 7) {
        trap(p, ILLEGAL, 0);
        return;
    }
    if (load(p, address, width, &value)) {
        p->x[bits(word, 7, 5)] = kind < 3 ? sign_extend(value, 8 * width) : value;
    } else {
        p->exit.to = (uint8_t)bits(word, 7, 5);
        p->exit.is_signed = kind < 3;
    }
}

static void run_store(struct processor *p, uint32_t word, uint64_t address, uint64_t value)
{
    unsigned kind = bits(word, 12, 3);

    if (kind > 3) trap(p, ILLEGAL, 0);
    else store(p, address, 1u << kind, value);
}

static void run_branch(struct processor *p, uint32_t word, uint64_t a, uint64_t b)
{
    int is_taken;

    switch (bits(word, 12, 3)) {
    case 0: is_taken = a == b; break;
    case 1: is_taken = a != b; break;
    case 4: is_taken = (a ^ SIGN) < (b ^ SIGN); break;
    case 5: is_taken = (a ^ SIGN) >= (b ^ SIGN); break;
    case 6: is_taken = a < b; break;
    case 7: is_taken = a >= b; break;
    default: trap(p, ILLEGAL, 0); return;
    }
    if (is_taken) p->next_pc = p->pc + immediate_b(word);
}

/* The function of an instruction with an immediate. Above the bits of a shift are those that make it signed, or
 * none. */
static inline unsigned function_of_immediate(uint32_t word, unsigned shift_bits)
{
    unsigned kind = bits(word, 12, 3), above = word >> (20 + shift_bits) << (shift_bits - 2);

    if (kind != 1 && kind != 5) return kind;
    return above == 0 || above == 0x100 ? kind | above : UNKNOWN;
}

/* The function of an instruction with two registers. */
static inline unsigned function_of(uint32_t word)
{
    return bits(word, 12, 3) | word >> 25 << 3;
}

/* Jumps to an address, and leaves that of the next instruction in a register. */
static inline void jump(struct processor *p, uint64_t *link, uint64_t to)
{
    *link = p->next_pc;
    p->next_pc = to;
}

static inline void run_instruction(struct processor *p, uint32_t word)
{
    uint64_t a = p->x[bits(word, 15, 5)], b = p->x[bits(word, 20, 5)], *to = &p->x[bits(word, 7, 5)];
    int is_known = 0;

    switch (bits(word, 0, 7)) {
    case 0x03: run_load(p, word, a + immediate_i(word)); return;
    case 0x0f: return;  /* a fence: there is one processor, and it keeps no instruction */
    case 0x13: is_known = compute(function_of_immediate(word, 6), a, immediate_i(word), to); break;
    case 0x17: *to = p->pc + immediate_u(word); return;
    case 0x1b: is_known = compute_word(function_of_immediate(word, 5), a, immediate_i(word), to); break;
    case 0x23: run_store(p, word, a + immediate_s(word), b); return;
    case 0x2f: run_atomic(p, word); return;
    case 0x33: is_known = compute(function_of(word), a, b, to); break;
    case 0x37: *to = immediate_u(word); return;
    case 0x3b: is_known = compute_word(function_of(word), a, b, to); break;
    case 0x63: run_branch(p, word, a, b); return;
    case 0x67: jump(p, to, (a + immediate_i(word)) & ~UINT64_C(1)); return;
    case 0x6f: jump(p, to, p->pc + immediate_j(word)); return;
    case 0x73: run_system(p, word); return;
    default: break;
    }
    if (!is_known) trap(p, ILLEGAL, 0);
}

/* Where the instruction at an address is, of at least two bytes. Most are in the page of the one before. */
static inline const uint8_t *find_code(struct processor *p, uint64_t address)
{
    struct found_page *page = &p->memory.code;
    uint64_t device, tag = address / PAGE | p->memory.generation;

    if (page->tag != tag) {
        const uint8_t *at = find_quickly(p, address, FETCH, 2);

        if (at == NULL) at = memory_find(p, address, FETCH, 2, &device);
        if (at == NULL) return NULL;
        page->at = (uint8_t *)at - address % PAGE;
        page->tag = tag;
    }
    return page->at + address % PAGE;
}

/* The next instruction, and where the one after it is. False where the guest had an exception. */
static inline int fetch(struct processor *p, uint32_t *word)
{
    const uint8_t *at = find_code(p, p->pc);
    uint32_t low;

    if (at == NULL) return 0;
    low = (uint32_t)get_number(at, 2);
    if ((low & 3) != 3) {
        *word = expansions[low];
        p->next_pc = p->pc + 2;
        return 1;
    }
    at = p->pc % PAGE == PAGE - 2 ? find_code(p, p->pc + 2) : at + 2;
    if (at == NULL) return 0;
    *word = low | (uint32_t)get_number(at, 2) << 16;
    p->next_pc = p->pc + 4;
    return 1;
}

void processor_run(struct processor *p, uint64_t instructions)
{
    uint64_t last = p->count + instructions;
    uint32_t word;

    p->exit.kind = EXIT_NONE;
    p->attention = 1;
    while (p->count < last) {
        if (p->attention) {
            if (p->exit.kind != EXIT_NONE) return;
            take_interrupt(p);
        }
        p->count++;
        if (fetch(p, &word)) run_instruction(p, word);
        p->x[0] = 0;
        p->pc = p->next_pc;
    }
    if (p->exit.kind == EXIT_NONE) p->exit.kind = EXIT_SLICE;
}

void processor_reset(struct processor *p, uint64_t tree)
{
    memset(p->x, 0, sizeof p->x);
    p->sstatus = p->stvec = p->sscratch = p->sepc = p->scause = p->stval = p->sie = p->satp = 0;
    p->software_pending = p->external_pending = 0;
    p->mode = SUPERVISOR;
    p->pc = RAM_BASE + LOAD_OFFSET;
    p->x[11] = tree;
    p->scounteren = 7;
    p->timer = UINT64_MAX;
    p->reserved = NOT_RESERVED;
    p->time_offset = -clock_ticks();
    memory_forget(&p->memory);
    set_context(p);
}

void processor_leave(struct processor *p, enum exit_kind kind)
{
    p->exit.kind = kind;
    p->attention = 1;
}

void processor_loads(struct processor *p, uint64_t value)
{
    unsigned bits_read = 8u * p->exit.width;

    if (bits_read < 64) value &= (UINT64_C(1) << bits_read) - 1;
    p->x[p->exit.to] = p->exit.is_signed ? sign_extend(value, bits_read) : value;
    p->x[0] = 0;
}

uint64_t processor_time(const struct processor *p)
{
    return clock_ticks() + p->time_offset;
}

uint64_t processor_ticks_left(const struct processor *p)
{
    uint64_t time = processor_time(p);

    return time >= p->timer ? 0 : p->timer - time;
}
