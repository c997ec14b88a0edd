/* Supervisor mode: its registers (CSRs), exceptions, interrupts, and the instructions of the opcode SYSTEM. */
#include "memory.h"

enum csr {
    CSR_SSTATUS = 0x100, CSR_SIE = 0x104, CSR_STVEC = 0x105, CSR_SCOUNTEREN = 0x106, CSR_SSCRATCH = 0x140,
    CSR_SEPC = 0x141, CSR_SCAUSE = 0x142, CSR_STVAL = 0x143, CSR_SIP = 0x144, CSR_SATP = 0x180, CSR_CYCLE = 0xc00,
    CSR_TIME = 0xc01, CSR_INSTRET = 0xc02
};

/* The cause of an interrupt has its highest bit set. */
#define INTERRUPT (UINT64_C(1) << 63)

/* Instructions of the opcode SYSTEM that access no CSR. The operands of SFENCE.VMA are any. */
enum { ECALL = 0x00000073, EBREAK = 0x00100073, SRET = 0x10200073, WFI = 0x10500073, SFENCE = 0x12000073 };
#define SFENCE_MASK UINT32_C(0xfe007fff)

void set_context(struct processor *p)
{
    p->memory.here = p->memory.found[p->mode == USER ? 0 : p->sstatus & STATUS_SUM ? 2 : 1];
    p->memory.code.tag = 0;
}

/* Enters supervisor mode at the vector. */
static void enter(struct processor *p, uint64_t cause, uint64_t value, uint64_t from, uint64_t to)
{
    p->sepc = from;
    p->scause = cause;
    p->stval = value;
    p->sstatus = (p->sstatus & ~(STATUS_SPP | STATUS_SPIE | STATUS_SIE)) | (p->mode == SUPERVISOR ? STATUS_SPP : 0) |
                 (p->sstatus & STATUS_SIE ? STATUS_SPIE : 0);
    p->mode = SUPERVISOR;
    p->reserved = NOT_RESERVED;
    p->next_pc = to;
    set_context(p);
}

void trap(struct processor *p, enum cause cause, uint64_t value)
{
    enter(p, cause, value, p->pc, p->stvec & ~UINT64_C(3));
}

static uint64_t pending_interrupts(const struct processor *p)
{
    return p->software_pending | p->external_pending | (processor_ticks_left(p) == 0 ? TIMER_BIT : 0);
}

uint64_t due_interrupts(const struct processor *p)
{
    return p->sie == 0 ? 0 : pending_interrupts(p) & p->sie;
}

void take_interrupt(struct processor *p)
{
    uint64_t due = due_interrupts(p), number, to = p->stvec & ~UINT64_C(3);

    p->attention = 0;
    if (due == 0 || (p->mode == SUPERVISOR && !(p->sstatus & STATUS_SIE))) return;
    number = due & EXTERNAL_BIT ? 9 : due & SOFTWARE_BIT ? 1 : 5;
    if (p->stvec & 1) to += 4 * number;
    enter(p, INTERRUPT | number, 0, p->pc, to);
    p->pc = p->next_pc;
}

static void return_from_trap(struct processor *p)
{
    p->mode = p->sstatus & STATUS_SPP ? SUPERVISOR : USER;
    p->sstatus = (p->sstatus & ~(STATUS_SPP | STATUS_SIE)) | (p->sstatus & STATUS_SPIE ? STATUS_SIE : 0) | STATUS_SPIE;
    p->next_pc = p->sepc;
    p->reserved = NOT_RESERVED;
    p->attention = 1;
    set_context(p);
}

/* Reads a CSR. False where there is none that this mode may read. */
static int read_csr(const struct processor *p, unsigned csr, uint64_t *value)
{
    if (p->mode == USER && (csr < CSR_CYCLE || csr > CSR_INSTRET || !(p->scounteren >> (csr - CSR_CYCLE) & 1)))
        return 0;
    switch (csr) {
    case CSR_SSTATUS: *value = p->sstatus | STATUS_UXL; return 1;
    case CSR_SIE: *value = p->sie; return 1;
    case CSR_STVEC: *value = p->stvec; return 1;
    case CSR_SCOUNTEREN: *value = p->scounteren; return 1;
    case CSR_SSCRATCH: *value = p->sscratch; return 1;
    case CSR_SEPC: *value = p->sepc; return 1;
    case CSR_SCAUSE: *value = p->scause; return 1;
    case CSR_STVAL: *value = p->stval; return 1;
    case CSR_SIP: *value = pending_interrupts(p); return 1;
    case CSR_SATP: *value = p->satp; return 1;
    case CSR_CYCLE: case CSR_INSTRET: *value = p->count; return 1;
    case CSR_TIME: *value = processor_time(p); return 1;
    default: return 0;
    }
}

/* A mode of paging that is not there leaves satp as it was: so a guest finds out which is. */
static void write_satp(struct processor *p, uint64_t value)
{
    uint64_t mode = value & ~SATP_TABLE & ~UINT64_C(0x0ffff00000000000);

    if (mode != 0 && mode != SATP_SV39) return;
    p->satp = mode == 0 ? 0 : mode | (value & SATP_TABLE);
    memory_forget(&p->memory);
}

static void write_status(struct processor *p, uint64_t value)
{
    if ((p->sstatus ^ value) & STATUS_MXR) memory_forget(&p->memory);
    p->sstatus = value & STATUS_BITS;
    set_context(p);
}

/* Writes a CSR, which was read before. False where it may only be read. */
static int write_csr(struct processor *p, unsigned csr, uint64_t value)
{
    p->attention = 1;
    switch (csr) {
    case CSR_SSTATUS: write_status(p, value); return 1;
    case CSR_SIE: p->sie = value & (SOFTWARE_BIT | TIMER_BIT | EXTERNAL_BIT); return 1;
    case CSR_STVEC: p->stvec = value & ~UINT64_C(2); return 1;
    case CSR_SCOUNTEREN: p->scounteren = value & 7; return 1;
    case CSR_SSCRATCH: p->sscratch = value; return 1;
    case CSR_SEPC: p->sepc = value & ~UINT64_C(1); return 1;
    case CSR_SCAUSE: p->scause = value; return 1;
    case CSR_STVAL: p->stval = value; return 1;
    case CSR_SIP: p->software_pending = value & SOFTWARE_BIT; return 1;
    case CSR_SATP: write_satp(p, value); return 1;
    default: return 0;
    }
}

/* CSRRW, CSRRS and CSRRC, with a register, or with its number as the operand. The latter two do not write where it is
 * x0 or 0. */
static void access_csr(struct processor *p, uint32_t word)
{
    unsigned csr = word >> 20, function = word >> 12 & 3, source = word >> 15 & 31;
    uint64_t operand = word >> 14 & 1 ? source : p->x[source], old, new;
    int writes = function == 1 || source != 0;

    if (function == 0 || !read_csr(p, csr, &old)) {
        trap(p, ILLEGAL, 0);
        return;
    }
    new = function == 1 ? operand : function == 2 ? old | operand : old & ~operand;
    if (writes && !write_csr(p, csr, new)) trap(p, ILLEGAL, 0);
    else p->x[word >> 7 & 31] = old;
}

static void wait_for_interrupt(struct processor *p)
{
    if (due_interrupts(p) == 0) processor_leave(p, EXIT_WAIT);
}

void run_system(struct processor *p, uint32_t word)
{
    int is_supervisor = p->mode == SUPERVISOR;

    if ((word >> 12 & 7) != 0) access_csr(p, word);
    else if (word == ECALL && is_supervisor) call_firmware(p);
    else if (word == ECALL) trap(p, CALL_FROM_USER, 0);
    else if (word == EBREAK) trap(p, BREAKPOINT, p->pc);
    else if (word == SRET && is_supervisor) return_from_trap(p);
    else if (word == WFI) wait_for_interrupt(p);
    else if ((word & SFENCE_MASK) == SFENCE && is_supervisor) memory_forget(&p->memory);
    else trap(p, ILLEGAL, 0);
}
