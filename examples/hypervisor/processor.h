/* The processor: RV64IMAC with supervisor and user mode and Sv39, as an interpreter. It knows nothing of the devices:
 * where the guest touches one, waits, or calls the firmware for something that the host has, processor_run returns,
 * and says why. */
#ifndef PROCESSOR_H
#define PROCESSOR_H

#include <stddef.h>
#include <stdint.h>
#include "board.h"
#include "clock.h"

enum mode { USER, SUPERVISOR };
enum access { FETCH, READ, WRITE, ACCESSES };

/* Exceptions, by the numbers of the standard. A page fault is 12 more than the access: 12, 13 and 15. */
enum cause {
    FETCH_ACCESS = 1, ILLEGAL = 2, BREAKPOINT = 3, READ_MISALIGNED = 4, READ_ACCESS = 5, WRITE_MISALIGNED = 6,
    WRITE_ACCESS = 7, CALL_FROM_USER = 8, FETCH_PAGE = 12, READ_PAGE = 13, WRITE_PAGE = 15
};

/* Interrupts: their bits in sip and sie. */
enum { SOFTWARE_BIT = 1 << 1, TIMER_BIT = 1 << 5, EXTERNAL_BIT = 1 << 9 };

/* The bits of sstatus that this processor has, but for UXL, which always says 64 bits. */
#define STATUS_SIE UINT64_C(0x2)
#define STATUS_SPIE UINT64_C(0x20)
#define STATUS_SPP UINT64_C(0x100)
#define STATUS_SUM UINT64_C(0x40000)
#define STATUS_MXR UINT64_C(0x80000)
#define STATUS_BITS (STATUS_SIE | STATUS_SPIE | STATUS_SPP | STATUS_SUM | STATUS_MXR)
#define STATUS_UXL UINT64_C(0x200000000)

/* satp: mode 8 is Sv39, 0 is none. Address spaces have no numbers here. */
#define SATP_SV39 UINT64_C(0x8000000000000000)
#define SATP_TABLE UINT64_C(0x00000fffffffffff)

/* Why the guest came out. */
enum exit_kind {
    EXIT_NONE,
    EXIT_SLICE,  /* it made as many instructions as it was given */
    EXIT_WAIT,   /* it waits for an interrupt */
    EXIT_READ,   /* it reads a device: finish with processor_loads */
    EXIT_WRITE,  /* it writes a device */
    EXIT_PRINT,  /* the firmware is to print the byte `value` */
    EXIT_TYPED,  /* the firmware is to give a typed byte in a0, or -1 */
    EXIT_OFF,    /* it powers off: `value` is 0 if all is well */
    EXIT_REBOOT  /* it asks for a reboot */
};

struct guest_exit {
    enum exit_kind kind;
    uint64_t address, value;
    uint8_t width, to;  /* bytes; the register that a read goes to */
    uint8_t is_signed;
};

/* A page that was found: the page's number and the generation of the cache in one, and where its bytes are. */
struct found_page {
    uint64_t tag;
    uint8_t *at;
};

/* Pages are found anew for user mode, supervisor mode, and supervisor mode that may touch the user's pages. */
enum { CONTEXTS = 3, FOUND_PAGES = 256 };

struct memory {
    uint8_t *ram;
    uint64_t length;
    uint64_t generation;  /* counts in the bits of a tag above the page's number */
    struct found_page found[CONTEXTS][ACCESSES][FOUND_PAGES];
    struct found_page (*here)[FOUND_PAGES];  /* those of the context that the processor is in */
    struct found_page code;                  /* the page of the last instruction, in that context */
    uint8_t *is_written;  /* for each page, whether it is in the log */
    uint32_t *written;    /* the log: the pages that the guest wrote since the log was last emptied */
    size_t count_written;
};

struct processor {
    uint64_t x[32], pc, next_pc;
    uint64_t mode;
    uint64_t sstatus, stvec, scounteren, sscratch, sepc, scause, stval, sie, satp;
    uint64_t software_pending, external_pending;
    uint64_t timer;        /* the time at which the timer's interrupt is due */
    uint64_t time_offset;  /* the guest's time less the host's */
    uint64_t reserved;     /* the address of a reservation, or NOT_RESERVED */
    uint64_t count;        /* instructions so far */
    int attention;         /* it came out, or an interrupt may have become due */
    struct guest_exit exit;
    struct memory memory;
};

#define NOT_RESERVED UINT64_MAX

/* Before anything else: fills the table of the compressed instructions. */
void processor_prepare(void);

/* The processor as firmware leaves it: in supervisor mode at the begin of the image, with the device tree's address. */
void processor_reset(struct processor *p, uint64_t tree);

/* Runs the guest for at most `instructions` instructions. p->exit says why it came out. */
void processor_run(struct processor *p, uint64_t instructions);

/* A read for which the guest came out gives this value. */
void processor_loads(struct processor *p, uint64_t value);

/* The host's time in ticks of the guest's clock. */
static inline uint64_t clock_ticks(void)
{
    return clock_nanoseconds() / (1000000000 / TICKS_A_SECOND);
}

/* The guest's time, and how many of its ticks there are until its timer is due. */
uint64_t processor_time(const struct processor *p);
uint64_t processor_ticks_left(const struct processor *p);

/* The guest comes out. */
void processor_leave(struct processor *p, enum exit_kind kind);

/* ---- What the files of the processor share. ---- */

/* An exception at the instruction that runs. */
void trap(struct processor *p, enum cause cause, uint64_t value);
/* Takes an interrupt that is due and enabled. */
void take_interrupt(struct processor *p);
/* The interrupts that are pending and enabled one by one. */
uint64_t due_interrupts(const struct processor *p);
/* Which context a page is found for, after the mode or sstatus changed. */
void set_context(struct processor *p);
/* The instructions of the opcode SYSTEM, those of the opcode AMO, and a call of the firmware. */
void run_system(struct processor *p, uint32_t word);
void run_atomic(struct processor *p, uint32_t word);
void call_firmware(struct processor *p);
/* The instruction that each compressed one is short for, or 0, which is none. */
extern uint32_t expansions[65536];

static inline uint64_t sign_extend(uint64_t value, unsigned bits)
{
    uint64_t sign = UINT64_C(1) << (bits - 1);

    return ((value & (2 * sign - 1)) ^ sign) - sign;
}

#endif
