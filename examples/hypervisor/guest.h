/* The guest as this hypervisor has it: the processor and the board. */
#ifndef GUEST_H
#define GUEST_H

#include "interrupts.h"
#include "processor.h"

/* What the first frame of a move says of the hypervisor: another one than RISC-V on an interpreter is refused. */
enum { GUEST_KIND = 1 };
#define GUEST_NAME "interpreter"

/* Its thread copies, for this long between two slices: the log of its writes is that thread's own, and an interpreter
 * writes RAM as any program does, so that another thread may not read there meanwhile. */
enum { COPIES_BESIDE = 0, COPY_NANOSECONDS = 300000 };

struct guest {
    struct processor processor;
    struct interrupts interrupts;
    uint64_t left;          /* instructions that are left of the slice */
    uint64_t stopped_at;    /* the guest's time when it was paused */
    uint64_t count_before;  /* instructions before it was moved here */
};

struct host;

/* board.c: what the board answers without the machine. False where the guest came out for the window of a virtio
 * device: h->touched. */
int board_answers(struct host *h);

#endif
