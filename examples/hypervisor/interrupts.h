/* The interrupt controller (PLIC), with one context. */
#ifndef INTERRUPTS_H
#define INTERRUPTS_H

#include <stdint.h>

enum { SOURCES = 16 };

struct interrupts {
    uint32_t priority[SOURCES];
    uint32_t lines;    /* bit n is the line of source n */
    uint32_t enabled, claimed, threshold;
};

/* The guest reads or writes a register, at an offset. */
uint32_t interrupts_read(struct interrupts *c, uint64_t offset);
void interrupts_write(struct interrupts *c, uint64_t offset, uint32_t value);

/* Whether the processor is to be interrupted. */
int interrupts_are_due(const struct interrupts *c);

#endif
