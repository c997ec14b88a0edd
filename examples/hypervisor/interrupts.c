/* The interrupt controller: lines are levels, and a source that was claimed waits until it is completed. */
#include "interrupts.h"

/* Registers. The priority of source n is at 4 * n. */
enum { PENDING_AT = 0x1000, ENABLED_AT = 0x2000, THRESHOLD_AT = 0x200000, CLAIM_AT = 0x200004 };

static uint32_t bit(uint32_t source)
{
    return UINT32_C(1) << source;
}

/* The source that is due with the highest priority, or 0. Of equal ones it is the least. */
static uint32_t first_due(const struct interrupts *c)
{
    uint32_t due = c->lines & c->enabled & ~c->claimed, best = 0;

    for (uint32_t source = 1; source < SOURCES; source++)
        if ((due & bit(source)) && c->priority[source] > c->threshold && c->priority[source] > c->priority[best])
            best = source;
    return best;
}

int interrupts_are_due(const struct interrupts *c)
{
    return (c->lines & c->enabled & ~c->claimed) != 0 && first_due(c) != 0;
}

uint32_t interrupts_read(struct interrupts *c, uint64_t offset)
{
    uint32_t source;

    if (offset < 4 * SOURCES) return c->priority[offset / 4];
    switch (offset) {
    case PENDING_AT: return c->lines & ~c->claimed;
    case ENABLED_AT: return c->enabled;
    case THRESHOLD_AT: return c->threshold;
    case CLAIM_AT:
        source = first_due(c);
        if (source != 0) c->claimed |= bit(source);
        return source;
    default: return 0;
    }
}

void interrupts_write(struct interrupts *c, uint64_t offset, uint32_t value)
{
    if (offset >= 4 && offset < 4 * SOURCES) c->priority[offset / 4] = value & 7;
    else if (offset == ENABLED_AT) c->enabled = value & ~bit(0) & (bit(SOURCES) - 1);
    else if (offset == THRESHOLD_AT) c->threshold = value & 7;
    else if (offset == CLAIM_AT && value < SOURCES) c->claimed &= ~bit(value);
}
