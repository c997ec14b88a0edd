/* The processor and the board as bytes, for a move. One list of fields serves both to write them and to read them. */
#include <string.h>
#include "host.h"
#include "memory.h"

enum { STATE_VERSION = 4 };

/* Where the next field is, and which way it goes. */
struct coder {
    uint8_t *at, *end;
    int writes, is_short;
};

static void code(struct coder *c, void *field, size_t width)
{
    if ((size_t)(c->end - c->at) < width) {
        c->is_short = 1;
        return;
    }
    if (c->writes) memcpy(c->at, field, width);
    else memcpy(field, c->at, width);
    c->at += width;
}

/* A field that has to be what it is here, such as a version. */
static void code_same(struct coder *c, uint64_t value)
{
    uint64_t other = value;

    code(c, &other, sizeof other);
    if (other != value) c->is_short = 1;
}

static void code_processor(struct coder *c, struct processor *p)
{
    uint64_t *fields[] = {&p->pc,    &p->mode,     &p->sstatus, &p->stvec, &p->scounteren, &p->sscratch,
                          &p->sepc,  &p->scause,   &p->stval,   &p->sie,   &p->satp,       &p->software_pending,
                          &p->timer, &p->reserved, &p->count};

    for (int i = 1; i < 32; i++) code(c, &p->x[i], sizeof p->x[i]);
    for (size_t i = 0; i < sizeof fields / sizeof *fields; i++) code(c, fields[i], sizeof *fields[i]);
}

static void code_board(struct coder *c, struct host *h)
{
    for (int i = 0; i < SOURCES; i++) code(c, &h->guest.interrupts.priority[i], sizeof h->guest.interrupts.priority[i]);
    code(c, &h->guest.interrupts.enabled, sizeof h->guest.interrupts.enabled);
    code(c, &h->guest.interrupts.claimed, sizeof h->guest.interrupts.claimed);
    code(c, &h->guest.interrupts.threshold, sizeof h->guest.interrupts.threshold);
    code(c, &h->uart.enabled, 1);
    code(c, &h->uart.line, 1);
    code(c, &h->uart.modem, 1);
    code(c, &h->uart.scratch, 1);
    code(c, h->uart.divisor, sizeof h->uart.divisor);
    code(c, &h->typed.count, sizeof h->typed.count);
    code(c, h->typed.bytes, sizeof h->typed.bytes);
}

static void code_all(struct coder *c, struct host *h)
{
    code_same(c, STATE_VERSION);
    code_same(c, h->guest.processor.memory.length);
    code(c, &h->guest.stopped_at, sizeof h->guest.stopped_at);
    code_processor(c, &h->guest.processor);
    code_board(c, h);
}

/* Whether the registers have values that a processor can have. */
static int is_processor(const struct processor *p)
{
    uint64_t enabled = SOFTWARE_BIT | TIMER_BIT | EXTERNAL_BIT;

    if (p->mode > SUPERVISOR || (p->pc & 1) || (p->sepc & 1) || (p->stvec & 2)) return 0;
    if ((p->sstatus & ~STATUS_BITS) || (p->sie & ~enabled) || (p->software_pending & ~(uint64_t)SOFTWARE_BIT)) return 0;
    if (p->scounteren > 7) return 0;
    return p->satp == 0 || (p->satp & ~SATP_TABLE) == SATP_SV39;
}

static int is_board(const struct host *h)
{
    const struct interrupts *c = &h->guest.interrupts;
    uint32_t sources = (UINT32_C(1) << SOURCES) - 2;

    for (int i = 0; i < SOURCES; i++)
        if (c->priority[i] > (i == 0 ? 0 : 7)) return 0;
    if ((c->enabled & ~sources) || (c->claimed & ~sources) || c->threshold > 7) return 0;
    return h->uart.enabled < 16 && h->typed.count <= TYPED_MAX;
}

/* The first frame has what is to be compared before memory is taken: that is said of each hypervisor. */
size_t facts_write(struct host *h, uint8_t bytes[FACTS_MAX])
{
    (void)h, (void)bytes;
    return 0;
}

const char *facts_check(struct host *h, const uint8_t *bytes, size_t length)
{
    (void)h, (void)bytes;
    return length == 0 ? NULL : "its first frame is too long";
}

const char *state_prepare(struct host *h)
{
    (void)h;
    return NULL;
}

const char *state_write(struct host *h, uint8_t bytes[BODY_MAX], size_t *length)
{
    struct coder c = {.at = bytes, .end = bytes + BODY_MAX, .writes = 1};

    code_all(&c, h);
    *length = (size_t)(c.at - bytes);
    return NULL;
}

const char *state_read(struct host *h, const uint8_t *bytes, size_t length)
{
    static uint8_t copy[BODY_MAX];
    struct coder c = {.at = copy, .end = copy + length};

    memcpy(copy, bytes, length);
    code_all(&c, h);
    if (c.is_short || c.at != c.end || !is_processor(&h->guest.processor) || !is_board(h))
        return "the registers of the processor or the board have values that none can have";
    set_context(&h->guest.processor);
    h->guest.count_before = h->guest.processor.count;
    return NULL;
}

void stop_clock(struct host *h)
{
    h->guest.stopped_at = processor_time(&h->guest.processor);
}

void start_clock(struct host *h)
{
    h->guest.processor.time_offset = h->guest.stopped_at - clock_ticks();
}
