/* What the parts of a host ask of a guest on the interpreter: to run it, its lines, its log, and when it waits. */
#include "clock.h"
#include "host.h"
#include "memory.h"
#include "say.h"

/* The instructions after which the guest comes out to look around. */
enum { SLICE = 20000 };

/* A guest that waits looks around this often, for a signal may have come before the wait; and while it is moved. */
enum { WAIT_MS_MAX = 20, MOVE_MS_MAX = 1 };

const char *give_ram(struct host *h, uint8_t *ram, uint64_t length)
{
    h->guest.left = SLICE;
    return memory_begin(&h->guest.processor.memory, ram, length) ? NULL : "there is no memory for the log of RAM";
}

void end_guest(struct host *h)
{
    memory_end(&h->guest.processor.memory);
}

/* Its slice is over, or it waits: then it looks around. */
int run_guest(struct host *h)
{
    struct guest *g = &h->guest;
    uint64_t before = g->processor.count;
    int is_answered;

    processor_run(&g->processor, g->left);
    g->left -= g->processor.count - before;
    is_answered = board_answers(h);
    if (g->left == 0 || g->processor.exit.kind == EXIT_WAIT) {
        look_around(h);
        g->left = SLICE;
    }
    return is_answered;
}

void finish_read(struct host *h, uint32_t value)
{
    processor_loads(&h->guest.processor, value);
}

int is_between_slices(const struct host *h)
{
    return h->guest.left == SLICE;
}

/* Its slices are short. */
void call_out(struct host *h)
{
    (void)h;
}

/* Until its timer is due, and not at all where there is something to do. */
int milliseconds_to_wait(const struct host *h)
{
    const struct processor *p = &h->guest.processor;
    uint64_t left = processor_ticks_left(p) / (TICKS_A_SECOND / 1000), most = h->move.is_on ? MOVE_MS_MAX : WAIT_MS_MAX;

    if (p->exit.kind != EXIT_WAIT || due_interrupts(p) != 0 || h->steps_wait || move_is_due(h)) return 0;
    return (int)(left < most ? left : most);
}

void set_lines(struct host *h)
{
    struct guest *g = &h->guest;
    uint32_t uart = uart_interrupts(&h->uart, &h->typed) ? UINT32_C(1) << UART_INTERRUPT : 0;

    g->interrupts.lines = h->lines << FIRST_INTERRUPT | uart;
    g->processor.external_pending = interrupts_are_due(&g->interrupts) ? EXTERNAL_BIT : 0;
}

const char *log_begins(struct host *h)
{
    memory_empty_log(&h->guest.processor.memory);
    return NULL;
}

/* The log goes on: pages are found anew after it was read alone. */
void log_ends(struct host *h)
{
    (void)h;
}

/* All of the log, whatever is asked for. The guest finds its pages anew then. */
void log_fetch(struct host *h, uint64_t *bits, uint64_t first, uint64_t count)
{
    struct memory *m = &h->guest.processor.memory;

    (void)first;
    (void)count;
    for (uint32_t i = 0; i < m->count_written; i++) bits[m->written[i] / 64] |= UINT64_C(1) << m->written[i] % 64;
    memory_empty_log(m);
}

void print_guest_statistics(const struct host *h, double seconds)
{
    uint64_t count = h->guest.processor.count - h->guest.count_before;

    say("%llu instructions, %.1f million a second", (unsigned long long)count, (double)count / seconds / 1e6);
}
