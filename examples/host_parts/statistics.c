/* With --stats: where the time went. */
#define _DEFAULT_SOURCE
#include <time.h>
#include "clock.h"
#include "host.h"
#include "say.h"

void begin_statistics(struct host *h)
{
    h->statistics.began = clock_nanoseconds();
}

/* The clock is read only for who asks for it, and while the guest is moved: who copies may have the lock. */
void enter_library(struct host *h)
{
    uint64_t asked = h->move.is_on ? clock_nanoseconds() : 0;

    lock_library(h);
    if (asked != 0) h->move.outside += clock_nanoseconds() - asked;
    if (h->options.stats) h->statistics.entered = clock_nanoseconds();
}

void leave_library(struct host *h)
{
    if (h->options.stats) h->statistics.in_library += clock_nanoseconds() - h->statistics.entered;
    unlock_library(h);
}

void print_statistics(const struct host *h)
{
    const struct statistics *s = &h->statistics;
    double all = (double)(clock_nanoseconds() - s->began) / 1e9, waited = (double)s->waited / 1e9;
    double works = all - waited > 0 ? all - waited : 1e-9, library = (double)s->in_library / 1e9;

    if (!h->options.stats) return;
    say("%.3f s, of which the guest waited %.3f", all, waited);
    print_guest_statistics(h, works);
    say("%llu accesses to registers, %llu steps of devices, %llu loans of RAM", (unsigned long long)s->accesses,
        (unsigned long long)s->steps, (unsigned long long)s->loans);
    if (h->has_pool)
        say("%llu calls of disks, %.3f s in the storage, of all threads", (unsigned long long)s->calls,
            (double)h->pool.nanoseconds / 1e9);
    say("%.3f s in the library with the bytes that it moves: %.1f percent", library, 100 * library / works);
}
