/* A guest that writes faster than it is sent is held back, with --throttle: it is outside for a share of each ten
 * milliseconds, which grows while rounds do not shrink. RAM stays lent, and is copied meanwhile. */
#define _DEFAULT_SOURCE
#include <time.h>
#include "clock.h"
#include "host.h"
#include "say.h"

/* The share in milliseconds of each ten: at first, and at most. */
enum { PERIOD_MS = 10, HELD_FIRST = 2, HELD_MAX = 9, NANOSECONDS = 1000000 };

int hold_back_more(struct host *h)
{
    struct move *m = &h->move;

    if (!h->options.throttle || m->held == HELD_MAX) return 0;
    m->held += m->held == 0 ? HELD_FIRST : 1;
    say("move: a round left hardly less than one before: the guest is held back for %u of each %d ms",
        (unsigned)m->held, PERIOD_MS);
    call_out(h);
    return 1;
}

int milliseconds_until_held(const struct host *h)
{
    return h->move.held == 0 ? -1 : PERIOD_MS - (int)h->move.held;
}

void hold_back(struct host *h)
{
    struct move *m = &h->move;
    uint64_t now = clock_nanoseconds();
    unsigned held = m->held;

    if (held == 0 || now < m->runs_until) return;
    nanosleep(&(struct timespec){.tv_nsec = (long)held * NANOSECONDS}, NULL);
    m->runs_until = clock_nanoseconds() + (uint64_t)(PERIOD_MS - held) * NANOSECONDS;
    m->outside += clock_nanoseconds() - now;
}
