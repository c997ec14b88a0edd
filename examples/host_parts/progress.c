/* How far a move is, in one line that is renewed, where an operator looks at a terminal. */
#define _DEFAULT_SOURCE
#include <unistd.h>
#include "clock.h"
#include "host.h"
#include "say.h"

/* After how many nanoseconds the line is renewed; and the bytes of the records of a page and of a sector, at most. */
enum { RENEWED = 200000000, PAGE_BYTES = 4101, SECTOR_BYTES = 519, BYTES_A_MIB = 1 << 20 };

void begin_progress(struct host *h)
{
    struct move *m = &h->move;

    m->round_began = clock_nanoseconds();
    m->sent_before = m->sent;
}

void say_progress(struct host *h)
{
    struct move *m = &h->move;
    uint64_t now = clock_nanoseconds(), all = m->pages * PAGE_BYTES + m->sectors * SECTOR_BYTES;
    double sent = (double)(m->sent - m->sent_before), rate = sent * 1e9 / (double)(now - m->round_began);
    vmig_left left;

    if (sent == 0 || now - m->round_began < RENEWED || now - m->renewed < RENEWED || !isatty(STDERR_FILENO)) return;
    m->renewed = now;
    must(vmig_send_left(&h->machine, &left), "vmig_send_left");
    say_again("move: round %u: %.0f of %.0f MiB, %.0f MiB/s; a pause now would send %.0f MiB, in some %.0f ms",
              m->round, sent / BYTES_A_MIB, (double)all / BYTES_A_MIB, rate / BYTES_A_MIB,
              (double)left.stop_bytes / BYTES_A_MIB, (double)left.stop_bytes / rate * 1e3);
}
