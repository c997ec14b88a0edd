/* The rounds of a move. While RAM is lent the page that is due next is copied out of it and handed in, and a round
 * ends, so the guest runs meanwhile. All of it is done with the lock of the library: by the carrier where the guest's
 * log allows that (COPIES_BESIDE), and else by the guest's thread between two slices.
 *
 * `pending` has a bit for each page that was written since its copy began. A page leaves the guest's log only into
 * these bits, and these only before it is copied, or as it is named while RAM is in. So what is written after the
 * begin of a copy is in one of the two once the round ends. */
#include <stdlib.h>
#include <string.h>
#include "clock.h"
#include "host.h"
#include "say.h"

/* The pages whose log is read, and emptied, at once before the first of them is copied: 256 MiB. And the sectors that
 * are copied at once. */
enum { PIECE = 65536, SECTORS_AT_ONCE = 16, PAGES_A_WORD = 64 };

static const char OUT_OF_MEMORY[] = "out of memory";

/* A round begins: it sends what is due. That is asked once a round, as it takes the longer the more RAM there is. */
static void begin_round(struct host *h, uint32_t number)
{
    struct move *m = &h->move;
    vmig_left left;

    must(vmig_send_left(&h->machine, &left), "vmig_send_left");
    m->round = number;
    m->fetched = 0;
    m->pages = left.due_pages;
    m->sectors = left.due_sectors;
    m->rounds_are_over = 0;
    begin_progress(h);
}

const char *begin_rounds(struct host *h)
{
    struct move *m = &h->move;

    if (m->pending == NULL) m->pending = calloc(h->memory_length / PAGE / PAGES_A_WORD, sizeof *m->pending);
    if (m->pending == NULL) return OUT_OF_MEMORY;
    memset(m->pending, 0, h->memory_length / PAGE / PAGES_A_WORD * sizeof *m->pending);
    m->least = UINT64_MAX;
    m->stalls = 0;
    begin_round(h, 1);
    return log_begins(h);
}

const char *next_round(struct host *h)
{
    if (vmig_refused(vmig_send_round(&h->machine))) return OUT_OF_MEMORY;
    begin_round(h, h->move.round + 1);
    return NULL;
}

/* Hands in the page that is next. Its bit is forgotten before its bytes are copied: what is written from then on is in
 * the log anew. No step of a device comes between its copy and its handing in, as the lock is held. */
static vmig_status hand_in(struct host *h, uint32_t page)
{
    static _Alignas(8) uint8_t bytes[PAGE];
    struct move *m = &h->move;

    if (page >= m->fetched) {
        log_fetch(h, m->pending, page / PIECE * PIECE, PIECE);
        m->fetched = (page / PIECE + 1) * PIECE;
    }
    m->pending[page / PAGES_A_WORD] &= ~(UINT64_C(1) << page % PAGES_A_WORD);
    vmig_copy_page((const uint8_t *)h->ram.at + (size_t)page * PAGE, bytes);
    return vmig_send_page(&h->machine, page, bytes);
}

/* Where RAM is in for a moment, as the guest's thread hands on what a step sent, the machine copies the page itself:
 * the guest is outside then. The page's bit stays, and so it is sent once more. */
static vmig_status copy_one(struct host *h)
{
    uint32_t page = 0;
    vmig_status status = vmig_send_next(&h->machine, &page);

    if (status == VMIG_SECTORS) return vmig_send_some(&h->machine, SECTORS_AT_ONCE);
    if (status != VMIG_OK) return status;
    return h->ram.at == NULL ? vmig_send_some(&h->machine, 1) : hand_in(h, page);
}

/* Names what was written since it was copied. While RAM is lent the bits stay: a page that was written in this loan
 * has to be named once more, unless it is handed in before. */
const char *name_pages(struct host *h)
{
    size_t words = h->memory_length / PAGE / PAGES_A_WORD;
    uint64_t *pending = h->move.pending;
    vmig_pages written = vmig_bitmap(pending, words);

    log_fetch(h, pending, 0, h->memory_length / PAGE);
    if (vmig_mark(&h->machine, &written) != VMIG_OK) return OUT_OF_MEMORY;
    if (h->ram.at == NULL) memset(pending, 0, words * sizeof *pending);
    return NULL;
}

/* How long a pause would take that sends this much as fast as the round was sent, in milliseconds. */
static double estimate(const struct move *m, uint64_t bytes)
{
    double sent = (double)(m->sent - m->sent_before), passed = (double)(clock_nanoseconds() - m->round_began) / 1e6;

    return sent > 0 ? (double)bytes * passed / sent : 0;
}

/* The guest writes as fast as it is sent. */
static void say_trend(const struct move *m, uint64_t bytes)
{
    say("move: the guest writes as fast as it is sent: the last three rounds left %llu, %llu and %llu; a pause now "
        "takes some %.0f ms",
        (unsigned long long)m->lefts[0], (unsigned long long)m->lefts[1], (unsigned long long)m->lefts[2],
        estimate(m, bytes));
}

/* Whether the rounds are to end: few items are left, or it was the last round, or rounds shrink no more. One round
 * says little about that, as guests write in bursts. */
static int is_enough(struct host *h, const vmig_left *found)
{
    struct move *m = &h->move;
    uint64_t left = found->dirty_pages + found->dirty_sectors;

    m->stalls = left > m->least / 10 * 9 ? m->stalls + 1 : 0;
    if (left < m->least) m->least = left;
    memmove(m->lefts, m->lefts + 1, sizeof m->lefts - sizeof *m->lefts);
    m->lefts[STALLS_MAX - 1] = left;
    if (left <= h->options.few || m->round >= h->options.rounds) return 1;
    if (m->stalls > 0 && hold_back_more(h)) m->stalls = 0;
    if (m->stalls >= STALLS_MAX) say_trend(m, found->stop_bytes);
    return m->stalls >= STALLS_MAX;
}

/* A round was sent. What is left counts pages that were named, so these are named before it is asked; then the next
 * round begins, or the guest is to be paused. */
static const char *end_round(struct host *h)
{
    struct move *m = &h->move;
    const char *why = name_pages(h);
    vmig_left found;

    if (why != NULL) return why;
    must(vmig_send_left(&h->machine, &found), "vmig_send_left");
    say("move: round %u sent %llu pages and %llu sectors; %llu are left", m->round, (unsigned long long)m->pages,
        (unsigned long long)m->sectors, (unsigned long long)(found.dirty_pages + found.dirty_sectors));
    m->rounds_are_over = is_enough(h, &found);
    return m->rounds_are_over ? NULL : next_round(h);
}

/* Who waits for the lock has it before the next page: an access to a register waits for one page. Meanwhile RAM may be
 * taken back and lent anew; the move ends only once this thread has ended. */
static void let_others(struct host *h)
{
    unlock_library(h);
    lock_library(h);
}

const char *copy_some(struct host *h)
{
    uint64_t end = clock_nanoseconds() + COPY_NANOSECONDS;
    vmig_status status;

    while ((status = copy_one(h)) == VMIG_OK && clock_nanoseconds() < end)
        if (COPIES_BESIDE) let_others(h);
    if (vmig_refused(status)) return OUT_OF_MEMORY;
    say_progress(h);
    return status == VMIG_ROUND_DONE ? end_round(h) : NULL;
}
