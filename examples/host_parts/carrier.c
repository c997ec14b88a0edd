/* The carrier of a move, a thread: it connects the line, or makes the file of a guest that is saved, and while the
 * guest runs it alone sends and hears there, and copies what it sends (rounds.c). What it sends another thread digests
 * (digest.c). */
#define _DEFAULT_SOURCE
#include <poll.h>
#include <string.h>
#include <sys/eventfd.h>
#include <unistd.h>
#include "host.h"
#include "saved.h"
#include "terminal.h"

/* What the carrier takes at once where the library digests it then, for 0.1 ms; else all that a frame holds. */
enum { OWN_PIECE = 16384 };

static const char BROKEN[] = "the line is broken";

const char *line_says(struct line *l)
{
    int collected = l->is_file ? 0 : line_collect(l);

    if (l->error != 0) return strerror(l->error);
    if (collected == 0) return NULL;
    return collected > 0 && l->type == REFUSED ? line_reason(l, "the target refuses: ") : BROKEN;
}

/* The file is there, with the first frame. Nobody answers. Returns why not, or NULL. */
static const char *make_file(struct host *h)
{
    struct line *l = &h->move.line;
    const char *why = saved_create(l, h->options.save);

    return why != NULL || line_finish(l) ? why : line_says(l);
}

/* The line is connected, and each end knows the other by its word before a byte of the guest is sent. Returns why
 * not, or NULL. */
static const char *meet(struct host *h)
{
    struct line *l = &h->move.line;
    const char *why = line_connect(l, h->options.connect);

    if (why != NULL) return why;
    if (!line_finish(l) || !line_receive(l)) return BROKEN;
    if (l->type == REFUSED) return line_reason(l, "the target refuses: ");
    if (l->type != WELCOME) return BROKEN;
    return words_are_same(l->body, h->word) ? NULL : "what listens there has another --word";
}

/* Sends the frame that is begun, and hears what the target says meanwhile. Returns why the move is over, or NULL. */
static const char *send_frame(struct line *l)
{
    const char *why = l->is_file ? NULL : line_says(l);
    int pushed;

    while (why == NULL && !l->stops && (pushed = line_push(l)) <= 0) {
        if (pushed < 0) why = line_says(l);
        if (pushed < 0) return why == NULL ? BROKEN : why;
        if (line_wait(l, l->socket, POLLOUT | POLLIN, l->patience) < 0) return l->stops ? NULL : BROKEN;
        why = line_says(l);
    }
    return why;
}

void begin_piece(struct host *h, const uint8_t *bytes, size_t length)
{
    if (!h->options.digest_is_own) digester_add(&h->move.digester, bytes, length);
    h->move.sent += length;
    line_begin(&h->move.line, STREAM, bytes, length);
}

/* Whether this thread copies, and a round is not sent to its end. */
static int has_more(const struct host *h)
{
    return COPIES_BESIDE && h->move.is_sending && !h->move.rounds_are_over && h->move.failed == NULL;
}

/* Waits for the bell, and hears what the target says meanwhile. */
static const char *await_more(struct line *l)
{
    return line_wait(l, l->is_file ? -1 : l->socket, POLLIN, -1) > 0 ? line_says(l) : NULL;
}

/* What waits in the machine goes into a frame. Where nothing does, some of what is due is copied before. Returns how
 * many bytes it has. */
static size_t fill_frame(struct host *h, uint8_t bytes[BODY_MAX])
{
    size_t most = h->options.digest_is_own ? OWN_PIECE : BODY_MAX, got = 0;

    must(vmig_send_take(&h->machine, bytes, most, &got), "vmig_send_take");
    if (got > 0 || !has_more(h)) return got;
    h->move.failed = copy_some(h);
    must(vmig_send_take(&h->machine, bytes, most, &got), "vmig_send_take");
    return got;
}

/* With the lock, which is free while it sends or waits. Returns why the move is over, or NULL. */
static const char *carry_some(struct host *h)
{
    static uint8_t bytes[BODY_MAX];
    struct move *m = &h->move;
    struct line *l = &m->line;
    size_t got = 0;
    const char *why;
    int waits;

    if (m->is_sending && l->out_at == l->out_length) got = fill_frame(h, bytes);
    m->is_carried = got == 0 && l->out_at == l->out_length && !has_more(h);
    waits = m->is_carried;
    if (waits) call_out(h);
    unlock_library(h);
    if (got > 0) begin_piece(h, bytes, got);
    why = waits ? await_more(l) : send_frame(l);
    lock_library(h);
    return why;
}

static void *carry(void *of)
{
    struct host *h = of;
    struct move *m = &h->move;
    const char *why = m->has_met ? NULL : m->line.is_file ? make_file(h) : meet(h);

    lock_library(h);
    m->has_met = why == NULL;
    while (why == NULL && !m->line.stops) why = carry_some(h);
    m->why = why;
    m->is_broken = why != NULL;
    call_out(h);
    unlock_library(h);
    return NULL;
}

const char *begin_carrier(struct host *h)
{
    struct move *m = &h->move;

    if (m->bell < 0) m->bell = eventfd(0, EFD_CLOEXEC | EFD_NONBLOCK);
    if (m->bell < 0) return "there is no bell for the line";
    m->line.bell = m->bell;
    m->line.hears = HEARS_NOTHING;
    m->line.until = LINE_EVER;
    m->line.stops = 0;
    m->is_carried = 0;
    m->has_carrier = begin_thread(&m->carrier, carry, h);
    return m->has_carrier ? NULL : "there is no thread for the line";
}

void wake_carrier(struct host *h)
{
    uint64_t one = 1;

    if (write(h->move.bell, &one, sizeof one) < 0) h->move.is_broken = 1;
}

void end_carrier(struct host *h)
{
    struct move *m = &h->move;

    if (m->has_carrier) {
        m->line.stops = 1;
        wake_carrier(h);
        unlock_library(h);
        pthread_join(m->carrier, NULL);
        lock_library(h);
    }
    m->has_carrier = 0;
    m->line.stops = 0;
    m->line.bell = operator_bell;
}
