/* A guest is moved away while it runs: rounds between its turns, a pause at the end, and the words by which one of
 * the two runs it. Until GO is sent the guest is kept here, and continues here if the line breaks. From then on it
 * does not run here, unless the operator says so. Or it is saved in a file, likewise: once the file has its name the
 * guest does not run here, since its disks continue with who continues from the file. */
#include <stdio.h>
#include <string.h>
#include "clock.h"
#include "host.h"
#include "saved.h"
#include "say.h"
#include "terminal.h"

/* What goes at once of the last round. */
enum { ITEMS_A_PIECE = 16 };

/* How long a target is told that no guest comes, where the program ends. A guest that goes on waits for that no
 * moment. */
enum { TELL_MS = 500 };

static const char BROKEN[] = "the line is broken", OUT_OF_MEMORY[] = "out of memory";
static const char CANCELLED[] = "its operator cancels it", TOO_LONG[] = "the pause would last longer than --pause-ms";

int move_is_due(const struct host *h)
{
    const struct move *m = &h->move;

    return operator_words.moves || (m->is_on && (m->is_carried || m->is_broken || operator_words.continues));
}

/* Tells the target that no guest comes, within so many milliseconds. False where it cannot be told. */
static int tell_end(struct host *h, const char *why, unsigned milliseconds)
{
    struct line *l = &h->move.line;
    size_t length = strlen(why);

    if (h->move.is_broken || l->is_file || l->socket < 0) return 0;
    l->hears = HEARS_NOTHING;
    l->until = clock_nanoseconds() + milliseconds * UINT64_C(1000000);
    return line_finish(l) && line_send(l, ENDED, why, length < REASON_MAX ? length : REASON_MAX);
}

/* What was not saved as a whole goes. */
static void close_line(struct host *h)
{
    line_close(&h->move.line);
    if (h->move.line.is_file) saved_drop();
}

void leave_line(struct host *h, const char *why)
{
    struct move *m = &h->move;

    if (!m->is_on) return;
    end_carrier(h);
    if (tell_end(h, why, TELL_MS)) say("move: %s: %s was told so", why, h->options.connect);
    else say("move: %s, and %s", why, m->line.is_file ? "is not saved" : "the line is broken");
    close_line(h);
    m->is_on = 0;
}

static double milliseconds_since(uint64_t then)
{
    return (double)(clock_nanoseconds() - then) / 1e6;
}

/* The pause is over: how long it was, in milliseconds. */
static double end_pause(struct host *h)
{
    double passed = milliseconds_since(h->move.paused_at);

    h->move.stopped += passed;
    h->move.paused_at = 0;
    return passed;
}

/* How long the guest's processor was outside for its move, and how much of that it was paused. */
static void say_outside(struct host *h)
{
    struct move *m = &h->move;

    if (m->paused_at != 0) end_pause(h);
    say("%s: outside for %.1f ms in all, of which the stop %.1f", GUEST_NAME,
        (double)m->outside / 1e6 + milliseconds_since(m->entered), m->stopped);
}

/* The move is over, and the guest continues here. */
static int give_up(struct host *h, const char *why)
{
    struct move *m = &h->move;
    int was_sending = m->is_on && m->is_sending;

    m->held = 0;
    if (m->is_on) {
        end_carrier(h);
        tell_end(h, why, 0);
        close_line(h);
    }
    if (was_sending) {
        log_ends(h);
        take_ram(h);
        must(vmig_send_abort(&h->machine), "vmig_send_abort");
        fill_pool(h);
    }
    digester_stop(&m->digester);
    m->is_on = m->is_sending = 0;
    say("move: %s: the guest continues here", why);
    if (was_sending) say_outside(h);
    return 1;
}

/* Why the line does not take or have what is awaited. */
static const char *why_not(struct host *h)
{
    struct line *l = &h->move.line;
    const char *why;

    if (operator_words.ends) return "its operator ends the program";
    if (l->hears == HEARS_CANCEL && operator_words.continues) return CANCELLED;
    if (l->error != 0) return line_says(l);
    if (clock_nanoseconds() >= l->until) return TOO_LONG;
    why = line_says(l);
    return why == NULL ? BROKEN : why;
}

static void begin_hello(struct host *h)
{
    static uint8_t bytes[BODY_MAX];
    struct hello hello = {.version = LINE_VERSION, .kind = GUEST_KIND, .mib = h->options.mib, .base = RAM_BASE};

    hello.is_shared = (uint32_t)h->options.is_shared;
    if (!h->move.line.is_file) memcpy(hello.word, h->word, WORD_LENGTH);
    hello_write(bytes, &hello);
    line_begin(&h->move.line, HELLO, bytes, HELLO_LENGTH + facts_write(h, bytes + HELLO_LENGTH));
}

/* Begins a move: the carrier meets the target. Returns why there is none, or NULL. */
static const char *begin_move(struct host *h)
{
    struct move *m = &h->move;

    operator_words.moves = operator_words.continues = 0;
    if (h->options.connect == NULL && h->options.save == NULL) return "there is no --connect to move to, and no --save";
    if (devices_ask(&h->devices) && !h->options.is_shared)
        return "a disk of --disk is in no stream: it moves with --shared alone";
    m->is_on = 1;
    m->has_met = m->is_sending = m->is_stopped = m->rounds_are_over = 0;
    m->is_carried = m->is_broken = 0;
    m->failed = NULL;
    m->pauses = 0;
    m->outside = m->paused_at = m->held = 0;
    m->stopped = 0;
    say("move: to %s begins", h->options.save != NULL ? h->options.save : h->options.connect);
    line_prepare(&m->line, operator_bell, HEARS_CANCEL);
    m->line.is_file = h->options.save != NULL;
    begin_hello(h);
    return begin_carrier(h);
}

/* The target takes the guest: its first round begins. */
static const char *begin_sending(struct host *h)
{
    const char *why;

    take_ram(h);
    why = h->options.digest_is_own ? NULL : digester_begin(&h->move.digester);
    if (why != NULL) return why;
    if (vmig_send_begin_as(&h->machine, h->options.digest_is_own ? 0 : VMIG_TOLD) != VMIG_OK) return OUT_OF_MEMORY;
    h->move.is_sending = 1;
    line_be_patient(&h->move.line);
    why = begin_rounds(h);
    if (why == NULL) why = state_prepare(h);
    h->move.is_carried = 0;
    wake_carrier(h);
    return why;
}

/* Where the carrier does not copy: some of what is due, between two slices of the guest. */
static const char *copy_here(struct host *h)
{
    const char *why;

    lend_ram(h);
    why = copy_some(h);
    h->move.is_carried = 0;
    wake_carrier(h);
    return why;
}

/* Fills the frame that goes next with what waits in the machine. False where nothing does. */
static int begin_stream(struct host *h)
{
    static uint8_t bytes[BODY_MAX];
    size_t got = 0;

    must(vmig_send_take(&h->machine, bytes, sizeof bytes, &got), "vmig_send_take");
    if (got > 0) begin_piece(h, bytes, got);
    return got > 0;
}

/* All that waits in the machine goes over the line. A line that takes all at once waits for nothing, so that the pause
 * is over is looked at here too: the work between two pieces may take long where the processors have more to do. A
 * file has no such bound. */
static const char *send_waiting(struct host *h)
{
    struct line *l = &h->move.line;

    do {
        if (!line_finish(l)) return why_not(h);
        if (!l->is_file && clock_nanoseconds() >= l->until) return TOO_LONG;
    } while (begin_stream(h));
    return NULL;
}

/* What is left goes as one round more, and the stop has nothing to send: so the target digests a piece while the
 * next one is digested here. */
static const char *send_last_round(struct host *h)
{
    vmig_status status = vmig_send_round(&h->machine);
    const char *why = vmig_refused(status) ? OUT_OF_MEMORY : send_waiting(h);

    while (why == NULL && !vmig_refused(status) && status != VMIG_ROUND_DONE) {
        status = vmig_send_some(&h->machine, ITEMS_A_PIECE);
        why = send_waiting(h);
    }
    return vmig_refused(status) ? OUT_OF_MEMORY : why;
}

/* All of the stream was sent but for the record that closes it, which has its digest. Returns why the digest is not
 * there, or NULL. */
static const char *tell_digest(struct host *h)
{
    uint8_t digest[SHA256_LENGTH];

    if (h->options.digest_is_own) return NULL;
    if (!digester_end(&h->move.digester, digest)) return "the stream could not be digested";
    must(vmig_send_tell(&h->machine, digest), "vmig_send_tell");
    return send_waiting(h);
}

/* The guest is outside for good: its registers are read, and then the log once more, as reading them may write RAM. */
static const char *read_state(struct host *h, uint8_t state[BODY_MAX], size_t *length)
{
    const char *why;

    lend_ram(h);
    why = state_write(h, state, length);
    take_ram(h);
    return why == NULL ? name_pages(h) : why;
}

/* All was sent. Returns why the target has not got it, or NULL. */
static const char *await_ready(struct host *h)
{
    struct line *l = &h->move.line;

    if (!line_receive(l)) return why_not(h);
    if (l->type == REFUSED) return line_reason(l, "the target refuses: ");
    return l->type == READY ? NULL : BROKEN;
}

/* Two guests that continue from one file take no byte of one pool. */
static void drop_pool(struct host *h)
{
    if (h->move.line.is_file) must(vmig_drop(&h->machine, ENTROPY), "vmig_drop");
}

/* The machine's stream ends, and its rest goes over the line, with all that is not in it. */
static const char *send_rest(struct host *h)
{
    static uint8_t state[BODY_MAX];
    struct line *l = &h->move.line;
    uint64_t pages = 0, sectors = 0;
    size_t length = 0;
    const char *why = read_state(h, state, &length);

    if (why != NULL) return why;
    drop_pool(h);
    why = send_last_round(h);
    if (why != NULL) return why;
    h->move.is_stopped = 1;
    if (vmig_send_stop(&h->machine, &pages, &sectors) != VMIG_OK) return OUT_OF_MEMORY;
    why = send_waiting(h);
    if (why == NULL) why = tell_digest(h);
    if (why != NULL) return why;
    if (!line_send(l, STATE, state, length) || !line_send_end(l, devices_lost(&h->devices))) return why_not(h);
    return l->is_file ? saved_close(l) : await_ready(h);
}

/* The files that both hosts have are closed, so that the target may open them, and it may take the name of the wire.
 * Returns what is wrong, which the target is told, or NULL. */
static const char *let_go(struct host *h)
{
    const char *why = lend_wire_name(h);

    if (why == NULL) why = devices_let_go(&h->devices);
    if (why != NULL && !h->move.line.is_file) line_send(&h->move.line, ENDED, why, strlen(why));
    return why;
}

/* The files are opened again, and the wire has its name again. False where the operator ends the program: as long as
 * another host has them, the guest does not run here. */
static int take_back(struct host *h)
{
    const char *why;

    while ((why = devices_take_over(&h->devices)) != NULL) {
        say("move: a disk cannot be opened again: %s", why);
        if (!ask_operator("move: SIGUSR2 or Ctrl-A c tries it again; else end this program")) return 0;
    }
    why = name_wire(h);
    if (why != NULL) say("move: no frame comes to the guest: %s", why);
    return 1;
}

/* The same of a guest that was paused. What waits for its disks is asked in the next turn: vmig_next says so
 * (VMIG_CALL). */
static int continue_here(struct host *h, const char *why)
{
    start_clock(h);
    h->steps_wait = 1;
    return give_up(h, why);
}

/* The last word was sent, and the target did not answer that the guest runs. Only the operator can know. */
static int keep(struct host *h)
{
    say("move: the line broke after the last word was sent: the guest is paused here, and perhaps runs at %s",
        h->options.connect);
    h->move.is_on =
        ask_operator("move: if it does not run there, SIGUSR2 or Ctrl-A c continues it here; else end this program") &&
        take_back(h);
    if (!h->move.is_on) return 0;
    announce(h);
    return continue_here(h, "by the word of the operator");
}

/* The guest had been let go, and is nowhere else. */
static int come_back(struct host *h, const char *why)
{
    h->move.is_on = take_back(h);
    return h->move.is_on && continue_here(h, why);
}

/* The target could not open the disks, and dropped the guest: that word allows it to run here. */
static int come_back_refused(struct host *h)
{
    static char why[REASON_MAX + 40];

    snprintf(why, sizeof why, "%s", line_reason(&h->move.line, "the target refuses: "));
    return come_back(h, why);
}

/* The pause is over, and nothing was stopped in the machine: what is left goes with one round more while the guest
 * runs on. */
static int go_on(struct host *h)
{
    struct move *m = &h->move;
    const char *why = next_round(h);

    say("move: the guest was paused for %.1f ms, and runs on here while it is moved", end_pause(h));
    fill_pool(h);
    start_clock(h);
    h->steps_wait = 1;
    m->is_carried = 0;
    if (why == NULL && !m->has_carrier) why = begin_carrier(h);
    else wake_carrier(h);
    return why == NULL ? 1 : give_up(h, why);
}

/* Waits for what the guest asked of its disks. Returns why the pause is over, or NULL. Where storage hangs that
 * waits until then. */
static const char *await_storage(struct host *h)
{
    const struct move *m = &h->move;

    while (storage_waits(h)) {
        if (m->is_broken) return m->why;
        if (operator_words.ends) return "its operator ends the program";
        if (operator_words.continues) return CANCELLED;
        if (clock_nanoseconds() >= m->until) return TOO_LONG;
    }
    return NULL;
}

/* The guest is outside: what it wrote up to here is named, and counted. Returns what is wrong, or NULL. */
static const char *say_left(struct host *h)
{
    vmig_left found;
    const char *why;

    take_ram(h);
    why = name_pages(h);
    if (why != NULL) return why;
    must(vmig_send_left(&h->machine, &found), "vmig_send_left");
    say("move: the guest is paused: %llu pages and %llu sectors are left", (unsigned long long)found.dirty_pages,
        (unsigned long long)found.dirty_sectors);
    return NULL;
}

/* The line is the guest's thread's own from here on. All that is not in the target is sent. Returns why the guest is
 * not let go, or NULL. */
static const char *hand_over(struct host *h)
{
    struct move *m = &h->move;
    const char *why;

    end_carrier(h);
    if (m->is_broken) return m->why;
    m->line.hears = HEARS_CANCEL;
    m->line.until = m->until;
    why = send_rest(h);
    return why == NULL ? let_go(h) : why;
}

/* It runs here no more. */
static int is_away(struct host *h, const char *what, const char *where)
{
    line_close(&h->move.line);
    h->move.is_on = 0;
    h->is_gone = 1;
    say("move: the guest %s %s; it was paused for %.1f ms", what, where, end_pause(h));
    say_outside(h);
    return 0;
}

/* That the file has its name is the last word. */
static int finish_save(struct host *h)
{
    const char *why = saved_keep(h->options.save);

    return why == NULL ? is_away(h, "is saved in", h->options.save) : come_back(h, why);
}

/* GO was the last word. */
static int await_runs(struct host *h)
{
    struct line *l = &h->move.line;

    l->hears = HEARS_END;
    l->until = LINE_EVER;
    line_hurry(l);
    if (!line_send(l, GO, NULL, 0) || !line_receive(l)) return keep(h);
    if (l->type == REFUSED) return come_back_refused(h);
    return l->type == RUNS ? is_away(h, "runs at", h->options.connect) : keep(h);
}

/* The guest is paused, and the rest of it is sent. Once all is there it is let go. It runs on here where that takes
 * too long. */
static int finish_move(struct host *h)
{
    struct move *m = &h->move;
    const char *why;

    m->paused_at = clock_nanoseconds();
    m->until = m->paused_at + h->options.pause_ms * UINT64_C(1000000);
    m->pauses++;
    stop_clock(h);
    why = say_left(h);
    if (why == NULL) why = await_storage(h);
    if (why == NULL) why = hand_over(h);
    if (why == NULL) return m->line.is_file ? finish_save(h) : await_runs(h);
    if (why == TOO_LONG && !m->is_stopped && m->pauses < h->options.max_tries) return go_on(h);
    say("move: the guest was paused for %.1f ms", milliseconds_since(m->paused_at));
    return continue_here(h, why);
}

/* What the guest's thread does for a move, between two slices. Rounds are sent by the carrier, where it can. */
static int move_on(struct host *h)
{
    struct move *m = &h->move;
    const char *why = NULL;

    if (!m->is_on) why = begin_move(h);
    else if (operator_words.continues) why = CANCELLED;
    else if (m->is_broken) why = m->why;
    else if (m->failed != NULL) why = m->failed;
    else if (!is_between_slices(h) || !m->is_carried) return 1;
    else if (m->rounds_are_over) return finish_move(h);
    else why = m->is_sending ? copy_here(h) : begin_sending(h);
    return why == NULL ? 1 : give_up(h, why);
}

int move_further(struct host *h)
{
    struct move *m = &h->move;
    int runs_here;

    if (!m->is_on && !operator_words.moves) return 1;
    m->entered = clock_nanoseconds();
    runs_here = move_on(h);
    m->outside += clock_nanoseconds() - m->entered;
    return runs_here;
}
