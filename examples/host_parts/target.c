/* A guest that is moved here, or was saved in a file. What comes is not trusted: each frame has its place, the machine
 * is compared with the options before memory is taken, and the registers are looked at. Until the source has let go,
 * the guest does not run here. */
#include <string.h>
#include <unistd.h>
#include "clock.h"
#include "host.h"
#include "saved.h"
#include "say.h"
#include "terminal.h"

/* The first bytes of a stream, which tell what machine it is. */
enum { HEAD_MAX = 496 };

struct arrival {
    uint8_t head[HEAD_MAX];
    size_t head_length;
    uint64_t length;     /* of RAM */
    int is_known;        /* the machine was compared, and memory is there */
    int has_state;
    uint8_t state[BODY_MAX];  /* of the processor and the board, once it has come */
    size_t state_length;
    uint32_t rounds;
    struct digester digester; /* of the stream, unless --digest own is given */
    int is_told;              /* its digest */
};

_Static_assert((int)BODY_MAX <= (int)DIGESTER_PIECE, "a frame is a piece for the thread that digests");

/* How long who connects may take until it is known. */
enum { HELLO_MS = 10000 };

/* Who connects says that it is a source of this target, by the word. Nothing is taken for it before. Returns why it
 * is not known, or NULL. */
static const char *meet(struct host *h, struct hello *hello)
{
    struct line *l = &h->move.line;
    int has_come;

    l->until = clock_nanoseconds() + HELLO_MS * UINT64_C(1000000);
    has_come = line_receive(l);
    l->until = LINE_EVER;
    if (operator_words.ends) fail("ended before a guest came");
    if (!has_come) return "what connects says nothing, or what none of this kind says";
    if (l->type != HELLO || !hello_read(l->body, l->length, hello))
        return "what connects is no hypervisor of this kind";
    if (hello->version != LINE_VERSION) return "it is of another version";
    return words_are_same(hello->word, h->word) ? NULL : "it has another --word";
}

/* Waits until a source is known. Who is not is refused, and the next one may come. */
static void await_source(struct host *h, struct hello *hello)
{
    struct line *l = &h->move.line;
    int listener;
    const char *why;

    line_prepare(l, operator_bell, HEARS_END);
    listener = line_listen(l, h->options.listen);
    for (;;) {
        line_accept(l, listener);
        why = meet(h, hello);
        if (why == NULL) break;
        say("move: %s: it is refused, and another one may come", why);
        line_refuse(l, why);
        line_prepare(l, operator_bell, HEARS_END);
    }
    close(listener);
}

/* The file is whole, and begins with the first frame of a move. Returns what is wrong, or NULL. A file has no word: who
 * reads it has all of the guest. */
static const char *open_saved(struct host *h, struct hello *hello)
{
    struct line *l = &h->move.line;
    const char *why;

    line_prepare(l, operator_bell, HEARS_END);
    why = saved_open(l, h->options.restore);
    if (why != NULL) return why;
    if (!line_receive(l) || l->type != HELLO || !hello_read(l->body, l->length, hello))
        return "it is of no hypervisor of this kind";
    return hello->version == LINE_VERSION ? NULL : "it is of another version";
}

static const char *check_hello(struct host *h, const struct hello *hello)
{
    const struct line *l = &h->move.line;

    if (hello->kind != GUEST_KIND) return "it is a hypervisor for another processor";
    if (hello->base != RAM_BASE) return "its RAM begins at another address";
    if (hello->mib != h->options.mib) return "it has another size of RAM than --mem";
    if (hello->is_shared != (uint32_t)h->options.is_shared)
        return "one of both hosts has --shared, and the other has not";
    return facts_check(h, l->body + HELLO_LENGTH, l->length - HELLO_LENGTH);
}

static const char *refusal(vmig_status status) { return vmig_refused(status) ? vmig_status_name(status) : NULL; }

/* What the library has taken is digested by a thread, which has all but the record that closes the stream. */
static const char *feed_beside(struct host *h, struct arrival *a, const uint8_t *bytes, size_t length)
{
    size_t used = 0;
    vmig_status status = vmig_feed_some(&h->machine, bytes, length, &used);
    uint8_t digest[SHA256_LENGTH];

    if (vmig_refused(status) || a->is_told) return refusal(status);
    digester_add(&a->digester, bytes, used);
    if (status != VMIG_DIGEST) return NULL;
    if (!digester_end(&a->digester, digest)) return "the stream could not be digested";
    a->is_told = 1;
    must(vmig_feed_tell(&h->machine, digest), "vmig_feed_tell");
    return refusal(vmig_feed_some(&h->machine, bytes + used, length - used, &used));
}

static const char *feed(struct host *h, struct arrival *a, const uint8_t *bytes, size_t length)
{
    int is_own = h->options.digest_is_own;
    const char *why = is_own ? refusal(vmig_feed(&h->machine, bytes, length)) : feed_beside(h, a, bytes, length);
    vmig_description found;

    if (why != NULL) return why;
    vmig_describe(&h->machine, &found);
    if (found.rounds > a->rounds) {
        say("move: round %u is here", found.rounds);
        a->rounds = found.rounds;
        /* The guest runs elsewhere now: what is brought to the files here needs not be brought in its pause. */
        if (!devices_bring(&h->devices)) return "a disk cannot be written";
    }
    return NULL;
}

/* The first bytes are kept until they tell the machine. It is compared, and only then memory is taken for it. */
static const char *take_head(struct host *h, struct arrival *a, const uint8_t *bytes, size_t length)
{
    size_t part = length < HEAD_MAX - a->head_length ? length : HEAD_MAX - a->head_length;
    const char *why;
    int more;

    memcpy(a->head + a->head_length, bytes, part);
    a->head_length += part;
    why = devices_compare(&h->devices, a->length, a->head, a->head_length, &more);
    if (why != NULL || more) return why;
    h->memory_length = a->length;
    h->memory = devices_take_ram(a->length);
    why = h->memory == NULL ? "there is no memory for RAM" : give_ram(h, h->memory, a->length);
    if (why == NULL && !h->options.digest_is_own) why = digester_begin(&a->digester);
    if (why != NULL) return why;
    devices_let_arrive(&h->devices, h->memory, a->length, &h->machine, !h->options.digest_is_own);
    a->is_known = 1;
    why = feed(h, a, a->head, a->head_length);
    return why != NULL ? why : feed(h, a, bytes + part, length - part);
}

static const char *take_frame(struct host *h, struct arrival *a)
{
    struct line *l = &h->move.line;

    if (l->type == STREAM && !a->has_state)
        return a->is_known ? feed(h, a, l->body, l->length) : take_head(h, a, l->body, l->length);
    if (l->type == STATE && a->is_known && !a->has_state) {
        a->has_state = 1;
        a->state_length = l->length;
        memcpy(a->state, l->body, l->length);
        return NULL;
    }
    if (l->type == ENDED) return line_reason(l, "the source says: ");
    return l->type == END && a->has_state ? NULL : "a frame is out of its place";
}

/* The machine is whole. All that may fail on this host is done here, before the source is told that all is here; but
 * the files that both hosts have and the name of the wire are taken once it has let go. Returns what is wrong, or
 * NULL. */
static const char *arrive(struct host *h, const struct arrival *a)
{
    const char *why;

    storage_tell_lost(h);
    lend_ram(h);
    why = state_read(h, a->state, a->state_length);
    if (why != NULL) return why;
    fill_pool(h);
    terminal_take();
    return devices_bring(&h->devices) ? NULL : "a disk cannot be written";
}

/* Takes all frames to the last. Returns what is wrong, or NULL. */
static const char *take_all(struct host *h, struct arrival *a)
{
    struct line *l = &h->move.line;
    const char *why;
    uint32_t lost;
    vmig_status status;

    line_be_patient(l);
    if (!l->is_file && !line_send(l, WELCOME, h->word, WORD_LENGTH)) return "the line is broken";
    do {
        why = line_receive(l) ? take_frame(h, a) : "the line is broken";
        if (l->is_file && operator_words.ends) why = "its operator ends the program";
        if (why != NULL) return why;
    } while (l->type != END);
    if (!line_is_whole(l, &lost)) return "what came is not what was sent";
    status = vmig_finish(&h->machine);
    if (status != VMIG_OK) return vmig_status_name(status);
    why = devices_take_loss(&h->devices, lost);
    if (why != NULL) return why;
    return arrive(h, a);
}

__attribute__((noreturn)) static void refuse(struct host *h, const char *why)
{
    if (h->options.restore != NULL) fail("%s: %s: no guest is here", h->options.restore, why);
    if (h->move.line.type == ENDED) fail("move: %s: no guest is here", why);
    line_refuse(&h->move.line, why);
    fail("move: %s: no guest is here, and the source has it", why);
}

/* The source did not say that it has let go. Perhaps it did, and perhaps it runs the guest. It hears no more. */
static void keep(struct line *l)
{
    line_close(l);
    say("move: the line broke before the source's last word: the guest is whole here, but does not run");
    if (!ask_operator(
            "move: if it does not run at the source either, SIGUSR2 or Ctrl-A c starts it here; else end this program"))
        fail("ended by its operator: the guest does not run here");
    say("move: by the word of the operator the guest runs here");
}

/* What one host has at a time is taken, once the source has let go of it: the name of the wire, and the files of
 * disks. Returns why it cannot be, or NULL; then no file is open. */
static const char *take_over(struct host *h)
{
    const char *why = name_wire(h);

    return why == NULL ? devices_take_over(&h->devices) : why;
}

/* By the word of the source. Where it cannot, the guest is dropped: it runs at the source again. */
static void take_over_or_refuse(struct host *h)
{
    const char *why = take_over(h);

    if (why == NULL) return;
    line_refuse(&h->move.line, why);
    fail("move: it cannot be taken over: %s: the guest does not run here", why);
}

/* By the word of the operator, who may mend what is wrong. */
static void take_over_or_ask(struct host *h)
{
    const char *why;

    while ((why = take_over(h)) != NULL) {
        say("move: it cannot be taken over: %s", why);
        if (!ask_operator("move: SIGUSR2 or Ctrl-A c tries it again; else end this program"))
            fail("ended by its operator: the guest does not run here");
    }
}

/* All is here. The source says that it has let go, or that it has not; or the operator has to say it. */
static void await_last_word(struct host *h)
{
    struct line *l = &h->move.line;
    int has_word = line_send(l, READY, NULL, 0) && line_receive(l);

    if (has_word && l->type == ENDED) fail("move: %s: no guest is here", line_reason(l, "the source says: "));
    if (!has_word || l->type != GO) {
        keep(l);
        take_over_or_ask(h);
        return;
    }
    take_over_or_refuse(h);
    if (line_send(l, RUNS, NULL, 0)) say("move: the guest runs here");
    else say("move: the guest runs here; the source did not hear so");
}

/* All of the file is here. What both hosts of a move have is taken. Where that is a disk the file goes: a guest that
 * continued from it once more would find a disk that has changed since. */
static void take_over_saved(struct host *h)
{
    const char *name = h->options.restore, *why = take_over(h);

    if (why != NULL) refuse(h, why);
    if (devices_ask(&h->devices)) why = saved_remove(name);
    if (why != NULL) refuse(h, why);
    say("move: the guest of %s runs here", name);
}

void host_receive(struct host *h)
{
    struct line *l = &h->move.line;
    static struct arrival a;
    struct hello hello;
    const char *why = NULL;

    a.length = (uint64_t)h->options.mib * MIB;
    for (unsigned i = 0; i < h->devices.count_disks; i++)
        if (h->devices.disks[i].at != NULL) say("%s will be overwritten", h->devices.disks[i].name);
    if (h->options.restore != NULL) why = open_saved(h, &hello);
    else await_source(h, &hello);
    if (why == NULL) why = check_hello(h, &hello);
    if (why == NULL) why = take_all(h, &a);
    if (why != NULL) refuse(h, why);
    say("move: all is here");
    line_hurry(l);
    if (h->options.restore != NULL) take_over_saved(h);
    else await_last_word(h);
    line_close(l);
    start_clock(h);
}
