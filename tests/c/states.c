/* What each call answers in each state of a handle: the table of vmig.h, tried. A call that is done in a state
 * is given what it needs there. In every other state it is made twice: so, and with what would be refused
 * otherwise too, such as a buffer that is too small. Both are told by the state alone, and change nothing.
 * Memory is refused once, by a malloc of this program, for the state after a send that failed. */
#include <stdlib.h>
#include <string.h>
#include "driver.h"

enum { NONE, ARRIVING, FAILED, IDLE, SENDING, SEND_FAILED, STOPPED, LENT, SENDING_LENT, SEND_FAILED_LENT, STATES };

static const char *const STATE_NAMES[STATES] = {
    "none", "arriving", "failed", "idle", "sending", "send failed", "stopped", "lent", "sending, lent", "send failed, lent"};

/* How vmig_describe says each state. */
static const uint32_t STATE_NUMBERS[STATES] = {
    VMIG_IS_NONE,        VMIG_IS_ARRIVING, VMIG_IS_FAILED, VMIG_IS_IDLE,    VMIG_IS_SENDING,
    VMIG_IS_SEND_FAILED, VMIG_IS_STOPPED,  VMIG_IS_IDLE,   VMIG_IS_SENDING, VMIG_IS_SEND_FAILED};

enum { PAGES = 16, RAM = PAGES * 4096, ENTROPY = 0, DISK = 1, CONSOLE = 2, NO_DEVICE = 3, RECORD = 33 };

static const vmig_shape SHAPES[] = {{.kind = VMIG_ENTROPY}, {.kind = VMIG_BLOCK, .sectors = 1}, {.kind = VMIG_CONSOLE}};

/* The C library's own allocator, under the names that it keeps for a program with its own malloc. */
void *__libc_malloc(size_t size);
void *__libc_calloc(size_t count, size_t size);
void *__libc_realloc(void *at, size_t size);
void __libc_free(void *at);

static int is_told;     /* whether machines are sent, and arrive, whose host tells the digest */
static int refuses;     /* whether each request for memory is refused */

void *malloc(size_t size) { return refuses ? NULL : __libc_malloc(size); }
void *calloc(size_t count, size_t size) { return refuses ? NULL : __libc_calloc(count, size); }
void *realloc(void *old, size_t size) { return refuses ? NULL : __libc_realloc(old, size); }
void free(void *at) { __libc_free(at); }

static uint8_t stream[2 * RAM], bytes[2 * RAM], ram[RAM], room[RAM], other_room[RAM];
static uint64_t seen[PAGES];
static size_t stream_len;

/* The RAM of the machine, room, while it is lent. */
static vmig_ram out;

/* A machine whose entropy device has an interrupt that its driver did not acknowledge. */
static void make_one(vmig_machine *m)
{
    size_t kept = 0;

    memset(room, 0, sizeof room);
    out = (vmig_ram){room, sizeof room};
    expect("make", make_over(&out, SHAPES, 3, NULL, 0, m), VMIG_OK);
    set_up(m, 1);
    expect("input", vmig_input(m, ENTROPY, (const uint8_t *)"sixteen letters.", 16, &kept), VMIG_OK);
    expect("used length", ask(m, 1), 16);
}

/* Memory is refused while a page is sent. */
static void fail_to_send(vmig_machine *m)
{
    vmig_status status = VMIG_OK;

    refuses = 1;
    while (status == VMIG_OK) status = vmig_send_some(m, 1);
    refuses = 0;
    expect("no memory for the stream", status, VMIG_SEND_FAILED);
}

static vmig_status feed_piece(vmig_machine *m, const uint8_t *at, size_t len)
{
    size_t used;

    return is_told ? vmig_feed_some(m, at, len, &used) : vmig_feed(m, at, len);
}

static void await(vmig_machine *m)
{
    vmig_arrival arrival = VMIG_ARRIVAL;

    arrival.most_pages = PAGES, arrival.most_sectors = 1, arrival.flags = is_told ? VMIG_TOLD : 0;
    expect("arrive", vmig_arrive(&arrival, m), VMIG_OK);
}

/* The rest of the stream, after the first 10 bytes. */
static void feed_rest(vmig_machine *m)
{
    size_t front = is_told ? stream_len - RECORD : stream_len;
    vmig_digest digest;
    uint8_t out[32];

    expect("the rest", feed_piece(m, stream + 10, stream_len - 10), is_told ? VMIG_DIGEST : VMIG_WHOLE);
    if (!is_told) return;
    vmig_digest_begin(&digest);
    vmig_digest_add(&digest, stream, front);
    vmig_digest_end(&digest, out);
    expect("tell", vmig_feed_tell(m, out), VMIG_OK);
    expect("the record", feed_piece(m, stream + front, RECORD), VMIG_WHOLE);
}

/* A handle in a state, which the caller frees. */
static vmig_machine in_state(int state)
{
    vmig_machine m = VMIG_NONE;
    uint64_t pages = 0, sectors = 0;

    if (state == ARRIVING || state == FAILED) {
        await(&m);
        expect("a first piece", feed_piece(&m, stream, 10), VMIG_OK);
    }
    if (state == FAILED) expect("another stream", feed_piece(&m, stream, 100), VMIG_STREAM_BAD_SHAPE);
    if (state >= IDLE) make_one(&m);
    if (state >= SENDING && state != LENT) expect("begin", vmig_send_begin_as(&m, is_told ? VMIG_TOLD : 0), VMIG_OK);
    if (state == SEND_FAILED || state == SEND_FAILED_LENT) fail_to_send(&m);
    if (state == STOPPED) expect("stop", vmig_send_stop(&m, &pages, &sectors), VMIG_OK);
    if (state >= LENT) expect("lend", vmig_lend(&m, &out), VMIG_OK);
    return m;
}

/* Each call, as it is done (bad is 0), and with what it would refuse. */
static vmig_status make(vmig_machine *m, int bad)
{
    vmig_setup setup = VMIG_SETUP;
    setup.version += (uint32_t)bad, setup.pages = 1, setup.shapes = SHAPES, setup.count = 3;
    return vmig_make(&setup, m);
}

static vmig_status arrive(vmig_machine *m, int bad)
{
    vmig_arrival arrival = VMIG_ARRIVAL;
    arrival.version += (uint32_t)bad, arrival.most_pages = 1;
    return vmig_arrive(&arrival, m);
}

static vmig_status finish(vmig_machine *m, int bad)
{
    if (!bad && description_of(m).state == VMIG_IS_ARRIVING) feed_rest(m);
    return vmig_finish(m);
}

static vmig_status release(vmig_machine *m, int bad)
{
    vmig_image slot = {bytes, (uint64_t)bad};
    return vmig_release(m, &slot, (size_t)bad);
}

static vmig_status push(vmig_machine *m, int bad)
{
    static const uint32_t none[] = {PAGES};
    vmig_pages written = VMIG_ALL_PAGES;
    written.zero = (uint32_t)bad, written.list = none, written.count = (size_t)bad;
    return vmig_push(m, &written, ram, bad ? 0 : sizeof ram, seen, PAGES);
}

static vmig_status mark(vmig_machine *m, int bad)
{
    vmig_pages written = VMIG_ALL_PAGES;
    written.zero = (uint32_t)bad;
    return vmig_mark(m, &written);
}

static vmig_status written(vmig_machine *m, int bad)
{
    uint32_t page;
    size_t count;
    return vmig_written(m, &page, bad ? 0 : 1, &count);
}

static vmig_status lend(vmig_machine *m, int bad)
{
    vmig_ram more = {other_room, bad ? sizeof other_room : 0};
    if (!bad) more.at = NULL;
    return vmig_lend(m, &more);
}

static vmig_status give_back(vmig_machine *m, int bad)
{
    vmig_ram less = {other_room, 4096};
    return bad ? give_back_all(m, &less) : give_back_all(m, &out);
}

static vmig_status step(vmig_machine *m, int bad)
{
    uint32_t len;
    return bad ? vmig_step(m, CONSOLE, 1, NULL, 0, &len) : vmig_step(m, ENTROPY, 0, bytes, sizeof bytes, &len);
}

static vmig_status work(vmig_machine *m, int bad)
{
    vmig_turn turn = VMIG_TURN;
    turn.left = 1, turn.zero = (uint16_t)bad;
    return vmig_work(m, &turn, bytes, bad ? 0 : sizeof bytes);
}

static uint8_t device(int bad, uint8_t dev) { return bad ? NO_DEVICE : dev; }
static vmig_status feed(vmig_machine *m, int bad) { return vmig_feed(m, (const uint8_t *)"?", (size_t)bad); }
static vmig_status feed_some(vmig_machine *m, int bad)
{
    size_t used;
    return vmig_feed_some(m, (const uint8_t *)"?", (size_t)bad, &used);
}

static vmig_status feed_tell(vmig_machine *m, int bad) { (void)bad; return vmig_feed_tell(m, bytes); }
static vmig_status reg_read(vmig_machine *m, int bad) { uint32_t value; return vmig_reg_read(m, device(bad, ENTROPY), 0, 4, &value); }
static vmig_status reg_write(vmig_machine *m, int bad) { uint32_t byte; return vmig_reg_write(m, device(bad, ENTROPY), 0x70, 4, 0, &byte); }
static vmig_status ram_read(vmig_machine *m, int bad) { return vmig_ram_read(m, bad ? RAM : 0, bytes, bad ? 5000 : 1); }
static vmig_status ram_write(vmig_machine *m, int bad) { return vmig_ram_write(m, bad ? RAM : 0, bytes, bad ? 5000 : 1); }
static vmig_status pull(vmig_machine *m, int bad) { uint32_t count; return vmig_pull(m, ram, bad ? 0 : sizeof ram, seen, PAGES, &count); }
static vmig_status next(vmig_machine *m, int bad) { uint8_t dev = device(bad, 0), pick = 0; return vmig_next(m, &dev, &pick); }
static vmig_status input(vmig_machine *m, int bad) { size_t kept; return vmig_input(m, device(bad, ENTROPY), bytes, 1, &kept); }
static vmig_status room_of(vmig_machine *m, int bad) { size_t left; return vmig_room(m, bad ? DISK : ENTROPY, &left); }
static vmig_status resize(vmig_machine *m, int bad) { return vmig_resize(m, device(bad, CONSOLE), 1, 1); }
static vmig_status drop(vmig_machine *m, int bad) { return vmig_drop(m, bad ? DISK : ENTROPY); }
static vmig_status reset(vmig_machine *m, int bad) { (void)bad; return vmig_reset(m); }
static vmig_status disk_call(vmig_machine *m, int bad) { vmig_call call; return vmig_disk_call(m, &call, bytes, bad ? 0 : sizeof bytes); }
static vmig_status disk_done(vmig_machine *m, int bad) { return vmig_disk_done(m, 5, bad ? 0 : 1, bytes, bad ? 1 : 512); }
static vmig_status disk_failed(vmig_machine *m, int bad) { return vmig_disk_failed(m, (uint64_t)bad); }
static vmig_status calls_out(vmig_machine *m, int bad) { size_t count; vmig_call call; return vmig_calls_out(m, &call, bad ? 0 : 1, &count); }
static vmig_status sync_failed(vmig_machine *m, int bad) { return vmig_sync_failed(m, bad ? CONSOLE : DISK); }
static vmig_status sector_read(vmig_machine *m, int bad) { return vmig_sector_read(m, DISK, bad ? 7 : 0, bytes); }
static vmig_status save(vmig_machine *m, int bad) { size_t len; return vmig_save(m, bytes, bad ? 0 : sizeof bytes, &len); }
static vmig_status send_begin(vmig_machine *m, int bad) { (void)bad; return vmig_send_begin(m); }
static vmig_status send_begin_as(vmig_machine *m, int bad) { return vmig_send_begin_as(m, bad ? 3 : VMIG_TOLD); }
static vmig_status send_some(vmig_machine *m, int bad) { return vmig_send_some(m, bad ? 0 : 1); }
static vmig_status send_next(vmig_machine *m, int bad) { uint32_t page; (void)bad; return vmig_send_next(m, &page); }
static vmig_status send_page(vmig_machine *m, int bad) { return vmig_send_page(m, bad ? PAGES : 0, bytes); }
static vmig_status send_round(vmig_machine *m, int bad) { (void)bad; return vmig_send_round(m); }
static vmig_status send_stop(vmig_machine *m, int bad) { uint64_t pages, sectors; (void)bad; return vmig_send_stop(m, &pages, &sectors); }
static vmig_status send_abort(vmig_machine *m, int bad) { (void)bad; return vmig_send_abort(m); }
static vmig_status send_left(vmig_machine *m, int bad) { vmig_left left; (void)bad; return vmig_send_left(m, &left); }
static vmig_status send_take(vmig_machine *m, int bad) { size_t got; return vmig_send_take(m, bytes, bad ? 0 : sizeof bytes, &got); }
static vmig_status send_tell(vmig_machine *m, int bad) { (void)bad; return vmig_send_tell(m, bytes); }

/* A call of an idle machine, and of one that is sent, that answers DONE there, with what it answers in the other
 * states. */
#define NO_MACHINE_YET VMIG_NO_MACHINE, VMIG_NO_MACHINE, VMIG_NO_MACHINE
#define WHILE_LENT VMIG_LENT, VMIG_LENT, VMIG_LENT
#define OF_GUEST(DONE) {NO_MACHINE_YET, DONE, DONE, DONE, VMIG_STOPPED, DONE, DONE, DONE}
#define OF_RAM(DONE) {NO_MACHINE_YET, DONE, DONE, DONE, VMIG_STOPPED, WHILE_LENT}
#define OF_LOOK(DONE) {NO_MACHINE_YET, DONE, DONE, DONE, DONE, WHILE_LENT}
#define OF_IDLE {NO_MACHINE_YET, VMIG_OK, VMIG_SENDING, VMIG_SENDING, VMIG_SENDING, WHILE_LENT}
#define OF_SENDER(DONE) {NO_MACHINE_YET, VMIG_NOT_SENDING, DONE, VMIG_SEND_FAILED, VMIG_STOPPED, WHILE_LENT}
#define WHILE_SENT_LENT(DONE) VMIG_NOT_SENDING, DONE, VMIG_SEND_FAILED
#define OF_COPIER(DONE, LENT_DONE) {NO_MACHINE_YET, VMIG_NOT_SENDING, DONE, VMIG_SEND_FAILED, VMIG_STOPPED, WHILE_SENT_LENT(LENT_DONE)}
#define OF_SENT(DONE) {NO_MACHINE_YET, VMIG_NOT_SENDING, DONE, DONE, DONE, VMIG_NOT_SENDING, DONE, DONE}

/* A call that makes a machine, or continues one that arrives. */
#define IN_USE_7 VMIG_IN_USE, VMIG_IN_USE, VMIG_IN_USE, VMIG_IN_USE, VMIG_IN_USE, VMIG_IN_USE, VMIG_IN_USE
#define OF_NONE {VMIG_OK, VMIG_IN_USE, VMIG_IN_USE, IN_USE_7}
#define OF_ARRIVAL {VMIG_NO_MACHINE, VMIG_OK, VMIG_STREAM_FAILED, IN_USE_7}

typedef struct {
    const char *name;
    vmig_status (*call)(vmig_machine *, int);
    vmig_status wanted[STATES];
} Row;

static const Row ROWS[] = {
    {"vmig_make", make, OF_NONE},
    {"vmig_arrive", arrive, OF_NONE},
    {"vmig_feed", feed, OF_ARRIVAL},
    {"vmig_feed_some", feed_some, OF_ARRIVAL},
    {"vmig_feed_tell", feed_tell, {VMIG_NO_MACHINE, VMIG_NOT_ASKED, VMIG_STREAM_FAILED, IN_USE_7}},
    {"vmig_finish", finish, OF_ARRIVAL},
    {"vmig_release", release,
     {VMIG_NO_MACHINE, VMIG_OK, VMIG_OK, VMIG_OK, VMIG_OK, VMIG_OK, VMIG_OK, WHILE_LENT}},
    {"vmig_reg_read", reg_read, OF_GUEST(VMIG_OK)},
    {"vmig_reg_write", reg_write, OF_GUEST(VMIG_OK)},
    {"vmig_ram_write", ram_write, OF_RAM(VMIG_OK)},
    {"vmig_input", input, OF_GUEST(VMIG_OK)},
    {"vmig_resize", resize, OF_GUEST(VMIG_OK)},
    {"vmig_drop", drop, OF_GUEST(VMIG_OK)},
    {"vmig_reset", reset, OF_GUEST(VMIG_OK)},
    {"vmig_next", next, OF_GUEST(VMIG_IDLE)},
    {"vmig_step", step, OF_RAM(VMIG_IDLE)},
    {"vmig_work", work, OF_RAM(VMIG_IDLE)},
    {"vmig_push", push, OF_RAM(VMIG_OK)},
    {"vmig_mark", mark, OF_GUEST(VMIG_OK)},
    {"vmig_sync_failed", sync_failed, OF_GUEST(VMIG_OK)},
    {"vmig_disk_call", disk_call, OF_RAM(VMIG_IDLE)},
    {"vmig_disk_done", disk_done, OF_GUEST(VMIG_NOT_OUT)},
    {"vmig_disk_failed", disk_failed, OF_GUEST(VMIG_NOT_OUT)},
    {"vmig_written", written,
     {NO_MACHINE_YET, VMIG_NOT_KNOWN, VMIG_NOT_KNOWN, VMIG_NOT_KNOWN, VMIG_NOT_KNOWN, VMIG_NOT_KNOWN, VMIG_NOT_KNOWN, VMIG_NOT_KNOWN}},
    {"vmig_lend", lend, OF_RAM(VMIG_OK)},
    {"vmig_ram_read", ram_read, OF_LOOK(VMIG_OK)},
    {"vmig_pull", pull, OF_LOOK(VMIG_OK)},
    {"vmig_room", room_of, {NO_MACHINE_YET, VMIG_OK, VMIG_OK, VMIG_OK, VMIG_OK, VMIG_OK, VMIG_OK, VMIG_OK}},
    {"vmig_calls_out", calls_out, {NO_MACHINE_YET, VMIG_OK, VMIG_OK, VMIG_OK, VMIG_OK, VMIG_OK, VMIG_OK, VMIG_OK}},
    {"vmig_give_back", give_back,
     {NO_MACHINE_YET, VMIG_NOT_LENT, VMIG_NOT_LENT, VMIG_NOT_LENT, VMIG_NOT_LENT, VMIG_OK, VMIG_OK, VMIG_OK}},
    {"vmig_sector_read", sector_read, OF_IDLE},
    {"vmig_save", save, OF_IDLE},
    {"vmig_send_begin", send_begin, {NO_MACHINE_YET, VMIG_OK, VMIG_SENDING, VMIG_SEND_FAILED, VMIG_STOPPED, WHILE_LENT}},
    {"vmig_send_begin_as", send_begin_as, {NO_MACHINE_YET, VMIG_OK, VMIG_SENDING, VMIG_SEND_FAILED, VMIG_STOPPED, WHILE_LENT}},
    {"vmig_send_some", send_some, OF_COPIER(VMIG_OK, VMIG_LENT)},
    {"vmig_send_next", send_next, OF_COPIER(VMIG_OK, VMIG_OK)},
    {"vmig_send_page", send_page,
     {NO_MACHINE_YET, VMIG_NOT_SENDING, VMIG_NOT_LENT, VMIG_NOT_LENT, VMIG_STOPPED, WHILE_SENT_LENT(VMIG_OK)}},
    {"vmig_send_round", send_round, OF_COPIER(VMIG_ROUND_OPEN, VMIG_ROUND_OPEN)},
    {"vmig_send_stop", send_stop, OF_SENDER(VMIG_OK)},
    {"vmig_send_abort", send_abort, {NO_MACHINE_YET, VMIG_NOT_SENDING, VMIG_OK, VMIG_OK, VMIG_OK, WHILE_LENT}},
    {"vmig_send_left", send_left, OF_SENT(VMIG_OK)},
    {"vmig_send_take", send_take, OF_SENT(VMIG_OK)},
    {"vmig_send_tell", send_tell, {NO_MACHINE_YET, VMIG_NOT_SENDING, VMIG_NOT_ASKED, VMIG_NOT_ASKED, VMIG_NOT_ASKED, WHILE_LENT}},
};

/* The handle is as it is described. Its lines can be read in each state. */
static void is_described(const char *what, const vmig_machine *m, int state)
{
    vmig_description found = description_of(m);

    expect(what, found.state, STATE_NUMBERS[state]);
    expect(what, found.lent, state >= LENT);
    expect(what, found.pages, state < IDLE ? 0 : PAGES);
    expect(what, found.count, state < IDLE ? 0 : 3);
    expect(what, found.rounds, STATE_NUMBERS[state] == VMIG_IS_SENDING);
    expect(what, found.fault, STATE_NUMBERS[state] == VMIG_IS_SEND_FAILED ? VMIG_SEND_FAILED : state == FAILED ? VMIG_STREAM_BAD_SHAPE : 0);
    expect(what, found.fault_at, state == FAILED ? 10 : 0);
    expect("lines", vmig_lines(m), state >= IDLE);
}

/* A digest is asked for once a machine was stopped, where its host tells it; and an arrival whose host does is
 * not fed by the call for others. */
static vmig_status wanted_of(const Row *row, int state)
{
    if (is_told && row->call == feed && state == ARRIVING) return VMIG_NOT_ASKED;
    return is_told && row->call == send_tell && state == STOPPED ? VMIG_OK : row->wanted[state];
}

/* A call that the state refuses changes nothing. */
static void refuses_so(const char *what, const Row *row, int state, int bad)
{
    vmig_machine m = in_state(state);
    vmig_description before = description_of(&m), after;

    expect(what, row->call(&m, bad), wanted_of(row, state));
    after = description_of(&m);
    expect(what, (uint64_t)memcmp(&before, &after, sizeof before), 0);
    if (state >= LENT) expect("it is still lent", give_back_all(&m, &out), VMIG_OK);
    vmig_free(&m);
}

/* A call in each state. */
static void in_each_state(const Row *row)
{
    char what[80];

    for (int state = NONE; state < STATES; state++) {
        vmig_machine m = in_state(state);
        snprintf(what, sizeof what, "%s of %s%s", row->name, STATE_NAMES[state], is_told ? ", told" : "");
        is_described(what, &m, state);
        expect(what, row->call(&m, 0), wanted_of(row, state));
        if (state >= LENT && out.at != NULL) expect("it is still lent", give_back_all(&m, &out), VMIG_OK);
        vmig_free(&m);
        expect("freed", m.at != NULL, 0);
        if (!vmig_refused(wanted_of(row, state))) continue;
        refuses_so(what, row, state, 0);
        refuses_so(what, row, state, 1);
    }
}

int main(void)
{
    vmig_machine source = VMIG_NONE;

    make_one(&source);
    expect("save", vmig_save(&source, stream, sizeof stream, &stream_len), VMIG_OK);
    vmig_free(&source);
    for (is_told = 0; is_told < 2; is_told++)
        for (size_t row = 0; row < sizeof ROWS / sizeof *ROWS; row++) in_each_state(&ROWS[row]);
    return ended("states");
}
