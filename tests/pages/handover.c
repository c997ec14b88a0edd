/* The code of docs/hosts/handover.md as it stands there: a move over storage that both hosts see, in two processes here, over a line that breaks at
 * each place, and with storage that cannot be flushed or opened. */
#define _DEFAULT_SOURCE
#include <stddef.h>
#include <stdint.h>
#include "vmig.h"

enum { DISK, DEVICES };
enum { PAGES = 64, SECTORS = 4096, FEW = 4, ROUNDS = 8, ITEMS = 16, PIECE = 65536 };
enum word { READY = 'r', GO = 'g', RUNS = 'u', REFUSED = 'x' };
enum runs { HERE, THERE, ASK_OPERATOR };

/* What your host has beside this. Each of these returns 0 where it fails. */
int line_send(const void *bytes, size_t length);
int line_receive(void *bytes, size_t length);       /* as many; for READY it waits as long as the target may take */
int run_guest(vmig_machine *m);                     /* for a while, with its devices' turns; then every vCPU is outside */
int mark_pages(vmig_machine *m);                    /* with RAM of yours: vmig_mark of its dirty bitmap; else there is nothing to do */
int answer_all(vmig_machine *m);                    /* waits until nothing is out of its disk, and answers it */
int storage_open(void);                             /* or it is open already */
int storage_close(int is_lost);                     /* flushes it, unless it is lost, writes its caches, gives up its locks */
uint64_t own_numbers(void);                         /* for calls_from: of each machine of this process its own */

static int send_word(enum word word)
{
    uint8_t byte = (uint8_t)word;

    return line_send(&byte, 1);
}

/* 0: none has come. */
static int hear_word(void)
{
    uint8_t byte = 0;

    return line_receive(&byte, 1) ? byte : 0;
}

/* What waits goes over the line, in pieces that have their length before them. */
static int send_waiting(vmig_machine *m)
{
    static uint8_t piece[PIECE];
    size_t got = 0;
    uint32_t length;

    do {
        if (vmig_send_take(m, piece, sizeof piece, &got) != VMIG_OK) return 0;
        length = (uint32_t)got;
        if (got > 0 && !(line_send(&length, sizeof length) && line_send(piece, got))) return 0;
    } while (got > 0);
    return 1;
}

static int send_due(vmig_machine *m)
{
    vmig_status status;

    do {
        if (!run_guest(m)) return 0;
        status = vmig_send_some(m, ITEMS);
        if (vmig_refused(status) || !send_waiting(m)) return 0;
    } while (status != VMIG_ROUND_DONE);
    return mark_pages(m);
}

static int is_enough(const vmig_machine *m, int round)
{
    vmig_left left;

    return vmig_send_left(m, &left) != VMIG_OK || left.dirty_pages <= FEW || round == ROUNDS;
}

static int is_lost(const vmig_machine *m)
{
    vmig_description found;

    vmig_describe(m, &found);
    return (int)(found.lost >> DISK & 1);
}

/* Steps 1 and 2. After the last piece comes END: a length of 0, and whether the disk is lost. */
static int send_machine(vmig_machine *m)
{
    static const uint32_t end;
    uint64_t pages, sectors;
    uint8_t lost;
    int round = 1;

    if (vmig_send_begin(m) != VMIG_OK || !send_due(m)) return 0;
    for (; !is_enough(m, round); round++)
        if (vmig_send_round(m) != VMIG_OK || !send_due(m)) return 0;
    if (!answer_all(m) || !mark_pages(m) || vmig_send_stop(m, &pages, &sectors) != VMIG_OK) return 0;
    lost = (uint8_t)is_lost(m);
    return send_waiting(m) && line_send(&end, sizeof end) && line_send(&lost, 1);
}

/* The guest runs here again. */
static enum runs go_back(vmig_machine *m)
{
    vmig_status status = vmig_send_abort(m);

    if (status != VMIG_OK && status != VMIG_NOT_SENDING) return ASK_OPERATOR;
    return storage_open() ? HERE : ASK_OPERATOR;
}

/* The source. Until it has said GO its guest may run here; after that only by the operator's word, or by REFUSED. */
static enum runs move_out(vmig_machine *m)
{
    int word;

    if (!send_machine(m) || hear_word() != READY) return go_back(m);
    if (!storage_close(is_lost(m))) {
        enum runs who = go_back(m);
        return who == HERE && vmig_sync_failed(m, DISK) != VMIG_OK ? ASK_OPERATOR : who;
    }
    if (!send_word(GO)) return ASK_OPERATOR;
    word = hear_word();
    if (word == REFUSED) return go_back(m);
    if (word != RUNS) return ASK_OPERATOR;
    vmig_free(m);
    return THERE;
}

/* Step 3. */
static int receive_machine(vmig_machine *m)
{
    static uint8_t piece[PIECE];
    vmig_arrival arrival = VMIG_ARRIVAL;
    uint32_t length = 0;
    uint8_t lost = 0;
    vmig_status status;

    arrival.most_pages = PAGES, arrival.most_outside = SECTORS, arrival.calls_from = own_numbers();
    status = vmig_arrive(&arrival, m);
    while (!vmig_refused(status) && line_receive(&length, sizeof length) && length > 0) {
        if (length > sizeof piece || !line_receive(piece, length)) return 0;
        status = vmig_feed(m, piece, length);
    }
    if (status != VMIG_WHOLE || vmig_finish(m) != VMIG_OK || !line_receive(&lost, 1)) return 0;
    return !lost || vmig_sync_failed(m, DISK) == VMIG_OK;
}

/* The target. HERE: read the lines, do the devices' work, ask for calls, and run the guest, whether the source hears so or not. */
static enum runs move_in(vmig_machine *m)
{
    if (!receive_machine(m)) {
        vmig_free(m);
        return THERE;
    }
    if (!send_word(READY) || hear_word() != GO) return ASK_OPERATOR;
    if (!storage_open()) {
        send_word(REFUSED);
        vmig_free(m);
        return THERE;
    }
    send_word(RUNS);
    return HERE;
}

/* ---- the hosts' own parts, and the guest ---- */
#include <signal.h>
#include <sys/mman.h>
#include <sys/socket.h>
#include <sys/wait.h>
#include <unistd.h>
#include "driver.h"

enum { HEAP = 16, COUNT_AT = 15 * 4096, CUT_NEVER = 1000000 };

/* What both hosts see: who has the storage open, and whether two ever had. */
static struct shared {
    int is_open_at[2], had_two;
} *shared;

static int line, cut_after, who, answers, flush_fails, open_fails;
static uint64_t counted;

static int is_cut(void)
{
    return cut_after-- <= 0;
}

int line_send(const void *bytes, size_t length)
{
    return !is_cut() && write(line, bytes, length) == (ssize_t)length;
}

int line_receive(void *bytes, size_t length)
{
    size_t at = 0;

    while (at < length) {
        ssize_t got = is_cut() ? 0 : read(line, (uint8_t *)bytes + at, length - at);

        if (got <= 0) return 0;
        at += (size_t)got;
    }
    return 1;
}

/* The guest counts in its RAM, each time in another page. */
int run_guest(vmig_machine *m)
{
    counted++;
    put(m, (HEAP + counted % (PAGES - HEAP)) * 4096, counted, 8);
    put(m, COUNT_AT, counted, 8);
    return 1;
}

int mark_pages(vmig_machine *m)
{
    (void)m;
    return 1;
}

/* Its disk was asked to read: the answer comes here. */
int answer_all(vmig_machine *m)
{
    vmig_call calls[8];
    static const uint8_t bytes[8 * 512];
    size_t count = 0;

    expect("what is out", vmig_calls_out(m, calls, 8, &count), VMIG_OK);
    for (size_t i = 0; i < count; i++, answers++)
        expect("done", vmig_disk_done(m, calls[i].number, calls[i].count, bytes, 512u * calls[i].count), VMIG_OK);
    return 1;
}

int storage_open(void)
{
    if (who == 1 && open_fails) return 0;
    shared->is_open_at[who] = 1;
    if (shared->is_open_at[1 - who]) shared->had_two = 1;
    return 1;
}

int storage_close(int is_lost)
{
    if (flush_fails && !is_lost) return 0;
    shared->is_open_at[who] = 0;
    return 1;
}

uint64_t own_numbers(void)
{
    return (uint64_t)(1 + who) << 40;
}

/* The driver asks for a sector, whose call is out. */
static void ask_for_sector(vmig_machine *m, uint32_t count)
{
    static uint8_t bytes[512];
    vmig_call call;

    put(m, 0x7000, 0, 8);
    put(m, 0x7008, 9, 8);
    describe(m, 0, 0, 0x7000, 16, HAS_NEXT, 1);
    describe(m, 0, 1, DATA, 512, HAS_NEXT | WRITABLE, 2);
    describe(m, 0, 2, 0x7100, 1, WRITABLE, 0);
    offer(m, 0, count, 0);
    serve(m);
    expect("a call", vmig_disk_call(m, &call, bytes, sizeof bytes), VMIG_CALL);
}

/* The target's process: 0 where the guest is here, as it was, 1 where it is not, 2 where nobody knows, 3 where something is wrong. */
static int target(int end, int was_lost)
{
    vmig_machine m = VMIG_NONE;
    enum runs outcome;
    uint64_t now;

    line = end, who = 1;
    outcome = move_in(&m);
    if (outcome != HERE) return outcome == THERE ? 1 : 2;
    now = get(&m, COUNT_AT, 8);
    expect("its page", get(&m, (HEAP + now % (PAGES - HEAP)) * 4096, 8), now);
    expect("whether its disk is lost", (uint64_t)is_lost(&m), (uint64_t)was_lost);
    expect("nothing is out", description_of(&m).calls_out, 0);
    expect("the source has closed it", (uint64_t)shared->is_open_at[0], 0);
    vmig_free(&m);
    return failures == 0 ? 0 : 3;
}

/* A move over a line that the source finds broken after so many of its calls. */
static enum runs move_over(vmig_machine *m, int calls, int *there)
{
    int ends[2], status = 0;
    enum runs outcome;
    pid_t child;

    expect("a line", (uint64_t)socketpair(AF_UNIX, SOCK_STREAM, 0, ends), 0);
    cut_after = CUT_NEVER;
    child = fork();
    if (child == 0) {
        close(ends[0]);
        _exit(target(ends[1], is_lost(m)));
    }
    close(ends[1]);
    line = ends[0], cut_after = calls;
    outcome = move_out(m);
    close(ends[0]);
    expect("the target ends", (uint64_t)waitpid(child, &status, 0), (uint64_t)child);
    *there = WEXITSTATUS(status);
    expect("nothing is wrong there", (uint64_t)(*there == 3), 0);
    return outcome;
}

static void make(vmig_machine *m)
{
    static const vmig_shape shapes[DEVICES] = {[DISK] = {.kind = VMIG_BLOCK_OUTSIDE, .sectors = SECTORS}};

    shared->is_open_at[0] = 1, shared->is_open_at[1] = 0, counted = 0;
    expect("make", make_new(PAGES, shapes, DEVICES, m), VMIG_OK);
    set_up_with(m, 1, 1 << 9);
}

/* The line breaks at each place in turn, until it holds. A disk that is lost is lost there too. */
static void breaks_everywhere(int is_lost_before)
{
    vmig_machine m = VMIG_NONE;
    int there = 0, asked = 0, calls = 0;
    enum runs outcome = HERE;

    make(&m);
    if (is_lost_before) expect("lost", vmig_sync_failed(&m, DISK), VMIG_OK);
    flush_fails = is_lost_before, answers = 0;
    ask_for_sector(&m, 1);
    for (; outcome != THERE && failures == 0; calls++) {
        outcome = move_over(&m, calls, &there);
        if (outcome == HERE) expect("it is not there", (uint64_t)there != 0, 1);
        if (outcome == HERE) expect("storage is open", (uint64_t)shared->is_open_at[0], 1);
        if (outcome == THERE) expect("it is there", (uint64_t)there, 0);
        if (outcome != ASK_OPERATOR) continue;
        asked++;
        expect("by the operator's word", vmig_send_abort(&m), VMIG_OK);
        shared->is_open_at[0] = 1, shared->is_open_at[1] = 0;
    }
    expect("asked twice", (uint64_t)asked, 2);
    expect("what was out was answered", (uint64_t)answers, 1);
    flush_fails = 0;
    vmig_free(&m);
}

/* Storage that cannot be flushed, or not be opened there: the guest goes on here. */
static void goes_back(void)
{
    vmig_machine m = VMIG_NONE;
    int there = 0;

    make(&m);
    open_fails = 1;
    expect("not opened there", move_over(&m, CUT_NEVER, &there), HERE);
    expect("dropped there", (uint64_t)there, 1);
    expect("no disk is lost", (uint64_t)is_lost(&m), 0);
    open_fails = 0, flush_fails = 1;
    expect("not flushed here", move_over(&m, CUT_NEVER, &there), HERE);
    expect("paused there", (uint64_t)there, 2);
    expect("it is lost", (uint64_t)is_lost(&m), 1);
    expect("idle", description_of(&m).state, VMIG_IS_IDLE);
    flush_fails = 0;
    vmig_free(&m);
}

int main(void)
{
    shared = mmap(NULL, sizeof *shared, PROT_READ | PROT_WRITE, MAP_SHARED | MAP_ANONYMOUS, -1, 0);
    if (shared == MAP_FAILED) return 2;
    signal(SIGPIPE, SIG_IGN);
    breaks_everywhere(0);
    breaks_everywhere(1);
    goes_back();
    expect("two hosts never had it open", (uint64_t)shared->had_two, 0);
    return ended("pages/handover");
}
