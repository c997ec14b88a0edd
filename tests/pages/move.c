/* The code of docs/hosts/move.md as it stands there: both ends of a move, in two processes here, and a guest that counts in its RAM meanwhile. */
#define _DEFAULT_SOURCE
#include <stddef.h>
#include <stdint.h>
#include "vmig.h"

enum { PAGES = 64, SECTORS = 2048, FEW = 4, ROUNDS = 8, ITEMS = 16, PIECE = 65536 };
enum word { READY = 'r', GO = 'g', RUNS = 'u' };
enum runs { HERE, THERE, ASK_OPERATOR };

/* What your host has beside this. The line, the disks and the log return 0 where they fail. */
int line_send(const void *bytes, size_t length);
int line_receive(void *bytes, size_t length);       /* as many, or it fails; for READY it waits for as long as the target's syncs may take */
void run_guest(vmig_machine *m);                    /* for a while: its exits, and the devices' turn; then every vCPU is outside */
int mark_pages(vmig_machine *m);                    /* with RAM of yours: vmig_mark of its dirty bitmap; else there is nothing to do */
int sync_disks(void);                               /* msync of each mapped disk, and fsync of the folder of a new file */

static int send_word(enum word word)
{
    uint8_t byte = (uint8_t)word;

    return line_send(&byte, 1);
}

static int hear_word(enum word word)
{
    uint8_t byte = 0;

    return line_receive(&byte, 1) && byte == word;
}

/* What waits goes over the line, in pieces that have their length before them. */
static int send_waiting(vmig_machine *m)
{
    static uint8_t piece[PIECE];
    size_t got = 0;
    uint32_t length;

    do {
        if (vmig_send_take(m, piece, sizeof piece, &got) != VMIG_OK) return 0;
        length = (uint32_t)got;
        if (got > 0 && !(line_send(&length, sizeof length) && line_send(piece, got))) return 0;
    } while (got > 0);
    return 1;
}

/* Sends what is due in this round. The guest runs between two copies. */
static int send_due(vmig_machine *m)
{
    vmig_status status;

    do {
        run_guest(m);
        status = vmig_send_some(m, ITEMS);
        if (vmig_refused(status) || !send_waiting(m)) return 0;
    } while (status != VMIG_ROUND_DONE);
    return mark_pages(m);
}

/* Whether the guest is to be stopped: few items are left, or it writes faster than they are sent. */
static int is_enough(const vmig_machine *m, int round)
{
    vmig_left left;

    return vmig_send_left(m, &left) != VMIG_OK || left.dirty_pages + left.dirty_sectors <= FEW || round == ROUNDS;
}

/* The whole stream. The guest is paused from the last round on. */
static int send_machine(vmig_machine *m)
{
    static const uint32_t end;
    uint64_t pages, sectors;
    int round = 1;

    if (vmig_send_begin(m) != VMIG_OK || !send_due(m)) return 0;
    for (; !is_enough(m, round); round++)
        if (vmig_send_round(m) != VMIG_OK || !send_due(m)) return 0;
    return vmig_send_stop(m, &pages, &sectors) == VMIG_OK && send_waiting(m) && line_send(&end, sizeof end);
}

/* The source. Until it has said GO its guest may run here; after that only by the operator's word. */
static enum runs move_out(vmig_machine *m)
{
    vmig_status status;

    if (!send_machine(m) || !hear_word(READY)) {
        status = vmig_send_abort(m);
        return status == VMIG_OK || status == VMIG_NOT_SENDING ? HERE : ASK_OPERATOR;
    }
    if (!send_word(GO) || !hear_word(RUNS)) return ASK_OPERATOR;
    vmig_free(m);
    return THERE;
}

/* What comes may be larger than this host allows, or no machine: then it is refused, before memory is taken for it. */
static int receive_machine(vmig_machine *m)
{
    static uint8_t piece[PIECE];
    vmig_arrival arrival = VMIG_ARRIVAL;
    uint32_t length = 0;
    vmig_status status;

    arrival.most_pages = PAGES, arrival.most_sectors = SECTORS;
    status = vmig_arrive(&arrival, m);
    while (!vmig_refused(status) && line_receive(&length, sizeof length) && length > 0) {
        if (length > sizeof piece || !line_receive(piece, length)) return 0;
        status = vmig_feed(m, piece, length);
    }
    return status == VMIG_WHOLE && vmig_finish(m) == VMIG_OK && sync_disks();
}

/* The target. HERE: read the lines, do the devices' work, and run the guest, whether the source hears so or not. */
static enum runs move_in(vmig_machine *m)
{
    if (!receive_machine(m)) {
        vmig_free(m);
        return THERE;
    }
    if (!send_word(READY) || !hear_word(GO)) return ASK_OPERATOR;
    send_word(RUNS);
    return HERE;
}

/* ---- the hosts' own parts, and the guest ---- */
#include <signal.h>
#include <sys/socket.h>
#include <sys/wait.h>
#include <unistd.h>
#include "driver.h"

enum { HEAP = 16, COUNT_AT = 15 * 4096, CUT_NEVER = 1000000 };

static int line, cut_after, synced;
static uint64_t counted;

/* A line that breaks after so many calls, for good. */
static int is_cut(void)
{
    return cut_after-- <= 0;
}

int line_send(const void *bytes, size_t length)
{
    return !is_cut() && write(line, bytes, length) == (ssize_t)length;
}

int line_receive(void *bytes, size_t length)
{
    size_t at = 0;

    while (at < length) {
        ssize_t got = is_cut() ? 0 : read(line, (uint8_t *)bytes + at, length - at);

        if (got <= 0) return 0;
        at += (size_t)got;
    }
    return 1;
}

/* The guest counts in its RAM, each time in another page. */
void run_guest(vmig_machine *m)
{
    counted++;
    put(m, (HEAP + counted % (PAGES - HEAP)) * 4096, counted, 8);
    put(m, COUNT_AT, counted, 8);
}

int mark_pages(vmig_machine *m)
{
    (void)m;
    return 1;
}

int sync_disks(void)
{
    synced++;
    return 1;
}

/* The target's process: 0 where the guest is here, as it was, 1 where it is not, 2 where nobody knows. */
static int target(int end)
{
    vmig_machine m = VMIG_NONE;
    enum runs outcome;
    uint64_t now;

    line = end;
    outcome = move_in(&m);
    if (outcome != HERE) return outcome == THERE ? 1 : 2;
    now = get(&m, COUNT_AT, 8);
    expect("its page", get(&m, (HEAP + now % (PAGES - HEAP)) * 4096, 8), now);
    expect("its driver goes on", ask(&m, 2), 16);
    expect("its disks were synced", (uint64_t)synced, 1);
    vmig_free(&m);
    return failures == 0 ? 0 : 3;
}

/* A move over a line that the source finds broken after so many of its calls. Returns who runs the guest at the source, and *there what the target's
 * process ended with. */
static enum runs move_over(vmig_machine *m, int calls, int *there)
{
    int ends[2], status = 0;
    enum runs outcome;
    pid_t child;

    expect("a line", (uint64_t)socketpair(AF_UNIX, SOCK_STREAM, 0, ends), 0);
    cut_after = CUT_NEVER;
    child = fork();
    if (child == 0) {
        close(ends[0]);
        _exit(target(ends[1]));
    }
    close(ends[1]);
    line = ends[0], cut_after = calls;
    outcome = move_out(m);
    close(ends[0]);
    expect("the target ends", (uint64_t)waitpid(child, &status, 0), (uint64_t)child);
    *there = WEXITSTATUS(status);
    return outcome;
}

int main(void)
{
    static const vmig_shape shapes[] = {{.kind = VMIG_ENTROPY}, {.kind = VMIG_BLOCK, .sectors = 16}};
    vmig_machine m = VMIG_NONE;
    uint8_t random[64] = {1};
    size_t kept;
    int there = 0, asked = 0, calls = 0;
    enum runs outcome = HERE;

    signal(SIGPIPE, SIG_IGN);
    expect("make", make_new(PAGES, shapes, 2, &m), VMIG_OK);
    set_up(&m, 1);
    expect("input", vmig_input(&m, 0, random, sizeof random, &kept), VMIG_OK);
    expect("used length", ask(&m, 1), 16);
    for (; outcome != THERE && failures == 0; calls++) {
        outcome = move_over(&m, calls, &there);
        if (outcome == HERE) expect("it is not there", (uint64_t)(there == 0 || there == 3), 0);
        if (outcome == THERE) expect("it is there", (uint64_t)there, 0);
        if (outcome == ASK_OPERATOR) {
            asked++;
            expect("the guest waits for a word", vmig_send_abort(&m), VMIG_OK);
        }
    }
    expect("asked twice", (uint64_t)asked, 2);
    return ended("pages/move");
}
