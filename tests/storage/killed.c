/* A storage server with a write-back cache that is killed under load, and opened again: `killed FOLDER RUNS [FORM]`. The host goes on as docs/hosts/storage.md has
 * it: what broke is told by vmig_sync_failed, and what is out is done again. Between kills the guest is saved, and continues from the saved bytes over a server
 * that was killed since, and is moved over the storage that both hosts have. Nothing that a guest was told is durable may be gone. FORM is a host that
 * writes anew all that was answered and not flushed (anew), so no read is stale either; or one that is wrong: it does not call vmig_sync_failed (again), does
 * not flush before saved bytes are good (unsaved), or does not tell the target of a move (untold): such a one runs until a loss is seen. */
#define _GNU_SOURCE
#include <fcntl.h>
#include <signal.h>
#include <stdio.h>
#include <stdlib.h>
#include <sys/wait.h>
#include "nbd.h"
#include "served.h"

enum { PHASES = 5, STEPS_MAX = 80, CONNECT_MS = 20000 };
#define OWN UINT64_MAX

static struct guest guest;
static struct slot slots[OUT_MAX];
static int connection = -1, is_lost;    /* the machine was told that its disk is lost */
static pid_t server;
static const char *form = "";
static char disk[256], log_of_server[256], path[NBD_PATH];

static int is_form(const char *word)
{
    return strcmp(form, word) == 0;
}

static int is_wrong(void)
{
    return form[0] != '\0' && !is_form("anew");
}

/* What was answered and is not known to be on storage, in the order of the answers; and what a flush covers that is out. */
static struct {
    uint8_t bytes[SECTORS][SECTOR];
    uint64_t answered[SECTORS], answers, covered[OUT_MAX];
} kept;

/* ---- the server ------------------------------------------------------------------------------------------------------------------ */

static void start_server(void)
{
    unlink(path);
    server = fork();
    if (server != 0) return;
    if (freopen(log_of_server, "w", stderr) == NULL) _exit(126);
    execlp("nbdkit", "nbdkit", "-f", "--exit-with-parent", "-U", path, "--filter=cache", "file", disk, "cache=writeback", (char *)NULL);
    _exit(127);
}

static void kill_server(void)
{
    kill(server, SIGKILL);
    waitpid(server, NULL, 0);
    seen.kills++;
    check_storage(&guest, disk);
}

static void open_storage(void)
{
    connection = -1;
    for (int i = 0; i < CONNECT_MS && connection < 0; i++) {
        connection = nbd_connect(path);
        if (connection < 0) usleep(1000);
    }
    if (connection >= 0) return;
    puts("killed: the server takes no connection");
    exit(1);
}

/* A call that cannot be sent is out all the same: that the connection is broken is seen where replies come. */
static void submit(struct slot *s)
{
    static const uint16_t types[] = {[VMIG_DISK_READ] = NBD_READ, [VMIG_DISK_WRITE] = NBD_WRITE, [VMIG_DISK_CLEAR] = NBD_ZERO, [VMIG_DISK_FLUSH] = NBD_FLUSH};
    const vmig_call *c = &s->call;

    kept.covered[s - slots] = kept.answers;
    nbd_send(connection, types[c->what], c->durable ? NBD_FUA : 0, c->number, c->first * SECTOR, c->count * SECTOR, s->bytes);
}

static struct slot *slot_of(uint64_t number)
{
    for (uint32_t i = 0; i < OUT_MAX; i++)
        if (slots[i].state == IS_OUT && slots[i].call.number == number) return &slots[i];
    expect("a reply to a call that is out", 0, 1);
    return NULL;
}

static void forget_until(uint64_t answers)
{
    for (uint64_t s = 0; s < SECTORS; s++)
        if (kept.answered[s] <= answers) kept.answered[s] = 0;
}

static void keep(const struct slot *s)
{
    const vmig_call *c = &s->call;

    kept.answers++;
    if (c->what == VMIG_DISK_FLUSH) forget_until(kept.covered[s - slots]);
    for (uint32_t i = 0; (c->what == VMIG_DISK_WRITE || c->what == VMIG_DISK_CLEAR) && i < c->count; i++) {
        uint64_t sector = c->first + i;

        if (c->what == VMIG_DISK_WRITE) memcpy(kept.bytes[sector], s->bytes + i * SECTOR, SECTOR);
        else memset(kept.bytes[sector], 0, SECTOR);
        kept.answered[sector] = c->durable ? 0 : kept.answers;
    }
}

static uint32_t done_of(const struct slot *s)
{
    return s->call.what == VMIG_DISK_FLUSH ? 1 : s->call.count;
}

/* Answers what has come, and waits for it some milliseconds. False where the connection is broken. */
static int answer_some(int milliseconds)
{
    while (nbd_has_come(connection, milliseconds)) {
        uint64_t number;
        uint32_t error;

        if (!nbd_receive(connection, &number, &error)) return 0;
        struct slot *s = slot_of(number);
        if (s == NULL) return 0;
        if (s->call.what == VMIG_DISK_READ && error == 0 && !receive_bytes(connection, s->bytes, s->call.count * SECTOR)) return 0;
        if (error == 0) keep(s);
        answer(&guest, s, error == 0 ? done_of(s) : 0);
        milliseconds = 0;
    }
    return 1;
}

/* ---- what the texts ask for ------------------------------------------------------------------------------------------------------ */

/* A request of the host's own, while nothing else is under way. */
static int ask_storage(uint16_t type, uint64_t sector, const uint8_t *bytes)
{
    uint64_t number;
    uint32_t error = 1;

    if (!nbd_send(connection, type, 0, OWN, sector * SECTOR, type == NBD_WRITE ? SECTOR : 0, bytes)) return 0;
    return nbd_receive(connection, &number, &error) && error == 0;
}

static void write_anew(void)
{
    for (uint64_t s = 0; s < SECTORS; s++)
        if (kept.answered[s] != 0) expect("written anew", (uint64_t)ask_storage(NBD_WRITE, s, kept.bytes[s]), 1);
}

/* The connection broke: the server may have lost what it answered. The library is told before any answer that comes after it, and what is out is done again. */
static void open_again(void)
{
    close(connection);
    kill_server();
    start_server();
    open_storage();
    if (is_form("anew")) write_anew();
    else guest.is_lost = 1;
    if (!is_form("again")) {
        expect("lost", vmig_sync_failed(&guest.m, 0), VMIG_OK);
        is_lost = 1;
    }
    for (uint32_t i = 0; i < OUT_MAX; i++)
        if (slots[i].state == IS_OUT) submit(&slots[i]);
}

/* All that is out is answered, and nothing more is handed out. */
static void drain(void)
{
    while (is_any_out(slots))
        if (!answer_some(1000)) open_again();
}

static int flush_storage(void)
{
    if (!ask_storage(NBD_FLUSH, 0, NULL)) return 0;
    forget_until(kept.answers);
    return 1;
}

/* The guest is saved, and goes on from the saved bytes alone: what it was told of has to be there, also after a kill. Whoever continues from them is told
 * whether the disk is lost, as in a move. */
static void save(void)
{
    static uint8_t stream[STREAM];
    size_t len = 0;

    drain();
    expect("save", vmig_save(&guest.m, stream, sizeof stream, &len), VMIG_OK);
    if (!is_form("unsaved") && !flush_storage()) {
        open_again();
        return;
    }
    if (!is_lost) memcpy(guest.durable, guest.told, sizeof guest.told);
    close(connection);
    kill_server();
    start_server();
    open_storage();
    continue_from(&guest, stream, len, is_lost);
    seen.saves++;
}

/* Both hosts have the storage: the source flushes it and lets go, and the target opens it then, and is told which disks are lost. */
static void move(void)
{
    static uint8_t stream[STREAM];
    size_t len;

    drain();
    len = send_whole(&guest.m, stream);
    if (!is_lost && !flush_storage()) {
        expect("abort", vmig_send_abort(&guest.m), VMIG_OK);
        open_again();
        return;
    }
    close(connection);
    open_storage();
    continue_from(&guest, stream, len, is_lost && !is_form("untold"));
    seen.moves++;
}

/* ---- a run ----------------------------------------------------------------------------------------------------------------------- */

static void work_for(uint32_t steps)
{
    while (steps-- > 0 && failures == 0) {
        turn(&guest, slots);
        if (!answer_some((int)draw(2))) open_again();
    }
}

/* The server dies while it works, and the host finds out by itself. */
static void lose(void)
{
    kill(server, SIGKILL);
    work_for(1 + draw(STEPS_MAX));
}

/* The first phase of all is one of the three in turn, with FLUSH and without. */
static void do_phase(uint32_t which)
{
    work_for(1 + draw(STEPS_MAX));
    switch (which) {
    case 0: save(); break;
    case 1: move(); break;
    default: lose(); break;
    }
}

static void run(uint32_t number)
{
    make_disk(disk);
    is_lost = 0;
    memset(slots, 0, sizeof slots);
    begin_guest(&guest, number % 2);
    guest.is_lost = is_wrong();
    memset(&kept, 0, sizeof kept);
    if (failures > 0) return;
    start_server();
    open_storage();
    do_phase(number / 2 % 3);
    for (int i = 1; i < PHASES && failures == 0; i++) do_phase(draw(4));
    work_for(STEPS_MAX);
    close(connection);
    kill_server();
    vmig_free(&guest.m);
}

int main(int count, char **words)
{
    int runs = count > 2 ? atoi(words[2]) : 0;

    if (count > 3) form = words[3];
    if (runs == 0) return 2;
    snprintf(disk, sizeof disk, "%s/disk", words[1]);
    snprintf(log_of_server, sizeof log_of_server, "%s/log", words[1]);
    snprintf(path, sizeof path, "%s/socket", words[1]);
    setenv("TMPDIR", words[1], 1);
    for (int i = 0; i < runs && failures == 0 && !(is_wrong() && seen.gone > 0); i++) run((uint32_t)i);
    if (is_form("anew")) expect("no read is stale", seen.stale, 0);
    return told("killed", is_wrong());
}
