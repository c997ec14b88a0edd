/* A disk outside in a file whose sync fails once while others are out: `synced HOW DISK STORAGE SEED RUNS [several]`. HOW is `model`: by threads over the file
 * DISK, whose syncs are the program's own, and bring what was written to the file STORAGE; or `threads`, or `ring` (io_uring): then DISK is a device whose
 * bytes lie in STORAGE, which becomes full. The host syncs as docs/hosts/storage-threads.md has it, one at a time, and tells of one that failed by vmig_sync_failed.
 * Nothing that a guest was told is durable may be gone. `several` is a host that is wrong: it has several syncs out together, and answers each call by its
 * own result. It runs until a loss is seen. */
#define _GNU_SOURCE
#include <errno.h>
#include <fcntl.h>
#include <pthread.h>
#include <stdatomic.h>
#include <stdio.h>
#include <stdlib.h>
#include <sys/syscall.h>
#include <unistd.h>
#include "ring.h"
#include "served.h"

enum { TURNS = 600, TURNS_LOST = 40, SYNC_US = 300, FIRST_FAILING = 4, FAILING_MOST = 40 };
#define ITS_SYNC UINT64_C(0x100)

static struct guest guest;
static struct slot slots[OUT_MAX];
static int disk, is_wrong, is_told;
static atomic_int is_lost;
static const char *how;

static int is_how(const char *word)
{
    return strcmp(how, word) == 0;
}

/* ---- a file whose syncs are the program's own -------------------------------------------------------------------------------------- */

/* What lies in storage, and which sectors of the file are newer. One sync fails: then these are given up, and the error is told once, as Linux tells
 * it for each open file. Whoever syncs at the same time is told that all is well. */
static struct {
    pthread_mutex_t lock;
    uint8_t stored[SECTORS][SECTOR];
    uint8_t is_newer[SECTORS];
    uint32_t syncs, failing;
    atomic_int has_dropped;
} model = {.lock = PTHREAD_MUTEX_INITIALIZER};

static void settle(uint64_t sector, int fails)
{
    off_t at = (off_t)(sector * SECTOR);

    if (fails) expect("given up", (uint64_t)syscall(SYS_pwrite64, disk, model.stored[sector], SECTOR, at), SECTOR);
    else expect("stored", (uint64_t)pread(disk, model.stored[sector], SECTOR, at), SECTOR);
    model.is_newer[sector] = 0;
}

int fdatasync(int file)
{
    int fails;

    if (!is_how("model")) return (int)syscall(SYS_fdatasync, file);
    usleep(SYNC_US);
    pthread_mutex_lock(&model.lock);
    fails = ++model.syncs == model.failing;
    if (fails) model.has_dropped = 1;
    for (uint64_t s = 0; s < SECTORS; s++)
        if (model.is_newer[s]) settle(s, fails);
    pthread_mutex_unlock(&model.lock);
    if (fails) errno = EIO;
    return -fails;
}

ssize_t pwrite(int file, const void *bytes, size_t length, off_t at)
{
    ssize_t done;

    pthread_mutex_lock(&model.lock);
    done = syscall(SYS_pwrite64, file, bytes, length, at);
    for (ssize_t i = 0; i < done; i += SECTOR) model.is_newer[(at + i) / SECTOR] = 1;
    pthread_mutex_unlock(&model.lock);
    return done;
}

static void begin_model(void)
{
    model.syncs = 0;
    model.failing = FIRST_FAILING + draw(FAILING_MOST);
    model.has_dropped = 0;
    memset(model.is_newer, 0, sizeof model.is_newer);
    for (uint64_t s = 0; s < SECTORS; s++) settle(s, 0);
}

static void end_model(const char *storage)
{
    FILE *file = fopen(storage, "w");

    expect("what is stored", file != NULL && fwrite(model.stored, SECTOR, SECTORS, file) == SECTORS && fclose(file) == 0, 1);
}

/* ---- what each host does once a sync failed ------------------------------------------------------------------------------------------ */

/* Before any answer that comes after it. */
static void tell_lost(void)
{
    if (!is_lost || is_told || is_wrong) return;
    expect("lost", vmig_sync_failed(&guest.m, 0), VMIG_OK);
    is_told = 1;
}

static void answer_with(struct slot *s, uint32_t count)
{
    tell_lost();
    guest.is_lost |= is_lost || model.has_dropped;
    answer(&guest, s, count);
}

/* ---- threads ------------------------------------------------------------------------------------------------------------------------- */

static struct {
    pthread_mutex_t lock, syncing;
    pthread_cond_t has_work, has_done;
    pthread_t threads[OUT_MAX];
    int works[OUT_MAX], is_done[OUT_MAX], stops;
    uint32_t count[OUT_MAX];
} pool = {.lock = PTHREAD_MUTEX_INITIALIZER, .syncing = PTHREAD_MUTEX_INITIALIZER, .has_work = PTHREAD_COND_INITIALIZER, .has_done = PTHREAD_COND_INITIALIZER};

/* One sync at a time, and none after one that failed. */
static int bring(void)
{
    int is_well;

    if (is_wrong) {
        is_well = fdatasync(disk) == 0;
        if (!is_well) is_lost = 1;
        return is_well;
    }
    pthread_mutex_lock(&pool.syncing);
    if (!is_lost && fdatasync(disk) != 0) is_lost = 1;
    is_well = !is_lost;
    pthread_mutex_unlock(&pool.syncing);
    return is_well;
}

/* How many sectors were done, of a flush 1; 0 where it failed. */
static uint32_t do_call(struct slot *s)
{
    const vmig_call *c = &s->call;
    size_t length = (size_t)c->count * SECTOR;
    ssize_t done;

    if (c->what == VMIG_DISK_FLUSH) return (uint32_t)bring();
    if (c->what == VMIG_DISK_CLEAR) memset(s->bytes, 0, length);
    done = c->what == VMIG_DISK_READ ? pread(disk, s->bytes, length, (off_t)(c->first * SECTOR)) : pwrite(disk, s->bytes, length, (off_t)(c->first * SECTOR));
    if (done < SECTOR || (c->durable && !bring())) return 0;
    return (uint32_t)(done / SECTOR);
}

static void *work(void *of)
{
    size_t i = (size_t)((struct slot *)of - slots);

    pthread_mutex_lock(&pool.lock);
    for (;;) {
        while (!pool.works[i] && !pool.stops) pthread_cond_wait(&pool.has_work, &pool.lock);
        if (pool.stops) break;
        pool.works[i] = 0;
        pthread_mutex_unlock(&pool.lock);
        pool.count[i] = do_call(&slots[i]);
        pthread_mutex_lock(&pool.lock);
        pool.is_done[i] = 1;
        pthread_cond_signal(&pool.has_done);
    }
    pthread_mutex_unlock(&pool.lock);
    return NULL;
}

static void begin_threads(void)
{
    pool.stops = 0;
    for (uint32_t i = 0; i < OUT_MAX; i++) expect("a thread", (uint64_t)pthread_create(&pool.threads[i], NULL, work, &slots[i]), 0);
}

static void end_threads(void)
{
    pthread_mutex_lock(&pool.lock);
    pool.stops = 1;
    pthread_cond_broadcast(&pool.has_work);
    pthread_mutex_unlock(&pool.lock);
    for (uint32_t i = 0; i < OUT_MAX; i++) pthread_join(pool.threads[i], NULL);
}

static void submit_to_threads(const struct slot *s)
{
    pthread_mutex_lock(&pool.lock);
    pool.works[s - slots] = 1;
    pthread_cond_broadcast(&pool.has_work);
    pthread_mutex_unlock(&pool.lock);
}

static int is_any_done(void)
{
    for (uint32_t i = 0; i < OUT_MAX; i++)
        if (pool.is_done[i]) return 1;
    return 0;
}

static void answer_threads(void)
{
    pthread_mutex_lock(&pool.lock);
    while (!is_any_done()) pthread_cond_wait(&pool.has_done, &pool.lock);
    for (uint32_t i = 0; i < OUT_MAX; i++) {
        if (!pool.is_done[i]) continue;
        pool.is_done[i] = 0;
        answer_with(&slots[i], pool.count[i]);
    }
    pthread_mutex_unlock(&pool.lock);
}

/* ---- io_uring ------------------------------------------------------------------------------------------------------------------------ */

static struct ring ring;
static int is_syncing;
static uint32_t written[OUT_MAX];       /* how many sectors of the call in this slot were done, of a flush 1 */

static void send_entry(uint8_t what, uint64_t name, const struct slot *s)
{
    struct io_uring_sqe entry = {.opcode = what, .fd = disk, .user_data = name};

    if (what == IORING_OP_FSYNC) entry.fsync_flags = IORING_FSYNC_DATASYNC;
    if (what != IORING_OP_FSYNC) entry.addr = (uintptr_t)s->bytes, entry.len = s->call.count * SECTOR, entry.off = s->call.first * SECTOR;
    expect("an entry", (uint64_t)ring_send(&ring, &entry), 1);
}

/* One sync of the file is out at a time: it serves all that wait for it. Once one failed no other is made. */
static void sync_all(void)
{
    int is_any = 0;

    for (uint32_t i = 0; i < OUT_MAX; i++) {
        if (slots[i].state != WAITS_FOR_SYNC || is_syncing) continue;
        if (is_lost) answer_with(&slots[i], 0);
        else slots[i].state = IS_SYNCED, is_any = 1;
    }
    if (!is_any) return;
    is_syncing = 1;
    send_entry(IORING_OP_FSYNC, ITS_SYNC, NULL);
}

static void wait_for_sync(struct slot *s, uint32_t count)
{
    written[s - slots] = count;
    s->state = is_wrong ? IS_SYNCED : WAITS_FOR_SYNC;
    if (is_wrong) send_entry(IORING_OP_FSYNC, ITS_SYNC + (uint64_t)(s - slots), NULL);
}

static void submit_to_ring(struct slot *s)
{
    const vmig_call *c = &s->call;

    if (c->what == VMIG_DISK_CLEAR) memset(s->bytes, 0, (size_t)c->count * SECTOR);
    if (c->what == VMIG_DISK_FLUSH) wait_for_sync(s, 1);
    else send_entry(c->what == VMIG_DISK_READ ? IORING_OP_READ : IORING_OP_WRITE, (uint64_t)(s - slots), s);
}

/* A sync is over: of one host all that it served, of the other one call. */
static void end_sync(uint64_t name, int32_t outcome)
{
    if (outcome != 0) is_lost = 1;
    is_syncing = 0;
    for (uint32_t i = 0; i < OUT_MAX; i++)
        if (slots[i].state == IS_SYNCED && (!is_wrong || name - ITS_SYNC == i)) answer_with(&slots[i], outcome == 0 ? written[i] : 0);
}

static void answer_ring(void)
{
    uint64_t name;
    int32_t outcome;

    sync_all();
    for (int waits = is_any_out(slots); ring_take(&ring, waits, &name, &outcome); waits = 0) {
        struct slot *s = &slots[name % OUT_MAX];
        uint32_t count = outcome < SECTOR ? 0 : (uint32_t)outcome / SECTOR;

        if (name >= ITS_SYNC) end_sync(name, outcome);
        else if (s->call.durable && count > 0) wait_for_sync(s, count);
        else answer_with(s, count);
        sync_all();
    }
}

/* ---- a run --------------------------------------------------------------------------------------------------------------------------- */

static void submit(struct slot *s)
{
    if (is_how("ring")) submit_to_ring(s);
    else submit_to_threads(s);
}

static void answer_some(void)
{
    if (!is_any_out(slots)) return;
    if (is_how("ring")) answer_ring();
    else answer_threads();
}

/* Some turns more once a sync failed. */
static void work_on(void)
{
    uint32_t left = TURNS;

    while (left-- > 0 && failures == 0) {
        if (is_lost && left > TURNS_LOST) left = TURNS_LOST;
        turn(&guest, slots);
        answer_some();
    }
    while (is_any_out(slots) && failures == 0) answer_some();
}

static void run(const char *name, const char *storage, int has_flush)
{
    if (is_how("model")) make_disk(name);
    disk = open(name, O_RDWR);
    expect("the disk", disk >= 0, 1);
    if (is_how("model")) begin_model();
    is_lost = is_told = 0;
    begin_guest(&guest, has_flush);
    work_on();
    vmig_free(&guest.m);
    close(disk);
    if (is_how("model")) end_model(storage);
    check_storage(&guest, storage);
    seen.losses += (uint64_t)is_lost;
}

int main(int count, char **words)
{
    uint32_t runs = count > 5 ? (uint32_t)atoi(words[5]) : 0, seed;

    if (runs == 0) return 2;
    how = words[1];
    seed = (uint32_t)atoi(words[4]);
    drawn += (uint64_t)seed << 20;
    is_wrong = count > 6 && strcmp(words[6], "several") == 0;
    if (is_how("ring") && !ring_begin(&ring)) {
        puts("synced: the system has no io_uring");
        return 77;
    }
    if (!is_how("ring")) begin_threads();
    for (uint32_t i = 0; i < runs && failures == 0 && !(is_wrong && seen.gone > 0); i++) run(words[2], words[3], (seed + i) % 2);
    if (!is_how("ring")) end_threads();
    return told(how, is_wrong);
}
