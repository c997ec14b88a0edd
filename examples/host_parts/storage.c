#define _DEFAULT_SOURCE
#include <errno.h>
#include <string.h>
#include <unistd.h>
#include "host.h"
#include "say.h"
#include "terminal.h"

const char *storage_begin(struct host *h)
{
    const char *why;

    h->has_pool = devices_ask(&h->devices);
    why = h->has_pool ? pool_begin(&h->pool) : NULL;
    for (unsigned i = 0; i < h->devices.count_disks && why == NULL; i++)
        if (h->devices.disks[i].at == NULL) why = pool_add(&h->pool, &h->devices.disks[i]);
    return why;
}

void storage_end(struct host *h)
{
    if (h->has_pool && !pool_end(&h->pool)) fail("ended by its operator, while a disk does not answer");
}

int storage_bell(const struct host *h)
{
    return h->has_pool ? h->pool.bell : -1;
}

/* What a call that failed wanted, for the operator. */
static const char *name_of(const vmig_call *call)
{
    switch (call->what) {
    case VMIG_DISK_READ: return "read";
    case VMIG_DISK_WRITE: return "write";
    case VMIG_DISK_CLEAR: return "clear";
    default: return "sync";
    }
}

/* A disk failed, and --disk-errors says that the guest stops. The operator may mend the storage, and have it tried
 * again. A sync that failed is for good, and there is nothing to try. */
static int is_tried_again(struct host *h, const struct slot *s)
{
    int is_meant;

    if (!h->options.stops_on_error || s->disk->is_lost) return 0;
    leave_library(h);
    stop_clock(h);
    is_meant = ask_operator("the guest stops: SIGUSR2 or Ctrl-A c tries it again; else end this program");
    start_clock(h);
    enter_library(h);
    return is_meant;
}

/* The guest reads an error. */
static void let_fail(struct host *h, struct slot *s)
{
    must(vmig_disk_failed(&h->machine, s->call.number), "vmig_disk_failed");
    pool_release(&h->pool, s);
}

/* It is said once of each disk. */
static void answer_failed(struct host *h, struct slot *s)
{
    if (!s->disk->is_told || h->options.stops_on_error)
        say("%s: %s of %u sectors at %llu failed: %s", s->disk->name, name_of(&s->call), s->call.count,
            (unsigned long long)s->call.first, strerror(s->error));
    s->disk->is_told = 1;
    if (is_tried_again(h, s)) pool_submit(&h->pool, s);
    else let_fail(h, s);
}

/* The bytes of a read go into RAM, which is taken back for them, and for no other answer. */
static void answer_done(struct host *h, struct slot *s)
{
    int is_read = s->call.what == VMIG_DISK_READ;
    uint32_t count = s->call.what == VMIG_DISK_FLUSH ? 0 : s->count;

    if (is_read) take_ram(h);
    must(vmig_disk_done(&h->machine, s->call.number, count, is_read ? s->bytes : NULL,
                        is_read ? (size_t)count * SECTOR : 0),
         "vmig_disk_done");
    h->statistics.calls++;
    pool_release(&h->pool, s);
}

/* A sync that fails is of a thread of the pool. From here on nothing of this disk is reported durable, also what came
 * before it and was not reported. */
void storage_tell_lost(struct host *h)
{
    uint32_t lost = devices_lost(&h->devices);
    vmig_description found;

    if (lost == 0) return;
    vmig_describe(&h->machine, &found);
    lost &= ~found.lost;
    for (unsigned dev = 0; lost >> dev != 0; dev++)
        if (lost >> dev & 1) must(vmig_sync_failed(&h->machine, (uint8_t)dev), "vmig_sync_failed");
}

static void answer(struct host *h, struct slot *s)
{
    storage_tell_lost(h);
    if (s->error != 0) answer_failed(h, s);
    else answer_done(h, s);
}

int storage_answer(struct host *h)
{
    uint64_t rings;
    struct slot *s;
    int answered = 0;

    if (!h->has_pool) return 0;
    if (read(h->pool.bell, &rings, sizeof rings) < 0 && errno != EAGAIN) fail("the pool has no bell");
    while ((s = pool_done(&h->pool, NULL)) != NULL) {
        answer(h, s);
        answered = 1;
    }
    return answered;
}

void storage_ask(struct host *h)
{
    struct slot *s;

    if (!h->has_pool) return;
    take_ram(h);
    while ((s = pool_free(&h->pool)) != NULL) {
        vmig_status status = vmig_disk_call(&h->machine, &s->call, s->bytes, SLOT_BYTES);

        if (status == VMIG_IDLE) return;
        if (status != VMIG_CALL) fail("vmig_disk_call: %s", vmig_status_name(status));
        s->disk = devices_disk(&h->devices, s->call.dev);
        pool_submit(&h->pool, s);
    }
}

/* How many calls are out. */
static uint32_t count_out(struct host *h)
{
    vmig_description found;

    vmig_describe(&h->machine, &found);
    return found.calls_out;
}

/* Waits a moment for a call of this disk, or of any where it is NULL. */
static void await(struct host *h, const struct disk *disk)
{
    leave_library(h);
    pool_wait(&h->pool, disk);
    enter_library(h);
}

int storage_waits(struct host *h)
{
    if (count_out(h) == 0) return 0;
    if (storage_answer(h)) {
        h->steps_wait = 1;
        return 1;
    }
    await(h, NULL);
    return 1;
}

int storage_drain(struct host *h)
{
    while (storage_waits(h))
        if (operator_words.ends) return 0;
    return 1;
}

int storage_drop(struct host *h, uint8_t dev)
{
    struct disk *disk = devices_disk(&h->devices, dev);
    struct slot *s = pool_done(&h->pool, disk);

    if (s == NULL) await(h, disk);
    else if (s->call.what == VMIG_DISK_READ && s->error == 0) let_fail(h, s);
    else answer(h, s);
    return !operator_words.ends;
}
