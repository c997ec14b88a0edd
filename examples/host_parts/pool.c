#define _DEFAULT_SOURCE
#include <errno.h>
#include <stdlib.h>
#include <sys/eventfd.h>
#include <time.h>
#include <unistd.h>
#include "clock.h"
#include "pool.h"
#include "say.h"
#include "terminal.h"

/* Who waits looks this often whether the operator ends the program; and how long threads have then to end. */
enum { WAIT_MS = 20, END_MS = 500 };

/* Does what the call asks for. Returns how many sectors were done, or 0 and why in errno; of a flush 1. What has to
 * be durable is so before it counts. */
static uint32_t do_call(struct slot *s)
{
    const vmig_call *c = &s->call;
    uint32_t done;

    switch (c->what) {
    case VMIG_DISK_READ: return disk_read(s->disk, c->first, c->count, s->bytes);
    case VMIG_DISK_WRITE: done = disk_write(s->disk, c->first, c->count, s->bytes); break;
    case VMIG_DISK_CLEAR: done = disk_clear(s->disk, c->first, c->count); break;
    default: return disk_bring(s->disk) ? 1 : 0;
    }
    return done > 0 && c->durable && !disk_bring(s->disk) ? 0 : done;
}

/* The slot of this disk, or of any where it is NULL, that came to this state first, so that none waits for ever; or
 * NULL. */
static struct slot *find(struct pool *p, enum slot_state state, const struct disk *disk)
{
    struct slot *found = NULL;

    for (unsigned i = 0; i < p->count_slots; i++) {
        struct slot *s = &p->slots[i];

        if (s->state == state && (disk == NULL || s->disk == disk) && (found == NULL || s->turn < found->turn))
            found = s;
    }
    return found;
}

static void move_to(struct pool *p, struct slot *s, enum slot_state state)
{
    s->state = state;
    s->turn = p->turns++;
}

static void tell_done(struct pool *p, struct slot *s)
{
    uint64_t one = 1;

    move_to(p, s, SLOT_DONE);
    pthread_cond_signal(&p->has_done);
    if (write(p->bell, &one, sizeof one) != sizeof one) fail("the pool has no bell");
}

/* The calls of its disk. */
static void *work(void *of)
{
    struct worker *w = of;
    struct pool *p = w->pool;
    struct slot *s;

    pthread_mutex_lock(&p->lock);
    for (;;) {
        uint64_t began;

        while ((s = find(p, SLOT_WAITS, w->disk)) == NULL && !p->stops) pthread_cond_wait(&p->has_work, &p->lock);
        if (s == NULL) break;
        move_to(p, s, SLOT_WORKS);
        pthread_mutex_unlock(&p->lock);
        began = clock_nanoseconds();
        s->count = do_call(s);
        s->error = s->count > 0 ? 0 : errno;
        pthread_mutex_lock(&p->lock);
        p->nanoseconds += clock_nanoseconds() - began;
        tell_done(p, s);
    }
    p->ended++;
    pthread_cond_signal(&p->has_done);
    pthread_mutex_unlock(&p->lock);
    return NULL;
}

const char *pool_begin(struct pool *p)
{
    *p = (struct pool){
        .lock = PTHREAD_MUTEX_INITIALIZER, .has_work = PTHREAD_COND_INITIALIZER, .has_done = PTHREAD_COND_INITIALIZER};
    p->bell = eventfd(0, EFD_CLOEXEC | EFD_NONBLOCK);
    return p->bell < 0 ? "there is no bell for the requests of disks" : NULL;
}

/* With the lock. */
static int add_slots(struct pool *p)
{
    for (unsigned i = 0; i < SLOTS_A_DISK; i++) {
        uint8_t *bytes = malloc(SLOT_BYTES);

        if (bytes == NULL) return 0;
        p->slots[p->count_slots++].bytes = bytes;
    }
    return 1;
}

const char *pool_add(struct pool *p, const struct disk *disk)
{
    unsigned begun = 0;
    int has_slots;

    pthread_mutex_lock(&p->lock);
    has_slots = add_slots(p);
    pthread_mutex_unlock(&p->lock);
    if (!has_slots) return "there is no memory for the requests of a disk";
    for (; begun < WORKERS_A_DISK; begun++, p->count++) {
        struct worker *w = &p->workers[p->count];

        *w = (struct worker){.pool = p, .disk = disk};
        if (!begin_thread(&w->thread, work, w)) break;
    }
    return begun == 0 ? "there is no thread for the requests of a disk" : NULL;
}

/* Waits for a moment, with the lock. */
static void wait_a_moment(struct pool *p)
{
    struct timespec until;

    clock_gettime(CLOCK_REALTIME, &until);
    until.tv_nsec += WAIT_MS * 1000000L;
    if (until.tv_nsec >= 1000000000L) {
        until.tv_sec++;
        until.tv_nsec -= 1000000000L;
    }
    pthread_cond_timedwait(&p->has_done, &p->lock, &until);
}

/* Whether all threads have ended. */
static int await_threads(struct pool *p)
{
    uint64_t until = 0;
    int have_ended;

    pthread_mutex_lock(&p->lock);
    p->stops = 1;
    pthread_cond_broadcast(&p->has_work);
    while (p->ended < p->count && (until == 0 || clock_nanoseconds() < until)) {
        wait_a_moment(p);
        if (until == 0 && operator_words.ends) until = clock_nanoseconds() + END_MS * UINT64_C(1000000);
    }
    have_ended = p->ended == p->count;
    pthread_mutex_unlock(&p->lock);
    return have_ended;
}

int pool_end(struct pool *p)
{
    if (!await_threads(p)) return 0;
    for (unsigned i = 0; i < p->count; i++) pthread_join(p->workers[i].thread, NULL);
    for (unsigned i = 0; i < p->count_slots; i++) free(p->slots[i].bytes);
    close(p->bell);
    return 1;
}

static struct slot *find_locked(struct pool *p, enum slot_state state, const struct disk *disk)
{
    struct slot *found;

    pthread_mutex_lock(&p->lock);
    found = find(p, state, disk);
    pthread_mutex_unlock(&p->lock);
    return found;
}

struct slot *pool_free(struct pool *p)
{
    return find_locked(p, SLOT_FREE, NULL);
}

struct slot *pool_done(struct pool *p, const struct disk *disk)
{
    return find_locked(p, SLOT_DONE, disk);
}

static void set_state(struct pool *p, struct slot *s, enum slot_state state)
{
    pthread_mutex_lock(&p->lock);
    move_to(p, s, state);
    /* All: the one that is woken has to be of this disk. */
    if (state == SLOT_WAITS) pthread_cond_broadcast(&p->has_work);
    pthread_mutex_unlock(&p->lock);
}

void pool_submit(struct pool *p, struct slot *s)
{
    set_state(p, s, SLOT_WAITS);
}

void pool_release(struct pool *p, struct slot *s)
{
    set_state(p, s, SLOT_FREE);
}

void pool_wait(struct pool *p, const struct disk *disk)
{
    pthread_mutex_lock(&p->lock);
    if (find(p, SLOT_DONE, disk) == NULL) wait_a_moment(p);
    pthread_mutex_unlock(&p->lock);
}
