/* A pool of threads that read, write, clear and sync disks, while the guest runs. It knows no machine. Each disk has
 * threads of its own, and as many slots as calls of it may be out: one whose storage hangs holds no other. */
#ifndef POOL_H
#define POOL_H

#include <pthread.h>
#include <stdint.h>
#include "disk.h"
#include "options.h"
#include "vmig.h"

/* How many calls of a disk are under way at once, as many as the library hands out, and how many bytes one has at
 * most. */
enum { SLOTS_A_DISK = 8, SLOT_BYTES = 262144, WORKERS_A_DISK = 4 };
enum { SLOTS_MAX = SLOTS_A_DISK * DISKS_MAX, WORKERS_MAX = WORKERS_A_DISK * DISKS_MAX };

/* Where a slot is: it is free, waits for a thread, is with one, or is done. */
enum slot_state { SLOT_FREE, SLOT_WAITS, SLOT_WORKS, SLOT_DONE };

/* A call of the library, and what came of it. */
struct slot {
    vmig_call call;
    struct disk *disk;
    uint8_t *bytes;         /* room for SLOT_BYTES: what a write writes, or what a read gave */
    enum slot_state state;
    uint64_t turn;          /* which came to this state first */
    uint32_t count;         /* sectors that were done */
    int error;              /* why none was; 0 where all that was asked for is done, or a part */
};

/* A thread, and the disk whose calls it does. */
struct worker {
    pthread_t thread;
    struct pool *pool;
    const struct disk *disk;
};

struct pool {
    struct worker workers[WORKERS_MAX];
    unsigned count, ended;              /* of threads */
    pthread_mutex_t lock;
    pthread_cond_t has_work, has_done;
    struct slot slots[SLOTS_MAX];
    unsigned count_slots;
    uint64_t turns;
    int bell;                           /* an eventfd: a slot is done */
    int stops;
    uint64_t nanoseconds;               /* in calls of the system, of all threads */
};

/* Begins a pool without disks, and gives it a disk, with its threads. Both return what is wrong, or NULL. */
const char *pool_begin(struct pool *p);
const char *pool_add(struct pool *p, const struct disk *disk);
/* What is under way is done, and they end. Where the operator ends the program they have half a second for it: false
 * where one of them does not end, and the pool and its disks stay as they are. */
int pool_end(struct pool *p);

/* A slot that is free, for any disk: there is one where each disk has fewer calls under way than it may. Or NULL. Only
 * one thread may ask, and submit. */
struct slot *pool_free(struct pool *p);
/* The call of this slot is done by a thread. */
void pool_submit(struct pool *p, struct slot *s);
/* A slot of this disk that is done, or of any where it is NULL; or NULL. It stays so until it is submitted anew, or
 * freed. */
struct slot *pool_done(struct pool *p, const struct disk *disk);
void pool_release(struct pool *p, struct slot *s);

/* Waits until such a slot is done, for some milliseconds at most. */
void pool_wait(struct pool *p, const struct disk *disk);

#endif
