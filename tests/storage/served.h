/* The calls of a guest's disk that are out, with a slot for each: what a host keeps of them over any storage. */
#ifndef SERVED_H
#define SERVED_H

#include "guest.h"

/* Where a call is: none is there; it is out; it waits for a sync; its sync is under way. */
enum { OUT_MAX = 8, NO_CALL = 0, IS_OUT, WAITS_FOR_SYNC, IS_SYNCED };

struct slot {
    vmig_call call;
    uint8_t bytes[MOST * SECTOR];
    int state;
};

/* The program's own: the call of this slot goes to its storage. */
static void submit(struct slot *s);

/* Hands out all calls that there are. */
static inline void hand_out(struct guest *g, struct slot slots[OUT_MAX])
{
    for (uint32_t i = 0; i < OUT_MAX; i++) {
        struct slot *s = &slots[i];

        if (s->state != NO_CALL) continue;
        if (vmig_disk_call(&g->m, &s->call, s->bytes, sizeof s->bytes) != VMIG_CALL) return;
        s->state = IS_OUT;
        submit(s);
    }
}

/* The guest asks for something, its devices have their turn, and it looks at what has ended. Then its disk is asked. */
static inline void turn(struct guest *g, struct slot slots[OUT_MAX])
{
    for (uint32_t i = draw(4); i > 0; i--) offer_something(g);
    serve(&g->m);
    look(g);
    hand_out(g, slots);
}

/* So many sectors of it were done, of a flush 1; or none, and it failed. */
static inline void answer(struct guest *g, struct slot *s, uint32_t count)
{
    int is_read = s->call.what == VMIG_DISK_READ, is_done = count > 0;

    s->state = NO_CALL;
    if (s->call.what == VMIG_DISK_FLUSH) count = 0;
    if (!is_done) expect("failed", vmig_disk_failed(&g->m, s->call.number), VMIG_OK);
    else expect("done", vmig_disk_done(&g->m, s->call.number, count, is_read ? s->bytes : NULL, is_read ? (size_t)count * SECTOR : 0), VMIG_OK);
}

static inline int is_any_out(const struct slot slots[OUT_MAX])
{
    for (uint32_t i = 0; i < OUT_MAX; i++)
        if (slots[i].state != NO_CALL) return 1;
    return 0;
}

#endif
