/* A virtqueue of the small guest, split or packed (VIRTIO 1.2, 2.7 and 2.8). One chain is outstanding at a time. */
#ifndef QUEUE_H
#define QUEUE_H

#include <stdint.h>

enum { ENTRIES = 8, HAS_NEXT = 1, WRITABLE = 2, PACKED_AVAILABLE = 1 << 7, PACKED_USED = 1 << 15 };

/* A buffer of a chain. */
struct part {
    const volatile void *at;
    uint32_t length, flags;
};

/* An initializer with an address would have to know where the guest lies. */
static inline struct part part_of(const volatile void *at, uint32_t length, uint32_t flags)
{
    struct part part;

    part.at = at;
    part.length = length;
    part.flags = flags;
    return part;
}

struct split_descriptor {
    uint64_t at;
    uint32_t length;
    uint16_t flags, next;
};

struct packed_descriptor {
    uint64_t at;
    uint32_t length;
    uint16_t id, flags;
};

struct available_ring {
    uint16_t flags, index, ring[ENTRIES];
};

struct used_ring {
    uint16_t flags, index;
    struct {
        uint32_t id, length;
    } ring[ENTRIES];
};

struct queue {
    union {
        volatile struct split_descriptor split[ENTRIES];
        volatile struct packed_descriptor packed[ENTRIES];
    } table __attribute__((aligned(16)));
    volatile struct available_ring available __attribute__((aligned(16)));
    volatile struct used_ring used __attribute__((aligned(16)));
    uint32_t number, is_packed, is_out;  /* is_out: a chain is outstanding */
    uint32_t count;                      /* split: the chains so far */
    uint32_t next, wrap, parts; /* packed: where the next chain goes, the wrap counter, and the parts of the last one */
};

/* The instruction that orders accesses to memory. */
#ifndef ORDER
#define ORDER "fence"
#endif

static inline void order(void)
{
    __asm__ volatile(ORDER ::: "memory");
}

static inline void queue_clear(struct queue *q, uint32_t number, uint32_t is_packed)
{
    volatile uint8_t *bytes = (volatile uint8_t *)q;

    for (uint32_t i = 0; i < sizeof *q; i++) bytes[i] = 0;
    q->number = number;
    q->is_packed = is_packed;
    q->wrap = 1;
}

static inline void offer_split(struct queue *q, const struct part *parts, uint32_t count)
{
    for (uint32_t i = 0; i < count; i++) {
        q->table.split[i].at = (uint64_t)parts[i].at;
        q->table.split[i].length = parts[i].length;
        q->table.split[i].flags = (uint16_t)(parts[i].flags | (i + 1 < count ? HAS_NEXT : 0));
        q->table.split[i].next = (uint16_t)(i + 1);
    }
    q->available.ring[q->count % ENTRIES] = 0;
    order();
    q->available.index = (uint16_t)++q->count;
}

/* The first descriptor becomes available last, and the whole chain with it. */
static inline void offer_packed(struct queue *q, const struct part *parts, uint32_t count)
{
    uint32_t first = q->next;
    uint16_t first_flags = 0;

    for (uint32_t i = 0; i < count; i++) {
        volatile struct packed_descriptor *d = &q->table.packed[q->next];
        uint32_t flags = parts[i].flags | (i + 1 < count ? HAS_NEXT : 0) | (q->wrap ? PACKED_AVAILABLE : PACKED_USED);

        d->at = (uint64_t)parts[i].at;
        d->length = parts[i].length;
        d->id = 0;
        if (i == 0) first_flags = (uint16_t)flags;
        else d->flags = (uint16_t)flags;
        q->next = (q->next + 1) % ENTRIES;
        if (q->next == 0) q->wrap = !q->wrap;
    }
    q->parts = count;
    order();
    q->table.packed[first].flags = first_flags;
}

static inline void queue_offer(struct queue *q, const struct part *parts, uint32_t count)
{
    if (q->is_packed) offer_packed(q, parts, count);
    else offer_split(q, parts, count);
    q->is_out = 1;
    order();
}

/* Whether the chain came back, and how many bytes the device wrote. */
static inline int queue_take(struct queue *q, uint32_t *length)
{
    if (!q->is_out) return 0;
    if (q->is_packed) {
        uint32_t first = (q->next + ENTRIES - q->parts) % ENTRIES,
                 wrap = first + q->parts >= ENTRIES ? !q->wrap : q->wrap;
        uint16_t flags = q->table.packed[first].flags;

        if (((flags & PACKED_AVAILABLE) != 0) != wrap || ((flags & PACKED_USED) != 0) != wrap) return 0;
        order();
        *length = q->table.packed[first].length;
    } else {
        if (q->used.index != (uint16_t)q->count) return 0;
        order();
        *length = q->used.ring[(q->count - 1) % ENTRIES].length;
    }
    q->is_out = 0;
    return 1;
}

#endif
