/* io_uring by its calls of the system: entries go out, and completions come back in any order. */
#ifndef RING_H
#define RING_H

#include <linux/io_uring.h>
#include <stdatomic.h>
#include <stdint.h>
#include <string.h>
#include <sys/mman.h>
#include <sys/syscall.h>
#include <unistd.h>

enum { ENTRIES = 32 };

struct ring {
    int fd;
    _Atomic unsigned *sent_tail, *done_head, *done_tail;
    unsigned *places, sent_mask, done_mask;
    struct io_uring_sqe *entries;
    struct io_uring_cqe *done;
};

/* False where the system has no such calls, or refuses them. */
static inline int ring_begin(struct ring *r)
{
    struct io_uring_params p;
    size_t sent_size, done_size;
    uint8_t *at;

    memset(&p, 0, sizeof p);
    r->fd = (int)syscall(SYS_io_uring_setup, ENTRIES, &p);
    if (r->fd < 0 || !(p.features & IORING_FEAT_SINGLE_MMAP)) return 0;
    sent_size = p.sq_off.array + p.sq_entries * sizeof(unsigned);
    done_size = p.cq_off.cqes + p.cq_entries * sizeof(struct io_uring_cqe);
    at = mmap(NULL, sent_size > done_size ? sent_size : done_size, PROT_READ | PROT_WRITE, MAP_SHARED | MAP_POPULATE, r->fd, IORING_OFF_SQ_RING);
    r->entries = mmap(NULL, p.sq_entries * sizeof(struct io_uring_sqe), PROT_READ | PROT_WRITE, MAP_SHARED | MAP_POPULATE, r->fd, IORING_OFF_SQES);
    if (at == MAP_FAILED || r->entries == MAP_FAILED) return 0;
    r->sent_tail = (_Atomic unsigned *)(at + p.sq_off.tail);
    r->sent_mask = *(unsigned *)(at + p.sq_off.ring_mask);
    r->places = (unsigned *)(at + p.sq_off.array);
    r->done_head = (_Atomic unsigned *)(at + p.cq_off.head);
    r->done_tail = (_Atomic unsigned *)(at + p.cq_off.tail);
    r->done_mask = *(unsigned *)(at + p.cq_off.ring_mask);
    r->done = (struct io_uring_cqe *)(at + p.cq_off.cqes);
    return 1;
}

/* An entry goes out. There are never more than there is room for. */
static inline int ring_send(struct ring *r, const struct io_uring_sqe *entry)
{
    unsigned tail = *r->sent_tail, place = tail & r->sent_mask;

    r->entries[place] = *entry;
    r->places[place] = place;
    *r->sent_tail = tail + 1;
    return syscall(SYS_io_uring_enter, r->fd, 1, 0, 0, NULL, 0) == 1;
}

/* The next completion. Where none has come it waits for one, if that is said. False where there is none. */
static inline int ring_take(struct ring *r, int waits, uint64_t *name, int32_t *outcome)
{
    unsigned head = *r->done_head;

    if (head == *r->done_tail && waits) syscall(SYS_io_uring_enter, r->fd, 0, 1, IORING_ENTER_GETEVENTS, NULL, 0);
    if (head == *r->done_tail) return 0;
    *name = r->done[head & r->done_mask].user_data;
    *outcome = r->done[head & r->done_mask].res;
    *r->done_head = head + 1;
    return 1;
}

#endif
