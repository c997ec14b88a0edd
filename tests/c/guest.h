/* A guest that writes into RAM that is lent to it, and the log of the pages that it wrote, as a hypervisor keeps one.
 * It does so within calls of its host, or on a thread of its own, while the host copies. Each store is an atomic one:
 * whoever copies meanwhile gets old bytes or new ones; where a word or a page takes several stores, some of both.
 *     A page is logged after its stores. A host that forgets it before one of them hears of it again; one that forgets
 * it after all of them copies what they wrote. Were it logged before its stores it might be forgotten between the two,
 * and copied without them. The log of a processor has no such gap: a page that is forgotten there is written only once
 * it is logged anew. */
#ifndef GUEST_H
#define GUEST_H

#include <pthread.h>
#include <sched.h>
#include <stdatomic.h>
#include <stdint.h>

/* It reads what the guest writes meanwhile, and its loads are no atomics of C: the thread sanitizer passes it by. */
__attribute__((no_sanitize_thread)) static inline void vmig_copy_page(const void *page, uint8_t bytes[4096]);

#include "driver.h"

/* RAM, of which the pages from HEAP on are the guest's own. */
enum { PAGES = 48, PAGE = 4096, RAM = PAGES * PAGE, HEAP = 16 };

typedef uint64_t guest_word __attribute__((may_alias));
typedef uint32_t guest_half __attribute__((may_alias));
enum { WORD = sizeof(guest_word), WORDS = PAGE / WORD };

static _Alignas(PAGE) uint8_t room[RAM];
static _Atomic uint8_t logged[PAGES];

/* What the host tells the guest: to rest, or to run, which is to write at random; and to write a word of a page, or the
 * first half of the page, and then the second, after which the page is logged. */
enum { REST, RUN, A_WORD, FIRST_HALF, SECOND_HALF };

/* Of the guest's: whoever is the guest reads and writes these. */
static uint32_t guest_state = 88172645;
static int guest_runs;

/* The page that the host copies, which the guest likes to write; whether the guest is a thread; what it was told last,
 * with a number, and what it did last of that. */
static _Atomic uint32_t busy = PAGES;
static int has_thread;
static pthread_t guest_thread;
static _Atomic uint64_t told, done;

/* A number below this one, at random. Who draws has a state of its own. */
static uint32_t draw_by(uint32_t *state, uint32_t below)
{
    *state ^= *state << 13;
    *state ^= *state >> 17;
    *state ^= *state << 5;
    return *state % below;
}

/* Each of these words of a page becomes another one, upwards. */
static void change_words(uint32_t page, uint32_t first, uint32_t end)
{
    guest_word *words = (guest_word *)(room + page * PAGE);

    for (uint32_t i = first; i < end; i++)
        __atomic_store_n(&words[i], words[i] + 1 + draw_by(&guest_state, 1 << 30), __ATOMIC_RELAXED);
}

/* A word of a page becomes another one, by two stores. */
static void change_halves(uint32_t page)
{
    guest_half *half = (guest_half *)(room + page * PAGE + WORD * draw_by(&guest_state, WORDS));

    for (int i = 0; i < 2; i++)
        __atomic_store_n(&half[i], half[i] + 1 + draw_by(&guest_state, 1 << 30), __ATOMIC_RELAXED);
}

/* Some bytes, often across the middle of the page. */
static void write_bytes(uint32_t page)
{
    uint32_t at = draw_by(&guest_state, 3) == 0 ? PAGE / 2 - 8 : draw_by(&guest_state, PAGE - 16);
    uint32_t count = 1 + draw_by(&guest_state, 16);

    for (uint32_t i = 0; i < count; i++)
        __atomic_store_n(&room[page * PAGE + at + i], (uint8_t)draw_by(&guest_state, 256), __ATOMIC_RELAXED);
}

/* A page of the guest's own, and often the one that is copied. */
static uint32_t any_page(void)
{
    uint32_t near = atomic_load(&busy), page = HEAP + draw_by(&guest_state, PAGES - HEAP);

    return draw_by(&guest_state, 2) == 0 && near >= HEAP && near < PAGES ? near : page;
}

/* Writes pages at random. */
static void write_some(void)
{
    for (uint32_t writes = draw_by(&guest_state, 3); writes > 0; writes--) {
        uint32_t page = any_page(), kind = draw_by(&guest_state, 8);
        if (kind == 0) change_words(page, 0, WORDS);
        else if (kind == 1) change_halves(page);
        else write_bytes(page);
        atomic_store(&logged[page], 1);
    }
}

/* The guest does what it was told. */
static void follow(uint32_t what, uint32_t page)
{
    uint32_t word = draw_by(&guest_state, WORDS);

    if (what == REST || what == RUN) guest_runs = what == RUN;
    if (what == A_WORD) change_words(page, word, word + 1);
    if (what == FIRST_HALF) change_words(page, 0, WORDS / 2);
    if (what == SECOND_HALF) change_words(page, WORDS / 2, WORDS);
    if (what == A_WORD || what == SECOND_HALF) atomic_store(&logged[page], 1);
}

/* Tells the guest, and waits until it has done so. */
static void tell_guest(uint32_t what, uint32_t page)
{
    uint64_t order = ((atomic_load(&told) >> 32) + 1) << 32 | page << 8 | what;

    if (!has_thread) {
        follow(what, page);
        return;
    }
    atomic_store(&told, order);
    while (atomic_load(&done) != order) sched_yield();
}

/* A guest without a thread writes here, if it runs. */
static void let_guest_write(void)
{
    if (!has_thread && guest_runs) write_some();
}

/* Writes once, and leaves some time for a copy, unless it is told something meanwhile. */
static void write_and_pause(uint64_t last)
{
    write_some();
    for (uint32_t turns = draw_by(&guest_state, 2000); turns > 0 && atomic_load(&told) == last; turns--) continue;
}

/* The guest's thread. It has no end of its own, and rests when the program ends. */
static void *live(void *unused)
{
    for (uint64_t last = 0;;) {
        uint64_t order = atomic_load(&told);
        if (order != last) follow((uint32_t)order & 0xff, (uint32_t)order >> 8);
        if (order != last) atomic_store(&done, order);
        last = order;
        if (guest_runs) write_and_pause(last);
        else sched_yield();
    }
    return unused;
}

/* From here on the guest is a thread. */
static void begin_thread(void)
{
    has_thread = 1;
    expect("a thread", (uint64_t)pthread_create(&guest_thread, NULL, live, NULL), 0);
}

#endif
