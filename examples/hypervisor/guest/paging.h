/* The page table of the small guest (Sv39): its first and its third GiB are as they are without one, and a heap is
 * mapped page by page, the last page first. */
#ifndef PAGING_H
#define PAGING_H

#include <stdint.h>

enum { HEAP = 64, PAGE_WORDS = 512, VALID = 1, LEAF = 0xf };

/* The fifth GiB: where the heap is mapped. */
#define HEAP_AT UINT64_C(0x100000000)
#define SV39 (UINT64_C(8) << 60)

static uint64_t tables[3][PAGE_WORDS] __attribute__((aligned(4096)));
static volatile uint64_t heap[HEAP][PAGE_WORDS] __attribute__((aligned(4096)));

/* An entry of a page table. The processor notes in a leaf that it was used. */
static inline uint64_t entry(const volatile void *at, uint64_t flags)
{
    return (uint64_t)at >> 12 << 10 | flags;
}

/* The page that is mapped as the n-th, and where it is in RAM. */
static inline volatile uint64_t *mapped_page(uint32_t n)
{
    return (volatile uint64_t *)(HEAP_AT + n * UINT64_C(4096));
}

static inline volatile uint64_t *heap_page(uint32_t n)
{
    return heap[HEAP - 1 - n];
}

static inline void begin_paging(void)
{
    tables[0][0] = entry((void *)0, LEAF);
    tables[0][2] = entry((void *)(UINT64_C(2) << 30), LEAF);
    tables[0][4] = entry(tables[1], VALID);
    tables[1][0] = entry(tables[2], VALID);
    for (uint32_t n = 0; n < HEAP; n++) tables[2][n] = entry(heap_page(n), LEAF);
    __asm__ volatile("csrw satp, %0\nsfence.vma" : : "r"(SV39 | (uint64_t)tables[0] >> 12) : "memory");
}

#endif
