/* Memory of a host that takes nothing until it is written: mapped privately, without reserve. And how much of it was taken. */
#ifndef MAPPING_H
#define MAPPING_H

#include <inttypes.h>
#include <stdint.h>
#include <stdio.h>
#include <sys/mman.h>
#include <unistd.h>

/* The bytes of a page, and what is told where the system does not say how much was taken. */
enum { PAGE = 4096 };
#define NOT_MEASURED UINT64_MAX

/* len bytes of zeros, whole pages, or NULL where the system gives none. A page that nobody can touch lies before and after them, so
 * that the system lists no other memory together with them. None of it becomes a large page, of which one written byte takes all. */
static inline uint8_t *map_unreserved(size_t len)
{
    uint8_t *at = mmap(NULL, len + 2 * PAGE, PROT_NONE, MAP_PRIVATE | MAP_ANONYMOUS | MAP_NORESERVE, -1, 0);

    if (at == MAP_FAILED) return NULL;
    madvise(at, len + 2 * PAGE, MADV_NOHUGEPAGE);
    if (mprotect(at + PAGE, len, PROT_READ | PROT_WRITE) == 0) return at + PAGE;
    munmap(at, len + 2 * PAGE);
    return NULL;
}

static inline void unmap_unreserved(uint8_t *at, size_t len)
{
    if (at != NULL) munmap(at - PAGE, len + 2 * PAGE);
}

/* How many pages of such memory the system has taken, as it lists them. Pages that were only read are not among them. */
static inline uint64_t listed_pages(const uint8_t *at, size_t len)
{
    uint64_t first, last, kib, found = NOT_MEASURED;
    char line[512];
    FILE *list = fopen("/proc/self/smaps", "r");
    int is_there = 0;

    while (list != NULL && fgets(line, sizeof line, list) != NULL) {
        if (sscanf(line, "%" SCNx64 "-%" SCNx64 " ", &first, &last) == 2)
            is_there = first >= (uintptr_t)at && last <= (uintptr_t)at + len;
        else if (is_there && sscanf(line, "Anonymous: %" SCNu64 " kB", &kib) == 1)
            found = (found == NOT_MEASURED ? 0 : found) + kib * 1024 / PAGE;
    }
    if (list != NULL) fclose(list);
    return found;
}

/* The same, or NOT_MEASURED where the system is seen to count otherwise: a few pages of which all are read, and one is written, are one. */
static inline uint64_t taken_pages(const uint8_t *at, size_t len)
{
    enum { FEW = 16 * PAGE };
    uint8_t *few = map_unreserved(FEW);
    uint64_t read = NOT_MEASURED, written = NOT_MEASURED;
    volatile uint8_t byte = 0;

    if (few == NULL) return NOT_MEASURED;
    for (size_t i = 0; i < FEW; i += PAGE) byte = few[i];
    read = listed_pages(few, FEW);
    few[FEW / 2] = (uint8_t)(byte + 1);
    written = listed_pages(few, FEW);
    unmap_unreserved(few, FEW);
    return read == 0 && written == 1 ? listed_pages(at, len) : NOT_MEASURED;
}

/* How many pages of all its memory this process has, or NOT_MEASURED. */
static inline uint64_t resident_pages(void)
{
    FILE *list = fopen("/proc/self/statm", "r");
    uint64_t resident = NOT_MEASURED;

    if (list != NULL && fscanf(list, "%*u %" SCNu64, &resident) != 1) resident = NOT_MEASURED;
    if (list != NULL) fclose(list);
    return resident;
}

/* Whether pages that are read, and never written, take memory, as in some sandboxes, or the system does not say so: seen of some MiB, by more
 * than a process may have come by otherwise. */
static inline int takes_by_reading(void)
{
    enum { PAGES_READ = 4096 };
    size_t len = (size_t)PAGES_READ * PAGE;
    volatile uint8_t *some = map_unreserved(len);
    uint64_t before = resident_pages(), after;

    if (some == NULL || before == NOT_MEASURED) return 1;
    for (size_t i = 0; i < len; i += PAGE) (void)some[i];
    after = resident_pages();
    unmap_unreserved((uint8_t *)some, len);
    return after - before > PAGES_READ / 2 && after > before;
}

#endif
