/* Memory as the guest addresses it: pages by Sv39, a cache of those that were found, and the log of those that were
 * written. */
#ifndef MEMORY_H
#define MEMORY_H

#include <string.h>
#include "processor.h"

#if defined __BYTE_ORDER__ && __BYTE_ORDER__ != __ORDER_LITTLE_ENDIAN__
#error "The guest's numbers have their lowest byte first, and here so must the host's."
#endif

/* RAM of the guest is at `ram`. Returns whether there was memory for the log. */
int memory_begin(struct memory *m, uint8_t *ram, uint64_t length);
void memory_end(struct memory *m);

/* No page counts as found any more. */
void memory_forget(struct memory *m);

/* Notes in the log what was written here. */
void memory_note(struct memory *m, uint64_t offset, uint64_t length);

/* Empties the log. What is written from now on is noted anew. */
void memory_empty_log(struct memory *m);

/* The page of a virtual address, and where the address is in it. NULL where that is no RAM of the guest's: it had an
 * exception, or *device is the physical address of an access of `width` bytes to a device. */
uint8_t *memory_find(struct processor *p, uint64_t address, enum access access, unsigned width, uint64_t *device);

/* Loads and stores that are not within one page that was found. False where the guest had an exception or came out. */
int memory_load_slowly(struct processor *p, uint64_t address, unsigned width, uint64_t *value);
int memory_store_slowly(struct processor *p, uint64_t address, unsigned width, uint64_t value);

/* Where the bytes of an address are, if its page was found and has them all. */
static inline uint8_t *find_quickly(struct processor *p, uint64_t address, enum access access, unsigned width)
{
    struct found_page *page = &p->memory.here[access][address / PAGE % FOUND_PAGES];

    if (page->tag != (address / PAGE | p->memory.generation)) return NULL;
    return address % PAGE <= PAGE - width ? page->at + address % PAGE : NULL;
}

static inline uint64_t get_number(const uint8_t *at, unsigned width)
{
    uint16_t half;
    uint32_t word;
    uint64_t value = *at;

    switch (width) {
    case 2: memcpy(&half, at, 2); return half;
    case 4: memcpy(&word, at, 4); return word;
    case 8: memcpy(&value, at, 8); return value;
    default: return value;
    }
}

static inline void put_number(uint8_t *at, unsigned width, uint64_t value)
{
    switch (width) {
    case 1: memcpy(at, &value, 1); return;
    case 2: memcpy(at, &value, 2); return;
    case 4: memcpy(at, &value, 4); return;
    default: memcpy(at, &value, 8); return;
    }
}

static inline int load(struct processor *p, uint64_t address, unsigned width, uint64_t *value)
{
    const uint8_t *at = find_quickly(p, address, READ, width);

    if (at == NULL) return memory_load_slowly(p, address, width, value);
    *value = get_number(at, width);
    return 1;
}

static inline int store(struct processor *p, uint64_t address, unsigned width, uint64_t value)
{
    uint8_t *at = find_quickly(p, address, WRITE, width);

    if (at == NULL) return memory_store_slowly(p, address, width, value);
    put_number(at, width, value);
    return 1;
}

#endif
