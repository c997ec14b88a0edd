/* Memory management: the page table (Sv39), exceptions of accesses, and the log of the pages that the guest wrote. */
#include <stdlib.h>
#include "memory.h"

/* An entry of a page table. */
enum { VALID = 1, READABLE = 2, WRITABLE = 4, EXECUTABLE = 8, FOR_USER = 16, ACCESSED = 64, DIRTY = 128 };
#define ENTRY_TABLE UINT64_C(0x003ffffffffffc00)
#define ENTRY_RESERVED UINT64_C(0xffc0000000000000)

/* The generation counts in the twelve bits of a tag above the number of a page. */
#define GENERATION (UINT64_C(1) << 52)

int memory_begin(struct memory *m, uint8_t *ram, uint64_t length)
{
    m->ram = ram;
    m->length = length;
    m->is_written = calloc(length / PAGE, 1);
    m->written = calloc(length / PAGE, sizeof *m->written);
    memory_forget(m);
    return m->is_written != NULL && m->written != NULL;
}

void memory_end(struct memory *m)
{
    free(m->is_written);
    free(m->written);
}

void memory_forget(struct memory *m)
{
    m->generation += GENERATION;
    if (m->generation != 0) return;
    memset(m->found, 0, sizeof m->found);
    m->generation = GENERATION;
}

static void note_written(struct memory *m, uint64_t offset)
{
    uint32_t page = (uint32_t)(offset / PAGE);

    if (m->is_written[page]) return;
    m->is_written[page] = 1;
    m->written[m->count_written++] = page;
}

void memory_note(struct memory *m, uint64_t offset, uint64_t length)
{
    for (uint64_t at = offset / PAGE * PAGE; at < offset + length; at += PAGE) note_written(m, at);
}

void memory_empty_log(struct memory *m)
{
    while (m->count_written > 0) m->is_written[m->written[--m->count_written]] = 0;
    memory_forget(m);
}

/* Whether the leaf `entry` allows the access, in this mode and with these bits of sstatus. */
static int allows(const struct processor *p, uint64_t entry, enum access access)
{
    int is_user = (entry & FOR_USER) != 0;

    if (p->mode == USER && !is_user) return 0;
    if (p->mode == SUPERVISOR && is_user && (access == FETCH || !(p->sstatus & STATUS_SUM))) return 0;
    if (access == FETCH) return (entry & EXECUTABLE) != 0;
    if (access == WRITE) return (entry & WRITABLE) != 0;
    return (entry & READABLE) != 0 || ((p->sstatus & STATUS_MXR) && (entry & EXECUTABLE));
}

/* Notes in the page table that the page was used, which writes RAM as the guest does. */
static void note_use(struct memory *m, uint64_t offset, uint64_t entry, enum access access)
{
    uint64_t used = entry | ACCESSED | (access == WRITE ? DIRTY : 0);

    if (used == entry) return;
    put_number(m->ram + offset, 8, used);
    note_written(m, offset);
}

static enum cause page_fault(enum access access)
{
    return access == FETCH ? FETCH_PAGE : access == READ ? READ_PAGE : WRITE_PAGE;
}

static enum cause access_fault(enum access access)
{
    return access == FETCH ? FETCH_ACCESS : access == READ ? READ_ACCESS : WRITE_ACCESS;
}

/* Reads the page table (Sv39). Returns 0 and the physical address, or the exception that the access has. */
static int walk(struct processor *p, uint64_t address, enum access access, uint64_t *physical)
{
    struct memory *m = &p->memory;
    uint64_t table = (p->satp & SATP_TABLE) * PAGE;

    if (sign_extend(address, 39) != address) return (int)page_fault(access);
    for (int level = 2; level >= 0; level--) {
        unsigned shift = 12 + 9 * (unsigned)level;
        uint64_t offset = table + (address >> shift) % 512 * 8 - RAM_BASE, entry, low = (UINT64_C(1) << shift) - 1;

        if (offset >= m->length) return (int)access_fault(access);
        entry = get_number(m->ram + offset, 8);
        if (!(entry & VALID) || (entry & (READABLE | WRITABLE)) == WRITABLE || (entry & ENTRY_RESERVED)) break;
        table = (entry & ENTRY_TABLE) << 2;
        if (!(entry & (READABLE | EXECUTABLE))) continue;
        if (!allows(p, entry, access) || (table & low) != 0) break;
        note_use(m, offset, entry, access);
        *physical = table | (address & low);
        return 0;
    }
    return (int)page_fault(access);
}

uint8_t *memory_find(struct processor *p, uint64_t address, enum access access, unsigned width, uint64_t *device)
{
    struct memory *m = &p->memory;
    struct found_page *page = &m->here[access][address / PAGE % FOUND_PAGES];
    uint64_t physical = address, offset;
    int cause = p->satp == 0 ? 0 : walk(p, address, access, &physical);

    *device = UINT64_MAX;
    offset = physical - RAM_BASE;
    if (cause == 0 && offset >= m->length) {
        *device = physical;
        if (access != FETCH && is_device(physical, width)) return NULL;
        cause = (int)access_fault(access);
        *device = UINT64_MAX;
    }
    if (cause != 0) {
        trap(p, (enum cause)cause, address);
        return NULL;
    }
    if (access == WRITE) note_written(m, offset);
    page->tag = address / PAGE | m->generation;
    page->at = m->ram + offset / PAGE * PAGE;
    return m->ram + offset;
}

/* The guest comes out for an access to a device. */
static int leave_for(struct processor *p, enum exit_kind kind, uint64_t device, unsigned width, uint64_t value)
{
    if (device == UINT64_MAX) return 0;
    p->exit.address = device;
    p->exit.width = (uint8_t)width;
    p->exit.value = value;
    processor_leave(p, kind);
    return 0;
}

int memory_load_slowly(struct processor *p, uint64_t address, unsigned width, uint64_t *value)
{
    uint64_t device, sum = 0;
    unsigned step = address % PAGE <= PAGE - width ? width : 1;

    for (unsigned i = 0; i < width; i += step) {
        const uint8_t *at = memory_find(p, address + i, READ, step, &device);

        if (at == NULL && step < width && device != UINT64_MAX) trap(p, READ_ACCESS, address + i);
        if (at == NULL) return step < width ? 0 : leave_for(p, EXIT_READ, device, width, 0);
        sum |= get_number(at, step) << (8 * i);
    }
    *value = sum;
    return 1;
}

int memory_store_slowly(struct processor *p, uint64_t address, unsigned width, uint64_t value)
{
    uint8_t *at[8];
    uint64_t device;
    unsigned step = address % PAGE <= PAGE - width ? width : 1;

    /* Each byte is found before the first is written: an exception leaves memory as it was. */
    for (unsigned i = 0; i < width; i += step) {
        at[i] = memory_find(p, address + i, WRITE, step, &device);
        if (at[i] == NULL && step < width && device != UINT64_MAX) trap(p, WRITE_ACCESS, address + i);
        if (at[i] == NULL) return step < width ? 0 : leave_for(p, EXIT_WRITE, device, width, value);
    }
    for (unsigned i = 0; i < width; i += step) put_number(at[i], step, value >> (8 * i));
    return 1;
}
