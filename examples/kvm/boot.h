/* What a guest boots from. */
#ifndef BOOT_H
#define BOOT_H

#include <stdio.h>
#include "board.h"
#include "kvm.h"

/* Where things lie in the first 640 KiB of RAM while a kernel begins. The page tables are six pages. */
enum { GDT = 0x500, ZERO_PAGE = 0x5000, START_INFO = 0x6000, MEMORY_MAP = 0x7000, MODULES = 0x7100 };
enum { PAGE_TABLES = 0x9000, ARGUMENTS = 0x20000, ARGUMENTS_MAX = 2048, HIGH = 0x100000 };

/* The table of processors lies in the last KiB below 640 KiB, where a kernel without ACPI looks for it. Usable
 * memory ends before it. */
enum { TABLE_AT = 0x9fc00 };
void table_write(uint8_t *ram);

/* The tables of ACPI lie where a PC's firmware is. Returns where the first one is: the RSDP. */
enum { ACPI_AT = 0xe0000, ACPI_END = HIGH };
uint64_t acpi_write(uint8_t *ram, unsigned devices);

/* The map of memory, which each way to boot spells in its own way. */
enum { USABLE = 1, RESERVED = 2, PIECES = 3 };
struct piece {
    uint64_t at, size;
    uint32_t type;
};
void memory_map(const struct kvm *k, struct piece map[PIECES]);

/* A file of which parts go into RAM. `image_place` is where bytes of it go, which have to fit. */
struct image {
    const char *name;
    FILE *file;
    uint64_t length;
};
void image_open(struct image *image, const char *name);
void image_close(struct image *image);
void image_read(const struct image *image, uint64_t offset, void *to, uint64_t size);
uint8_t *image_place(const struct image *image, struct kvm *k, uint64_t at, uint64_t size);

/* A kernel in RAM, and what it is told. From `from` to `to` lies what it takes before it reads the map: of a bzImage
 * also what it decompresses itself into. */
struct boot {
    uint64_t entry, from, to;
    uint64_t initrd_below, initrd_at, initrd_size;  /* the size is 0 where there is none */
    uint64_t rsdp_at;
};

/* An ELF file with an entry for PVH; and a bzImage, false where it is none. */
void pvh_load(struct kvm *k, const struct image *image, struct boot *b);
void pvh_begin(struct kvm *k, const struct boot *b);
int bzimage_load(struct kvm *k, const struct image *image, struct boot *b);
void bzimage_begin(struct kvm *k, const struct boot *b);

/* RAM is zeros, and the processor as it is made: for the first time, or for a reboot. Ends the program where there
 * is none. */
struct host;
void begin_anew(struct host *h);

#endif
