/* Boots a bzImage, as Debian's `vmlinuz` is, by the 64-bit entry of the kernel's boot protocol (its
 * Documentation/arch/x86/boot.rst): the kernel decompresses itself. It begins in 64-bit mode with the first 4 GiB
 * mapped to themselves, and the address of the zero page in RSI. */
#include <asm/bootparam.h>
#include <stddef.h>
#include <string.h>
#include "boot.h"
#include "say.h"

enum { HEAD_AT = 0x1f1, JUMP_END = 0x202, MAGIC = 0x53726448, LEAST_VERSION = 0x20c, ENTRY = 0x200 };
enum { SECTOR = 512, USUAL_SECTORS = 4, ANY_LOADER = 0xff };
enum { PRESENT = 3, LARGE = 0x83, ENTRIES = 512, TABLES = 4, LARGE_SHIFT = 21, CODE = 0x10, DATA = 0x18, TASK = 0x20 };

_Static_assert(offsetof(struct boot_params, hdr) == HEAD_AT, "the kernel's header and this file are of one mind");

static void check(const struct image *image, const struct setup_header *head)
{
    if (head->version < LEAST_VERSION)
        fail("%s: it is a bzImage of the boot protocol %u.%02u, and 2.12 is needed", image->name, head->version >> 8,
             head->version & 0xff);
    if (!(head->xloadflags & XLF_KERNEL_64)) fail("%s: it is a bzImage without a 64-bit entry", image->name);
}

/* The kernel lies at the address that it prefers: there it needs not move itself before it decompresses. Into how
 * much memory from there on it does so it says by init_size. The zero page has its header, to the end that the
 * header names by its jump. */
int bzimage_load(struct kvm *k, const struct image *image, struct boot *b)
{
    struct setup_header head;
    uint64_t sectors, from, size, end;

    if (image->length < HEAD_AT + sizeof head) return 0;
    image_read(image, HEAD_AT, &head, sizeof head);
    if (head.header != MAGIC) return 0;
    check(image, &head);
    sectors = head.setup_sects == 0 ? USUAL_SECTORS : head.setup_sects;
    from = (sectors + 1) * SECTOR;
    if (image->length <= from) fail("%s: there is no kernel behind its header", image->name);
    size = image->length - from;
    b->from = head.pref_address;
    image_place(image, k, b->from, head.init_size);
    image_read(image, from, image_place(image, k, b->from, size), size);
    b->to = b->from + (size > head.init_size ? size : head.init_size);
    b->entry = b->from + ENTRY;
    b->initrd_below = (uint64_t)head.initrd_addr_max + 1;
    end = JUMP_END - HEAD_AT + (uint64_t)(head.jump >> 8);
    memcpy(k->ram + ZERO_PAGE + HEAD_AT, &head, end < sizeof head ? end : sizeof head);
    return 1;
}

static void write_zero_page(struct kvm *k, const struct boot *b)
{
    struct boot_params *zero = (struct boot_params *)(void *)(k->ram + ZERO_PAGE);
    struct piece map[PIECES];

    memory_map(k, map);
    for (int i = 0; i < PIECES; i++)
        zero->e820_table[i] = (struct boot_e820_entry){map[i].at, map[i].size, map[i].type};
    zero->e820_entries = PIECES;
    zero->acpi_rsdp_addr = b->rsdp_at;
    zero->hdr.type_of_loader = ANY_LOADER;
    zero->hdr.cmd_line_ptr = ARGUMENTS;
    zero->hdr.ramdisk_image = (uint32_t)b->initrd_at;
    zero->hdr.ramdisk_size = (uint32_t)b->initrd_size;
}

/* 4 GiB in pages of 2 MiB, and the segments to which the protocol gives numbers. */
static void write_tables(struct kvm *k)
{
    static const uint64_t SEGMENTS[] = {0, 0, 0x00af9b000000ffff, 0x00cf93000000ffff};
    uint64_t *top = (uint64_t *)(void *)(k->ram + PAGE_TABLES), *middle = top + ENTRIES, *low = middle + ENTRIES;

    top[0] = (PAGE_TABLES + PAGE) | PRESENT;
    for (uint64_t n = 0; n < TABLES; n++) middle[n] = (PAGE_TABLES + (2 + n) * PAGE) | PRESENT;
    for (uint64_t n = 0; n < TABLES * ENTRIES; n++) low[n] = n << LARGE_SHIFT | LARGE;
    memcpy(k->ram + GDT, SEGMENTS, sizeof SEGMENTS);
}

void bzimage_begin(struct kvm *k, const struct boot *b)
{
    struct kvm_sregs2 s;
    struct kvm_regs r = {.rip = b->entry, .rsi = ZERO_PAGE, .rflags = 2};
    struct kvm_segment flat = {.limit = UINT32_MAX, .selector = DATA, .present = 1, .type = 3, .s = 1, .db = 1, .g = 1};

    write_zero_page(k, b);
    write_tables(k);
    if (kvm_call(k->cpu, KVM_GET_SREGS2, &s) < 0) fail("%s", kvm_reason("KVM_GET_SREGS2"));
    s.ds = s.es = s.fs = s.gs = s.ss = flat;
    s.cs = (struct kvm_segment){.limit = UINT32_MAX, .selector = CODE, .present = 1, .type = 11, .s = 1, .l = 1};
    s.cs.g = 1;
    s.tr = (struct kvm_segment){.limit = 0x67, .selector = TASK, .present = 1, .type = 11};
    s.gdt = (struct kvm_dtable){.base = GDT, .limit = 4 * sizeof(uint64_t) - 1};
    s.cr3 = PAGE_TABLES;
    s.cr4 = 0x20;
    s.cr0 = 0x80000011;
    s.efer = 0x500;
    if (kvm_call(k->cpu, KVM_SET_SREGS2, &s) < 0) fail("%s", kvm_reason("KVM_SET_SREGS2"));
    if (kvm_call(k->cpu, KVM_SET_REGS, &r) < 0) fail("%s", kvm_reason("KVM_SET_REGS"));
}
