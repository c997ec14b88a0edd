/* Boots an ELF file with an entry for PVH, as a `vmlinux` of Linux is that was configured with CONFIG_PVH (Xen's
 * docs/misc/pvh.pandoc): 32 bits, protected, without pages, with the address of a start info in EBX. */
#include <elf.h>
#include <string.h>
#include "boot.h"
#include "say.h"

enum { NOTES_MAX = 4096, NOTE_PVH = 18, PVH_MAGIC = 0x336ec578 };

struct start_info {
    uint32_t magic, version, flags, modules;
    uint64_t modules_at, arguments_at, rsdp_at, map_at;
    uint32_t map_entries, reserved;
};

struct module {
    uint64_t at, size, arguments_at, reserved;
};

struct map_entry {
    uint64_t at, size;
    uint32_t type, reserved;
};

static uint64_t padded(uint32_t length)
{
    return ((uint64_t)length + 3) & ~UINT64_C(3);
}

/* The entry for PVH, of a note of Xen's with the number 18, or 0. */
static uint32_t find_entry(const uint8_t *notes, uint64_t size)
{
    uint32_t head[3], entry;

    for (uint64_t at = 0; at + sizeof head <= size; at += sizeof head + padded(head[0]) + padded(head[1])) {
        uint64_t name = at + sizeof head, body;

        memcpy(head, notes + at, sizeof head);
        body = name + padded(head[0]);
        if (head[0] != 4 || head[1] < 4 || head[2] != NOTE_PVH || body + 4 > size) continue;
        if (memcmp(notes + name, "Xen", 4) != 0) continue;
        memcpy(&entry, notes + body, sizeof entry);
        return entry;
    }
    return 0;
}

static void load_segment(struct kvm *k, const struct image *image, const Elf64_Phdr *part, struct boot *b)
{
    if (part->p_filesz > part->p_memsz) fail("%s: a segment is longer than its memory", image->name);
    image_read(image, part->p_offset, image_place(image, k, part->p_paddr, part->p_memsz), part->p_filesz);
    if (part->p_memsz == 0) return;
    if (b->to == 0 || part->p_paddr < b->from) b->from = part->p_paddr;
    if (part->p_paddr + part->p_memsz > b->to) b->to = part->p_paddr + part->p_memsz;
}

static void look_into_notes(const struct image *image, const Elf64_Phdr *part, struct boot *b)
{
    static uint8_t notes[NOTES_MAX];

    if (part->p_filesz > sizeof notes) return;
    image_read(image, part->p_offset, notes, part->p_filesz);
    if (b->entry == 0) b->entry = find_entry(notes, part->p_filesz);
}

void pvh_load(struct kvm *k, const struct image *image, struct boot *b)
{
    Elf64_Ehdr head = {.e_phnum = 0};

    if (image->length >= sizeof head) image_read(image, 0, &head, sizeof head);
    if (memcmp(head.e_ident, ELFMAG, SELFMAG) != 0 || head.e_ident[EI_CLASS] != ELFCLASS64 ||
        head.e_machine != EM_X86_64)
        fail("%s: it is no bzImage, and no ELF file of x86-64", image->name);
    for (unsigned i = 0; i < head.e_phnum; i++) {
        Elf64_Phdr part;

        image_read(image, head.e_phoff + i * sizeof part, &part, sizeof part);
        if (part.p_type == PT_LOAD) load_segment(k, image, &part, b);
        if (part.p_type == PT_NOTE) look_into_notes(image, &part, b);
    }
    if (b->entry == 0) fail("%s: it has no entry for PVH, which CONFIG_PVH gives a Linux", image->name);
}

static void write_start_info(struct kvm *k, const struct boot *b)
{
    struct start_info info = {.magic = PVH_MAGIC, .version = 1, .modules = b->initrd_size != 0, .modules_at = MODULES,
                              .arguments_at = ARGUMENTS, .rsdp_at = b->rsdp_at, .map_at = MEMORY_MAP,
                              .map_entries = PIECES};
    struct module module = {.at = b->initrd_at, .size = b->initrd_size};
    struct piece map[PIECES];

    memory_map(k, map);
    for (int i = 0; i < PIECES; i++) {
        struct map_entry entry = {map[i].at, map[i].size, map[i].type, 0};

        memcpy(k->ram + MEMORY_MAP + (size_t)i * sizeof entry, &entry, sizeof entry);
    }
    memcpy(k->ram + MODULES, &module, sizeof module);
    memcpy(k->ram + START_INFO, &info, sizeof info);
}

void pvh_begin(struct kvm *k, const struct boot *b)
{
    struct kvm_sregs2 s;
    struct kvm_regs r = {.rip = b->entry, .rbx = START_INFO, .rflags = 2};
    struct kvm_segment flat = {.limit = UINT32_MAX, .selector = 0x10, .present = 1, .type = 3, .s = 1, .db = 1, .g = 1};

    write_start_info(k, b);
    if (kvm_call(k->cpu, KVM_GET_SREGS2, &s) < 0) fail("%s", kvm_reason("KVM_GET_SREGS2"));
    s.ds = s.es = s.fs = s.gs = s.ss = s.cs = flat;
    s.cs.selector = 8;
    s.cs.type = 11;
    s.tr = (struct kvm_segment){.limit = 0x67, .selector = 0x18, .present = 1, .type = 11};
    s.cr0 = 0x11;
    s.cr4 = 0;
    s.efer = 0;
    if (kvm_call(k->cpu, KVM_SET_SREGS2, &s) < 0) fail("%s", kvm_reason("KVM_SET_SREGS2"));
    if (kvm_call(k->cpu, KVM_SET_REGS, &r) < 0) fail("%s", kvm_reason("KVM_SET_REGS"));
}
