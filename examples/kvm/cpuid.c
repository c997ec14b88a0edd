/* CPUID. The state that a move carries is complete, as the guest is offered nothing whose state it lacks; and as
 * KVM_SET_CPUID2 takes features that the host does not have, a guest is compared before it is taken. */
#include <errno.h>
#include <stdio.h>
#include <stdlib.h>
#include "cpuid.h"
#include "known.h"
#include "words.h"

#define BIT(n) (UINT32_C(1) << (n))
#define INDEXED KVM_CPUID_FLAG_SIGNIFCANT_INDEX

static const char *const NAMES[] = {"EAX", "EBX", "ECX", "EDX"};

/* Leaves, the parts of an area of XSAVE that have a leaf of their own, and the area of those that have none. */
enum { FLAGS = 0x7, TOPOLOGY = 0xb, XSAVE = 0xd, PARTS_FROM = 2, PARTS_TO = 32, LEAST_AREA = 576 };
#define EXTENDED UINT32_C(0x80000000)
#define HYPERVISORS UINT32_C(0x40000000)

static uint32_t *word_of(struct kvm_cpuid_entry2 *entry, enum name name)
{
    uint32_t *const words[] = {&entry->eax, &entry->ebx, &entry->ecx, &entry->edx};

    return words[name];
}

/* A register of a leaf, and 0 where there is no such leaf. */
static uint32_t find(const struct kvm_cpuid2 *all, uint32_t leaf, uint32_t index, enum name name)
{
    for (uint32_t i = 0; i < all->nent; i++) {
        struct kvm_cpuid_entry2 entry = all->entries[i];

        if (entry.function == leaf && (entry.index == index || !(entry.flags & INDEXED))) return *word_of(&entry, name);
    }
    return 0;
}

static uint32_t index_of(const struct kvm_cpuid_entry2 *entry)
{
    return entry->flags & INDEXED ? entry->index : 0;
}

/* What is known of an entry is left of it. Whether that is anything. */
static int keep_known(struct kvm_cpuid_entry2 *entry)
{
    uint32_t kept = 0;

    for (enum name name = EAX; name <= EDX; name++) {
        uint32_t known = known_features(entry->function, index_of(entry), name) |
                         known_values(entry->function, index_of(entry), name);

        *word_of(entry, name) &= known;
        kept |= known;
    }
    return kept != 0;
}

/* One processor, whose LAPIC has the number 0, and whose caches are its own. */
static void tell_board(struct kvm_cpuid_entry2 *entry, int has_deadline)
{
    const uint32_t sharers = UINT32_C(0xfff) << 14, cores = UINT32_C(0x3f) << 26;

    if (entry->function == 0x1) {
        entry->ebx = (entry->ebx & 0xffff) | 1 << 16;
        entry->ecx |= BIT(31) | (has_deadline ? BIT(24) : 0);
    }
    if (entry->function == 0x4) entry->eax &= ~(sharers | cores);
    if (entry->function == 0x8000001d) entry->eax &= ~sharers;
}

/* Two levels, a thread of a core and a core of a package, of which each has one of it; and none behind them. */
static void add_topology(struct kvm_cpuid2 *all)
{
    for (uint32_t level = 0; level < CPUID_MORE; level++)
        all->entries[all->nent++] = (struct kvm_cpuid_entry2){TOPOLOGY, level, INDEXED, 0, level < 2,
                                                             level | (level < 2 ? (level + 1) << 8 : 0), 0, {0}};
}

/* The area of XSAVE is as long as all parts that are offered, of which those that are not lose their leaves. */
static void size_area(struct kvm_cpuid2 *all)
{
    uint32_t parts = find(all, XSAVE, 0, EAX), size = LEAST_AREA;

    for (uint32_t i = PARTS_FROM; i < PARTS_TO; i++) {
        uint32_t end = find(all, XSAVE, i, EAX) + find(all, XSAVE, i, EBX);

        if ((parts & BIT(i)) && end > size) size = end;
    }
    for (uint32_t i = 0; i < all->nent; i++)
        if (all->entries[i].function == XSAVE && index_of(&all->entries[i]) == 0 && parts != 0)
            all->entries[i].ecx = size;
}

static int is_no_part(const struct kvm_cpuid_entry2 *entry, uint32_t parts)
{
    uint32_t part = index_of(entry);

    return entry->function == XSAVE && part >= PARTS_FROM && (part >= PARTS_TO || !(parts & BIT(part)));
}

/* The last leaf of a range is the last one that is there: of one behind it a processor says what that one has. */
static void end_range(struct kvm_cpuid2 *all, uint32_t first)
{
    uint32_t last = first;

    for (uint32_t i = 0; i < all->nent; i++)
        if (all->entries[i].function >> 28 == first >> 28 && all->entries[i].function > last)
            last = all->entries[i].function;
    for (uint32_t i = 0; i < all->nent; i++)
        if (all->entries[i].function == first) all->entries[i].eax = last;
}

/* So it is with the indices of leaf 7. */
static void end_indices(struct kvm_cpuid2 *all)
{
    uint32_t last = 0;

    for (uint32_t i = 0; i < all->nent; i++)
        if (all->entries[i].function == FLAGS && index_of(&all->entries[i]) > last) last = index_of(&all->entries[i]);
    for (uint32_t i = 0; i < all->nent; i++)
        if (all->entries[i].function == FLAGS && index_of(&all->entries[i]) == 0) all->entries[i].eax = last;
}

void cpuid_hide(struct kvm_cpuid2 *all, int has_deadline)
{
    uint32_t kept = 0, has_topology = 0, parts = find(all, XSAVE, 0, EAX) & known_features(XSAVE, 0, EAX);

    for (uint32_t i = 0; i < all->nent; i++) {
        struct kvm_cpuid_entry2 entry = all->entries[i];

        has_topology |= entry.function == TOPOLOGY;
        if (entry.function == TOPOLOGY || is_no_part(&entry, parts) || !keep_known(&entry)) continue;
        tell_board(&entry, has_deadline);
        all->entries[kept++] = entry;
    }
    all->nent = kept;
    if (has_topology) add_topology(all);
    size_area(all);
    end_indices(all);
    end_range(all, 0);
    end_range(all, HYPERVISORS);
    end_range(all, EXTENDED);
}

struct kvm_cpuid2 *cpuid_offer(struct kvm *k)
{
    for (uint32_t room = 64; room <= CPUID_MOST - CPUID_MORE; room *= 2) {
        struct kvm_cpuid2 *all = calloc(1, sizeof *all + (room + CPUID_MORE) * sizeof *all->entries);

        if (all == NULL) return NULL;
        all->nent = room;
        if (kvm_call(k->system, KVM_GET_SUPPORTED_CPUID, all) >= 0) {
            cpuid_hide(all,
                       kvm_call(k->system, KVM_CHECK_EXTENSION, (void *)(uintptr_t)KVM_CAP_TSC_DEADLINE_TIMER) > 0);
            return all;
        }
        free(all);
        if (errno != E2BIG) return NULL;
    }
    return NULL;
}

static const char *lacks(uint32_t leaf, uint32_t index, enum name name, uint32_t bits)
{
    static char reason[160];
    char word[WORD_MAX];
    int bit = 0;

    while (!(bits >> bit & 1)) bit++;
    snprintf(reason, sizeof reason, "this host lacks a feature of its CPUID: leaf 0x%x.%u, %s, bit %d, %s",
             (unsigned)leaf, (unsigned)index, NAMES[name], bit, word_at(known_names(leaf, index, name), bit, word));
    return reason;
}

/* Where the parts of the area of XSAVE lie is the processor's own. */
static int has_other_areas(const struct kvm_cpuid2 *guest, const struct kvm_cpuid2 *here)
{
    for (uint32_t i = PARTS_FROM; i < PARTS_TO; i++) {
        if (!(find(guest, XSAVE, 0, EAX) & BIT(i))) continue;
        for (enum name name = EAX; name <= EDX; name++)
            if (find(guest, XSAVE, i, name) != find(here, XSAVE, i, name)) return 1;
    }
    return 0;
}

/* Each bit that the guest has is one of this host's, but for values. What nobody knows here no host offers. */
static const char *compare_features(const struct kvm_cpuid2 *guest, const struct kvm_cpuid2 *here)
{
    for (uint32_t i = 0; i < guest->nent; i++) {
        struct kvm_cpuid_entry2 entry = guest->entries[i];
        uint32_t index = index_of(&entry);

        for (enum name name = EAX; name <= EDX; name++) {
            uint32_t more = *word_of(&entry, name) & ~find(here, entry.function, index, name);

            more &= ~known_values(entry.function, index, name);
            if (more != 0) return lacks(entry.function, index, name, more);
        }
    }
    return NULL;
}

/* The maker of the processor, and that of the hypervisor. */
static int has_other_name(const struct kvm_cpuid2 *guest, const struct kvm_cpuid2 *here, uint32_t leaf)
{
    for (enum name name = EBX; name <= EDX; name++)
        if (find(guest, leaf, 0, name) != find(here, leaf, 0, name)) return 1;
    return 0;
}

const char *cpuid_compare(const struct kvm_cpuid2 *guest, const struct kvm_cpuid2 *here)
{
    uint32_t guests, heres;
    const char *why;

    if (has_other_name(guest, here, 0)) return "its processor is of another maker: leaf 0x0";
    if (has_other_name(guest, here, HYPERVISORS)) return "its hypervisor has another name: leaf 0x40000000";
    why = compare_features(guest, here);
    if (why != NULL) return why;
    guests = find(guest, 0x80000008, 0, EAX);
    heres = find(here, 0x80000008, 0, EAX);
    if ((guests & 0xff) > (heres & 0xff) || (guests >> 8 & 0xff) > (heres >> 8 & 0xff))
        return "its addresses have more bits: leaf 0x80000008, EAX";
    return has_other_areas(guest, here) ? "its area of XSAVE has another form: leaf 0xd" : NULL;
}
