/* Made-up processors. One has all bits in each leaf that Linux knows, and in leaves beyond: what a guest of it is
 * offered is what Linux 6.1's KVM offers, but for what is left out on purpose, and is written here apart from
 * known.c, as numbers. Then guests that have a bit more than a host, of each kind, are refused, and those that have
 * other names, counts and sizes are taken. None of it needs a KVM. Where there is one, a host takes its own guest. */
#include <stdarg.h>
#include <stdio.h>
#include <stdlib.h>
#include <string.h>
#include "cpuid.h"
#include "feature_msrs.h"
#include "say.h"

#define ALL UINT32_MAX
#define INDEXED KVM_CPUID_FLAG_SIGNIFCANT_INDEX
#define EACH 100

enum { WRONG_MAX = 20, ROOM = 2048, INDICES = 5, AREAS = 70 };

/* EAX, EBX, ECX and EDX of a leaf: features, and what is none. */
static const struct row {
    uint32_t leaf, index, features[4], values[4];
} ROWS[] = {
    {0x0, 0, {0}, {ALL, ALL, ALL, ALL}},
    {0x1, 0, {0, 0, 0xf7fa3203, 0x0f8bfbff}, {ALL, ALL, 0, 0}},
    {0x2, 0, {0}, {ALL, ALL, ALL, ALL}},
    {0x4, EACH, {0}, {ALL, ALL, ALL, ALL}},
    {0x6, 0, {0x4, 0, 0, 0}, {0}},
    {0x7, 0, {0, 0xfdbf6ffb, 0x1b415f6e, 0xac81451c}, {ALL, 0, 0, 0}},
    {0x7, 1, {0x30, 0, 0, 0}, {0}},
    {0x7, 2, {0, 0, 0, 0x3f}, {0}},
    {0xb, EACH, {0}, {ALL, ALL, ALL, ALL}},
    {0xd, 0, {0x2ff, 0, 0, 0}, {0, ALL, ALL, 0}},
    {0xd, 1, {0xf, 0, 0, 0}, {0, ALL, 0, 0}},
    {0x40000000, 0, {0}, {ALL, ALL, ALL, ALL}},
    {0x40000001, 0, {0x01007efb, 0, 0, 0}, {0}},
    {0x80000000, 0, {0}, {ALL, ALL, ALL, ALL}},
    {0x80000001, 0, {0, 0, 0x00610bf1, 0xefd3fbff}, {ALL, ALL, 0, 0}},
    {0x80000002, 0, {0}, {ALL, ALL, ALL, ALL}}, {0x80000003, 0, {0}, {ALL, ALL, ALL, ALL}},
    {0x80000004, 0, {0}, {ALL, ALL, ALL, ALL}}, {0x80000005, 0, {0}, {ALL, ALL, ALL, ALL}},
    {0x80000006, 0, {0}, {ALL, ALL, ALL, ALL}},
    {0x80000007, 0, {0, 0, 0, 0x100}, {0}},
    {0x80000008, 0, {0, 0x1702d205, 0, 0}, {ALL, 0, 0, 0}},
    {0x80000019, 0, {0}, {ALL, ALL, 0, 0}},
    {0x8000001a, 0, {0}, {0x7, 0, 0, 0}},
    {0x8000001d, EACH, {0}, {ALL, ALL, ALL, ALL}},
    {0x80000021, 0, {0x20000265, 0, 0x6, 0}, {0}},
};

/* The parts of the area of XSAVE: AVX, both of MPX, three of AVX512, and the keys of pages. */
static const uint32_t PARTS[] = {2, 3, 4, 5, 6, 7, 9};
enum { PARTS_COUNT = sizeof PARTS / sizeof *PARTS };

/* What the board makes of a leaf that had all bits: one processor. */
static const struct {
    uint32_t leaf, index, words[4];
} MADE[] = {
    {0x0, 0, {0xd, ALL, ALL, ALL}},
    {0x40000000, 0, {0x40000001, ALL, ALL, ALL}},
    {0x80000000, 0, {0x80000021, ALL, ALL, ALL}},
    {0x1, 0, {ALL, 0x0001ffff, 0xf7fa3203, 0x0f8bfbff}},
    {0x4, 0, {0x3fff, ALL, ALL, ALL}},
    {0x4, 4, {0x3fff, ALL, ALL, ALL}},
    {0x7, 0, {2, 0xfdbf6ffb, 0x1b415f6e, 0xac81451c}},
    {0x8000001d, 1, {0xfc003fff, ALL, ALL, ALL}},
    {0xb, 0, {0, 1, 0x100, 0}},
    {0xb, 1, {0, 1, 0x201, 0}},
    {0xb, 2, {0, 0, 2, 0}},
};

static int count_wrong;

void fail(const char *format, ...)
{
    va_list values;

    va_start(values, format);
    vfprintf(stderr, format, values);
    va_end(values);
    exit(1);
}

static void wrong(const char *what, uint32_t leaf, uint32_t index, uint32_t name)
{
    if (count_wrong++ < WRONG_MAX)
        fprintf(stderr, "cpuid: %s: leaf 0x%x.%u, E%cX\n", what, (unsigned)leaf, (unsigned)index, "ABCD"[name]);
}

static uint32_t *word_of(struct kvm_cpuid_entry2 *e, uint32_t name)
{
    return name == 0 ? &e->eax : name == 1 ? &e->ebx : name == 2 ? &e->ecx : &e->edx;
}

/* The row of a leaf, or NULL. */
static const struct row *row_of(uint32_t leaf, uint32_t index)
{
    static const struct row PART = {0xd, EACH, {0}, {ALL, ALL, ALL, 0}};

    for (size_t i = 0; leaf == 0xd && i < PARTS_COUNT; i++)
        if (index == PARTS[i]) return &PART;
    for (size_t i = 0; i < sizeof ROWS / sizeof *ROWS; i++)
        if (ROWS[i].leaf == leaf && (ROWS[i].index == index || ROWS[i].index == EACH)) return &ROWS[i];
    return NULL;
}

static struct kvm_cpuid2 *copy_of(const struct kvm_cpuid2 *all)
{
    struct kvm_cpuid2 *copy = calloc(1, sizeof *all + ROOM * sizeof *all->entries);

    if (copy == NULL) fail("cpuid: no memory");
    memcpy(copy, all, sizeof *all + all->nent * sizeof *all->entries);
    return copy;
}

/* The entry of a leaf, which is made where there is none. */
static struct kvm_cpuid_entry2 *entry_of(struct kvm_cpuid2 *all, uint32_t leaf, uint32_t index)
{
    for (uint32_t i = 0; i < all->nent; i++)
        if (all->entries[i].function == leaf && all->entries[i].index == index) return &all->entries[i];
    all->entries[all->nent] = (struct kvm_cpuid_entry2){leaf, index, INDEXED, 0, 0, 0, 0, {0}};
    return &all->entries[all->nent++];
}

static void add_leaves(struct kvm_cpuid2 *all, uint32_t from, uint32_t to)
{
    for (uint32_t leaf = from;; leaf++) {
        for (uint32_t index = 0; index < (leaf == 0xd ? AREAS : INDICES); index++)
            all->entries[all->nent++] = (struct kvm_cpuid_entry2){leaf, index, INDEXED, ALL, ALL, ALL, ALL, {0}};
        if (leaf == to) break;
    }
}

/* A processor that has each bit in each leaf, and a KVM that offers them. */
static struct kvm_cpuid2 *make_up(void)
{
    struct kvm_cpuid2 none = {.nent = 0}, *all = copy_of(&none);

    add_leaves(all, 0, 0x40);
    add_leaves(all, 0x20000000, 0x20000001);
    add_leaves(all, 0x40000000, 0x40000010);
    add_leaves(all, 0x80000000, 0x80000040);
    add_leaves(all, 0x8fffffff, 0x8fffffff);
    add_leaves(all, 0xc0000000, 0xc0000004);
    add_leaves(all, 0xffffffff, 0xffffffff);
    return all;
}

/* What is offered is what is known, and no more. */
static void look_at_offer(struct kvm_cpuid2 *offered)
{
    for (uint32_t i = 0; i < offered->nent; i++) {
        struct kvm_cpuid_entry2 *e = &offered->entries[i];
        const struct row *row = row_of(e->function, e->index);

        for (uint32_t name = 0; name < 4; name++)
            if (row == NULL || (*word_of(e, name) & ~row->values[name]) != row->features[name])
                wrong("it is offered so", e->function, e->index, name);
    }
    for (size_t i = 0; i < sizeof ROWS / sizeof *ROWS; i++)
        entry_of(offered, ROWS[i].leaf, ROWS[i].index == EACH ? 0 : ROWS[i].index);
    for (size_t i = 0; i < sizeof MADE / sizeof *MADE; i++)
        for (uint32_t name = 0; name < 4; name++)
            if (*word_of(entry_of(offered, MADE[i].leaf, MADE[i].index), name) != MADE[i].words[name])
                wrong("it is not made so", MADE[i].leaf, MADE[i].index, name);
}

/* No leaf was missing. */
static void look_at_count(const struct kvm_cpuid2 *offered)
{
    uint32_t count = PARTS_COUNT + 3 - 1;

    for (size_t i = 0; i < sizeof ROWS / sizeof *ROWS; i++)
        count += ROWS[i].index == EACH && ROWS[i].leaf != 0xb ? INDICES : 1;
    if (offered->nent != count)
        fail("cpuid: %u entries are offered, and not %u\n", (unsigned)offered->nent, (unsigned)count);
}

/* Whether a guest that has these bits besides is taken. */
static int is_taken(const struct kvm_cpuid2 *here, uint32_t leaf, uint32_t index, uint32_t name, uint32_t bits)
{
    struct kvm_cpuid2 *guest = copy_of(here);
    int taken;

    *word_of(entry_of(guest, leaf, index), name) ^= bits;
    taken = cpuid_compare(guest, here) == NULL;
    free(guest);
    return taken;
}

/* Names that are compared, and sizes. */
static int is_compared(uint32_t leaf, uint32_t index, uint32_t name)
{
    return ((leaf == 0 || leaf == 0x40000000) && name > 0) || (leaf == 0xd && index > 1) ||
           (leaf == 0x80000008 && name == 0);
}

/* A guest with a bit more than this host, of any register of any leaf. */
static void try_more(const struct kvm_cpuid2 *here, struct kvm_cpuid2 *leaves)
{
    for (uint32_t i = 0; i < leaves->nent; i++) {
        uint32_t leaf = leaves->entries[i].function, index = leaves->entries[i].index;
        const struct row *row = row_of(leaf, index);

        for (uint32_t name = 0; name < 4; name++) {
            uint32_t has = row == NULL ? 0 : row->features[name], values = row == NULL ? 0 : row->values[name];

            for (uint32_t bit = 0; row != NULL && bit < 32; bit++) {
                if (values >> bit & 1 || has >> bit & 1) continue;
                if (is_taken(here, leaf, index, name, UINT32_C(1) << bit))
                    wrong("a bit more is taken", leaf, index, name);
            }
            if (row == NULL && is_taken(here, leaf, index, name, ALL)) wrong("all bits are taken", leaf, index, name);
            if (values != 0 && !is_compared(leaf, index, name) && !is_taken(here, leaf, index, name, values))
                wrong("another value is refused", leaf, index, name);
        }
    }
}

/* A host with a bit less than this guest has. */
static void try_less(const struct kvm_cpuid2 *guest)
{
    for (uint32_t i = 0; i < guest->nent; i++) {
        const struct kvm_cpuid_entry2 *e = &guest->entries[i];
        const struct row *row = row_of(e->function, e->index);

        for (uint32_t n = 0; n < 4 * 32; n++) {
            struct kvm_cpuid2 *here;

            if (!(row->features[n / 32] >> n % 32 & 1)) continue;
            here = copy_of(guest);
            *word_of(&here->entries[i], n / 32) &= ~(UINT32_C(1) << n % 32);
            if (cpuid_compare(guest, here) == NULL)
                wrong("a bit that the host lacks is taken", e->function, e->index, n / 32);
            free(here);
        }
    }
}

/* The maker, the name of the hypervisor, more bits of an address, fewer of them, and parts that lie elsewhere. */
static void try_values(struct kvm_cpuid2 *here)
{
    entry_of(here, 0x80000008, 0)->eax = 0x302e;
    for (uint32_t name = 1; name < 4; name++) {
        if (is_taken(here, 0, 0, name, 1)) wrong("another maker is taken", 0, 0, name);
        if (is_taken(here, 0x40000000, 0, name, 1)) wrong("another hypervisor is taken", 0x40000000, 0, name);
    }
    if (is_taken(here, 0x80000008, 0, 0, 0x1) || is_taken(here, 0x80000008, 0, 0, 0x100))
        wrong("longer addresses are taken", 0x80000008, 0, 0);
    if (!is_taken(here, 0x80000008, 0, 0, 0x2) || !is_taken(here, 0x80000008, 0, 0, 0x1000))
        wrong("shorter addresses are refused", 0x80000008, 0, 0);
    for (size_t i = 0; i < PARTS_COUNT; i++)
        for (uint32_t name = 0; name < 3; name++)
            if (is_taken(here, 0xd, PARTS[i], name, 1)) wrong("another area of XSAVE is taken", 0xd, PARTS[i], name);
}

/* The area has the size of the parts that are left. */
static void try_sizes(void)
{
    struct kvm_cpuid2 none = {.nent = 0}, *all = copy_of(&none);

    *entry_of(all, 0xd, 0) = (struct kvm_cpuid_entry2){0xd, 0, INDEXED, 0x602e7, 0x2b00, 0x2b00, 0, {0}};
    *entry_of(all, 0xd, 2) = (struct kvm_cpuid_entry2){0xd, 2, INDEXED, 0x100, 0x240, 0, 0, {0}};
    *entry_of(all, 0xd, 9) = (struct kvm_cpuid_entry2){0xd, 9, INDEXED, 0x8, 0xa80, 0, 0, {0}};
    *entry_of(all, 0xd, 18) = (struct kvm_cpuid_entry2){0xd, 18, INDEXED, 0x2000, 0xb00, 0, 0, {0}};
    cpuid_hide(all, 0);
    if (all->nent != 3 || all->entries[0].eax != 0x2e7 || all->entries[0].ecx != 0xa88)
        wrong("its size is another one", 0xd, 0, 2);
    free(all);
}

/* Feature MSRs: what the host has, the guest was told, and whether it is taken. */
static const struct {
    uint32_t number;
    uint64_t here, guest;
    int is_taken;
} TOLD[] = {
    {0x10a, 0x0c0aa0eb, 0x0c0aa0eb, 1},
    {0x10a, 0x0c0aa0eb, 0x0c0aa0ea, 1},
    {0x10a, 0x0c0aa0ea, 0x0c0aa0eb, 0}, /* RDCL_NO */
    {0x10a, 0, 0xffffffff, 0},
    {0x10a, 0x0c08a0eb, 0x0c0aa0eb, 0},
    {0x10a, 0xffffffff, UINT64_C(1) << 62, 0}, /* FB_CLEAR, ITS_NO */
    {0x10a, 0x80000, 0, 0},
    {0x10a, 0, 0x80000, 1},
    {0x10a, 4, 0, 0},
    {0x10a, 0, 4, 1}, /* RRSBA, RSBA */
    {0xce, 0, UINT64_C(1) << 31, 1},
    {0xce, 0, UINT64_C(1) << 30, 0},
    {0xce, UINT64_C(1) << 31, 0, 1},
    {0xce, 0x1900, 0x1a00, 1},
    {0xc0011029, 0, 2, 0},
    {0xc0011029, 2, 0, 1},
    {0xc0011029, 2, 0x202, 0},
    {0x8b, 1, UINT64_C(0x100000000), 1},
    {0x345, 0, 0x33c5, 1},
    {0x48c, 0, ~UINT64_C(0), 1},
    {0x12345, 0, 1, 0},
    {0x12345, 1, 1, 1},
    {0x12345, 1, 3, 0},
};

static void try_features(void)
{
    struct features here = {.count = 1}, none = {.count = 0};

    for (size_t i = 0; i < sizeof TOLD / sizeof *TOLD; i++) {
        struct kvm_msr_entry guest[] = {{.index = 0x10, .data = 99}, {.index = TOLD[i].number, .data = TOLD[i].guest}};

        here.all[0] = (struct kvm_msr_entry){.index = TOLD[i].number, .data = TOLD[i].here};
        if ((features_compare(guest + 1, 1, &here, 1) == NULL) != TOLD[i].is_taken)
            fail("cpuid: the MSR 0x%x: case %d is wrong\n", (unsigned)TOLD[i].number, (int)i);
        if ((features_compare(guest, 2, &here, 0) == NULL) != TOLD[i].is_taken)
            fail("cpuid: the MSR 0x%x: case %d in a state is wrong\n", (unsigned)TOLD[i].number, (int)i);
        if (TOLD[i].here == 0 && (features_compare(guest + 1, 1, &none, 1) == NULL) != TOLD[i].is_taken)
            fail("cpuid: the MSR 0x%x: case %d is wrong where the host has none\n", (unsigned)TOLD[i].number, (int)i);
    }
    for (int bit = 0; bit < 64; bit++) {
        struct kvm_msr_entry guest = {.index = 0x10a, .data = UINT64_C(1) << bit};

        if (bit != 2 && bit != 19 && features_compare(&guest, 1, &none, 1) == NULL)
            fail("cpuid: ARCH_CAPABILITIES, bit %d, is taken\n", bit);
    }
}

static void try_live(void)
{
    struct kvm k;
    const char *why = kvm_open(&k);
    struct kvm_cpuid2 *here, *again;

    if (why != NULL) {
        printf("cpuid: skipped: this host's own guest: %s\n", why);
        return;
    }
    here = cpuid_offer(&k);
    again = cpuid_offer(&k);
    if (here == NULL || again == NULL) fail("cpuid: KVM offers none\n");
    why = cpuid_compare(again, here);
    if (why != NULL) fail("cpuid: this host refuses its own guest: %s\n", why);
    free(here);
    free(again);
}

int main(void)
{
    struct kvm_cpuid2 *leaves = make_up(), *offered = copy_of(leaves);

    cpuid_hide(offered, 1);
    look_at_count(offered);
    look_at_offer(offered);
    if (count_wrong == 0) {
        try_more(offered, leaves);
        try_less(offered);
        try_values(offered);
    }
    try_sizes();
    try_features();
    try_live();
    free(leaves);
    free(offered);
    return count_wrong != 0;
}
