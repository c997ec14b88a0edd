#include <errno.h>
#include <stdio.h>
#include <stdlib.h>
#include <string.h>
#include "feature_msrs.h"
#include "words.h"

enum {
    ARCH_CAPABILITIES = 0x10a, PLATFORM_INFO = 0xce, UCODE_REV = 0x8b, PERF_CAPABILITIES = 0x345,
    DE_CFG = 0xc0011029
};

#define BIT(n) (UINT64_C(1) << (n))
#define ALL UINT64_MAX

/* What is known of them. All other bits of all registers are features: one that the guest has this host has to have.
 * - `no_features` are bits that are numbers, or belong to what no guest is offered.
 * - `worse` are bits that say what is not so good: a guest without one does not land where it is.
 * - `always` are bits that each KVM has, also where it does not list the register, as old ones do not.
 * - `names` are those of the bits, from the lowest on. */
static const struct {
    uint32_t from, to;
    uint64_t no_features, worse, always;
    const char *names;
} KNOWN[] = {
    {ARCH_CAPABILITIES, ARCH_CAPABILITIES, 0, BIT(2) | BIT(19), 0,
     "rdcl_no ibrs_all rsba skip_vmentry_l1dflush ssb_no mds_no pschange_mc_no tsx_ctrl "
     "taa_no - misc_package_ctrls - - sbdr_ssdp_no fbsdp_no psdp_no "
     "- fb_clear fb_clear_ctrl rrsba bhi_no xapic_disable - - "
     "pbrsb_no gds_ctrl gds_no rfds_no rfds_clear - - -"},
    {PLATFORM_INFO, PLATFORM_INFO, UINT64_C(0xff000000ff00), 0, BIT(31),   /* ratios of frequencies */
     "- - - - - - - - - - - - - - - - - - - - - - - - - - - - - - - cpuid_fault"},
    {UCODE_REV, UCODE_REV, ALL, 0, 0, NULL},                         /* a version, which the guest keeps */
    {PERF_CAPABILITIES, PERF_CAPABILITIES, ALL, 0, 0, NULL},         /* of counters: no guest can read it */
    {0x480, 0x491, ALL, 0, 0, NULL},                                 /* of VMX: likewise */
    {DE_CFG, DE_CFG, 0, 0, 0, "- lfence_rdtsc"},
};

enum { KNOWN_COUNT = sizeof KNOWN / sizeof *KNOWN };

/* The row of a register, or KNOWN_COUNT. */
static size_t row_of(uint32_t number)
{
    size_t row = 0;

    while (row < KNOWN_COUNT && (number < KNOWN[row].from || number > KNOWN[row].to)) row++;
    return row;
}

static uint64_t no_features_of(uint32_t number)
{
    size_t row = row_of(number);

    return row < KNOWN_COUNT ? KNOWN[row].no_features : 0;
}

static const struct kvm_msr_entry *entry_of(const struct features *all, uint32_t number)
{
    for (uint32_t i = 0; i < all->count; i++)
        if (all->all[i].index == number) return &all->all[i];
    return NULL;
}

static const char *reason_of(const char *what, uint32_t number, uint64_t bits)
{
    static char reason[160];
    char name[WORD_MAX];
    size_t row = row_of(number);
    int bit = 0;

    while (!(bits >> bit & 1)) bit++;
    snprintf(reason, sizeof reason, "%s: the MSR 0x%x, bit %d, %s", what, (unsigned)number, bit,
             word_at(row < KNOWN_COUNT ? KNOWN[row].names : NULL, bit, name));
    return reason;
}

/* What this host has of a register. */
static uint64_t has_of(const struct features *here, uint32_t number)
{
    const struct kvm_msr_entry *entry = entry_of(here, number);
    size_t row = row_of(number);

    return (entry == NULL ? 0 : entry->data) | (row < KNOWN_COUNT ? KNOWN[row].always : 0);
}

static const char *compare_one(const struct kvm_msr_entry *guest, const struct features *here)
{
    size_t row = row_of(guest->index);
    uint64_t worse = row < KNOWN_COUNT ? KNOWN[row].worse : 0, has = has_of(here, guest->index);
    uint64_t lacks = guest->data & ~has & ~worse & ~no_features_of(guest->index), new = has & ~guest->data & worse;

    if (lacks != 0) return reason_of("this host lacks what the guest was told", guest->index, lacks);
    return new != 0 ? reason_of("this host has a weakness of which the guest was not told", guest->index, new) : NULL;
}

const char *features_compare(const struct kvm_msr_entry *guest, uint32_t count, const struct features *here, int all)
{
    const char *why = NULL;

    for (uint32_t i = 0; i < count && why == NULL; i++)
        if (all || row_of(guest[i].index) < KNOWN_COUNT || entry_of(here, guest[i].index) != NULL)
            why = compare_one(&guest[i], here);
    return why;
}

/* One register, of the host or of a processor. */
static int read_one(int of, struct kvm_msr_entry *entry)
{
    struct {
        uint32_t count, pad;
        struct kvm_msr_entry entry;
    } one = {.count = 1, .entry = *entry};

    if (kvm_call(of, KVM_GET_MSRS, &one) != 1) return 0;
    *entry = one.entry;
    return 1;
}

/* One that the host lists and cannot read has no bit. */
const char *features_offer(struct kvm *k, struct features *here)
{
    struct {
        uint32_t count, numbers[FEATURES_MOST];
    } list = {.count = FEATURES_MOST};

    here->count = 0;
    if (kvm_call(k->system, KVM_GET_MSR_FEATURE_INDEX_LIST, &list) < 0)
        return kvm_reason("KVM_GET_MSR_FEATURE_INDEX_LIST");
    for (uint32_t i = 0; i < list.count; i++) {
        here->all[here->count] = (struct kvm_msr_entry){.index = list.numbers[i]};
        here->count += (uint32_t)read_one(k->system, &here->all[here->count]);
    }
    return NULL;
}

void features_read(struct kvm *k, const struct features *here, struct features *guest)
{
    guest->count = 0;
    for (uint32_t i = 0; i < here->count; i++) {
        struct kvm_msr_entry *entry = &guest->all[guest->count];

        *entry = (struct kvm_msr_entry){.index = here->all[i].index};
        if (no_features_of(entry->index) != ALL) guest->count += (uint32_t)read_one(k->cpu, entry);
    }
}
