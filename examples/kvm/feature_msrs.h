/* The feature MSRs: registers that show a guest what its processor has, beside CPUID. A guest believes them for
 * as long as it runs: one that was told that it needs no mitigation does not land where it needs one. */
#ifndef FEATURE_MSRS_H
#define FEATURE_MSRS_H

#include "kvm.h"

/* More such registers than this no KVM has. */
enum { FEATURES_MOST = 64 };

struct features {
    uint32_t count;
    struct kvm_msr_entry all[FEATURES_MOST];
};

/* What this host's KVM has (KVM_GET_MSR_FEATURE_INDEX_LIST). Returns what failed, or NULL. */
const char *features_offer(struct kvm *k, struct features *here);

/* Those of these that the guest can read and that are no numbers, with its own values, which may be fewer than the
 * host's: it may come from elsewhere. */
void features_read(struct kvm *k, const struct features *here, struct features *guest);

/* Looks, bit by bit, for what a guest was told and this host does not have. Other registers, as a state has them too,
 * are not looked at where `all` is false, and refused where it is true. Returns what is wrong, or NULL. */
const char *features_compare(const struct kvm_msr_entry *guest, uint32_t count, const struct features *here, int all);

#endif
