/* What processor the guest sees, and whether another host's guest can have one here. */
#ifndef CPUID_H
#define CPUID_H

#include "kvm.h"

/* More entries than this no CPUID has. */
enum { CPUID_MOST = 512 };

/* What this host's KVM supports, without what is not known here (known.h). NULL where it cannot be asked. To be
 * freed. */
struct kvm_cpuid2 *cpuid_offer(struct kvm *k);

/* The part of it that asks nobody: what KVM supports becomes what a guest is offered, which is one processor. There
 * is room for this number of entries more. The timer's deadline is offered where it is there, which old kernels tell
 * apart. */
enum { CPUID_MORE = 3 };
void cpuid_hide(struct kvm_cpuid2 *all, int has_deadline);

/* Looks for a feature that the guest has, and this host does not offer. Returns what is wrong, or NULL. */
const char *cpuid_compare(const struct kvm_cpuid2 *guest, const struct kvm_cpuid2 *here);

#endif
