/* The registers that have numbers (MSRs), and the one of them that goes on by itself: the TSC. */
#ifndef MSRS_H
#define MSRS_H

#include "kvm.h"

/* Reads which there are: one call for each, so it is done before the pause. */
const char *msrs_prepare(struct kvm *k);
uint32_t msrs_count(void);

/* The values of all that there are. */
const char *msrs_read(struct kvm *k, struct kvm_msr_entry *all, uint32_t count);

/* Sets these. One that is not taken, and does not have the value already, is named in the reason. The TSC is left
 * out where it is set. */
const char *msrs_set(struct kvm *k, const struct kvm_msr_entry *all, uint32_t count, int tsc_is_set);

/* The guest's TSC at the moment at which its clock was read, and so that it is what it has to be at that of the
 * clock here. By its MSR alone it would differ from the clock by the time between the calls, and the guest would
 * trust it no more. False where the host's TSC is not fit. */
int tsc_read(struct kvm *k, const struct kvm_clock_data *clock, uint64_t *tsc);
int tsc_set(struct kvm *k, const struct kvm_clock_data *clock, uint64_t tsc);

/* A clock that stands, with the TSC of that moment. */
struct stopped_clock {
    int is_stopped, has_tsc;
    struct kvm_clock_data clock;
    uint64_t tsc;
};

/* The guest's clock stands from here on, and goes on from there. KVM's own goes on meanwhile: it is set back. A
 * guest that has KVM's clock is told that it stood, and its watchdogs forgive the time. Both return why not, or
 * NULL. */
const char *clock_stop(struct kvm *k, struct stopped_clock *s);
const char *clock_start(struct kvm *k, struct stopped_clock *s);

#endif
