/* The processor and the board as bytes, for a move: a list of all that KVM has of them, in the order in which it is
 * set. */
#ifndef STATE_H
#define STATE_H

#include "kvm.h"
#include "uart.h"

/* What has a size of its own. What has none lies behind it: the area of XSAVE, and the MSRs. */
struct state {
    uint32_t version, xsave_size, count_msrs, has_tsc;
    uint64_t tsc; /* the guest's TSC at the moment of the clock, where the host's can be relied on: has_tsc */
    struct kvm_sregs2 sregs;
    struct kvm_regs regs;
    struct kvm_xcrs xcrs;
    struct kvm_irqchip chips[3];
    struct kvm_pit_state2 pit;
    struct kvm_clock_data clock;
    struct kvm_lapic_state lapic;
    struct kvm_debugregs debugregs;
    struct kvm_vcpu_events events;
    struct kvm_mp_state mp_state;
    struct uart uart;
    struct typed typed;
};

/* A state with what lies behind it: pointers to be freed by state_free. */
struct whole_state {
    struct state state;
    uint8_t *xsave;
    struct kvm_msr_entry *msrs;
};

/* A part of it: the calls that read and set it, where it is, and whether it is of the virtual machine or of the
 * processor. */
struct part {
    const char *name;
    unsigned long get, set;
    size_t at;
    int is_of_vm;
};

enum { PARTS = 15 };
extern const struct part STATE_PARTS[PARTS];


/* Reads all parts from the last to the first; sets these parts, in this order. The processor is outside, and no
 * access of its is half done. */
const char *parts_read(struct kvm *k, struct whole_state *all);
const char *parts_set(struct kvm *k, struct whole_state *all, const struct part *parts, int count);

/* To bytes, and from bytes that are not trusted. */
const char *state_pack(const struct whole_state *all, uint8_t *bytes, size_t most, size_t *length);
const char *state_unpack(const struct kvm *k, struct whole_state *all, const uint8_t *bytes, size_t length);
void state_free(struct whole_state *all);

#endif
