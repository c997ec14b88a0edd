/* All that the kernel's KVM does for a guest: its virtual machine, its processor, and the log of the pages that it
 * writes. Read it beside the kernel's Documentation/virt/kvm/api.rst. Calls that can fail return what failed, or
 * NULL. */
#ifndef KVM_H
#define KVM_H

#include <linux/kvm.h>
#include <stddef.h>
#include <stdint.h>

struct kvm {
    int system, vm, cpu;        /* descriptors; of a machine or a processor that is not made -1 */
    struct kvm_run *run;
    size_t run_size, xsave_size;
    uint8_t *ram;
    uint64_t length;
    struct kvm_cpuid2 *cpuid;   /* what the guest is offered */
    uint32_t khz;               /* the frequency of its TSC; 0: that of the host */
    int sets_frequency;         /* the host can give a guest another one than its own */
    uint32_t told, known;       /* bit n: the level of interrupt n that KVM was told, and whether it was */
    int log_is_on;
    int log_keeps;              /* reading the log leaves its pages there, until they are handed back to be cleared */
    uint64_t *log;              /* the log as it was read the last time */
    size_t log_words;
};

/* Opens /dev/kvm, and looks that it has what is needed: Linux 5.17 does. */
const char *kvm_open(struct kvm *k);

/* Makes a virtual machine over this RAM, with its interrupt controllers and its timer, but without a processor. */
const char *kvm_make(struct kvm *k, uint8_t *ram, uint64_t length);

/* Whether this kernel can take performance counters away from a guest, as kvm_make does where it can. */
int kvm_hides_counters(const struct kvm *k);

/* Makes its processor, with k->cpuid and k->khz. A guest that arrives gets it as late as can be: KVM takes a TSC that
 * is set soon after for an attempt to synchronize it with that of other processors. */
const char *kvm_make_cpu(struct kvm *k);

/* The virtual machine is gone, with its processor. What k->cpuid, k->khz and the log's state say stays. */
void kvm_end(struct kvm *k);

/* Runs the guest until it comes out. False where it was called out: then no access of its is half done. */
int kvm_run_guest(struct kvm *k);

/* The log of the pages that the guest writes is on while it is moved. */
const char *kvm_log(struct kvm *k, int on);
/* Sets the bits of the pages that the log has, of `count` from `first` on, whole words both, and clears these pages in
 * the log. A kernel that cannot clear some alone clears all, and sets the bits of all. The guest may run. */
const char *kvm_fetch_log(struct kvm *k, uint64_t *bits, uint64_t first, uint64_t count);

/* Interrupt n gets the level of bit n. KVM is informed of changes alone, and once of each line: a level is no part of
 * what it saves. */
void kvm_set_lines(struct kvm *k, uint32_t lines, uint32_t mask);

/* ioctl, once more where a signal came between. */
int kvm_call(int of, unsigned long request, void *argument);

/* The reason of a call that failed: its name, and what errno says. */
const char *kvm_reason(const char *name);

#endif
