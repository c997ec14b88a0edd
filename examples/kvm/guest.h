/* The guest as this hypervisor has it: a virtual machine of KVM, and the thread that calls it out. */
#ifndef GUEST_H
#define GUEST_H

#include "feature_msrs.h"
#include "kvm.h"
#include "msrs.h"
#include "watch.h"

/* What the first frame of a move says of the hypervisor: another one than x86-64 under KVM is refused. */
enum { GUEST_KIND = 2 };
#define GUEST_NAME "KVM"

/* Pages are copied while the guest runs, for this long until the bytes that wait are taken. */
enum { COPIES_BESIDE = 1, COPY_NANOSECONDS = 50000 };

struct guest {
    struct kvm kvm;
    struct watch watch;
    struct features features;    /* this host's */
    struct stopped_clock clock;  /* while the guest is paused */
    int is_between;         /* it came out as it was called: no access of its is half done */
    int is_loaded;          /* the host wrote what it boots from, of which KVM's log knows nothing */
    uint64_t exits, called, ports;
};

#endif
