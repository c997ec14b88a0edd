/* What is reported of a guest that KVM ends. */
#ifndef REPORT_H
#define REPORT_H

#include "kvm.h"

/* Prints why the guest came out, by the name of KVM's reason, and where its processor is: registers, and the bytes
 * at RIP. */
void report(const struct kvm *k);

#endif
