#define _DEFAULT_SOURCE
#include <stdio.h>
#include <stdlib.h>
#include <string.h>
#include "msrs.h"

/* How many one call takes; and the number of the TSC. */
enum { A_CALL = 64, TSC = 0x10, KHZ_MS = 1000000 };

struct some_msrs {
    uint32_t count, pad;
    struct kvm_msr_entry entries[A_CALL];
};

static uint32_t *known, count_known;

static int is_there(struct kvm *k, uint32_t number)
{
    struct some_msrs one = {.count = 1, .entries[0].index = number};

    return kvm_call(k->cpu, KVM_GET_MSRS, &one) == 1;
}

/* The list of KVM says how long it is where it is asked for none. It may have some that this processor lacks. */
const char *msrs_prepare(struct kvm *k)
{
    struct kvm_msr_list none = {.nmsrs = 0}, *list;

    kvm_call(k->system, KVM_GET_MSR_INDEX_LIST, &none);
    list = calloc(1, sizeof *list + none.nmsrs * sizeof *list->indices);
    if (list == NULL) return "there is no memory for the list of MSRs";
    list->nmsrs = none.nmsrs;
    free(known);
    known = NULL;
    count_known = 0;
    if (kvm_call(k->system, KVM_GET_MSR_INDEX_LIST, list) >= 0) known = calloc(list->nmsrs + 1, sizeof *known);
    for (uint32_t i = 0; known != NULL && i < list->nmsrs; i++)
        if (is_there(k, list->indices[i])) known[count_known++] = list->indices[i];
    free(list);
    return known == NULL ? kvm_reason("KVM_GET_MSR_INDEX_LIST") : NULL;
}

uint32_t msrs_count(void)
{
    return count_known;
}

static const char *reason_of(const char *what, const struct kvm_msr_entry *entry)
{
    static char reason[120];

    snprintf(reason, sizeof reason, "the MSR 0x%x %s", (unsigned)entry->index, what);
    return reason;
}

const char *msrs_read(struct kvm *k, struct kvm_msr_entry *all, uint32_t count)
{
    struct some_msrs some = {.count = 0};

    for (uint32_t from = 0; from < count; from += some.count) {
        int got;

        some.count = count - from < A_CALL ? count - from : A_CALL;
        for (uint32_t i = 0; i < some.count; i++) some.entries[i] = (struct kvm_msr_entry){.index = known[from + i]};
        got = kvm_call(k->cpu, KVM_GET_MSRS, &some);
        if (got < 0) return kvm_reason("KVM_GET_MSRS");
        if ((uint32_t)got < some.count) return reason_of("cannot be read any more", &some.entries[got]);
        memcpy(all + from, some.entries, some.count * sizeof *all);
    }
    return NULL;
}

/* Some registers can be read and not be set, and have the same value everywhere. */
static int has_already(struct kvm *k, const struct kvm_msr_entry *entry)
{
    struct some_msrs one = {.count = 1, .entries[0].index = entry->index};

    return kvm_call(k->cpu, KVM_GET_MSRS, &one) == 1 && one.entries[0].data == entry->data;
}

/* KVM_SET_MSRS stops at the first that it does not take, and says how many it took. */
const char *msrs_set(struct kvm *k, const struct kvm_msr_entry *all, uint32_t count, int tsc_is_set)
{
    uint32_t from = 0;

    while (from < count) {
        struct some_msrs some = {.count = 0};
        int taken = 0;

        if (tsc_is_set && all[from].index == TSC) {
            from++;
            continue;
        }
        while (some.count < A_CALL && from + some.count < count && !(tsc_is_set && all[from + some.count].index == TSC))
            some.count++;
        memcpy(some.entries, all + from, some.count * sizeof *all);
        taken = kvm_call(k->cpu, KVM_SET_MSRS, &some);
        if (taken < 0) return kvm_reason("KVM_SET_MSRS");
        from += (uint32_t)taken;
        if ((uint32_t)taken == some.count) continue;
        if (!has_already(k, &all[from])) return reason_of("is not taken with the value that it has", &all[from]);
        from++;
    }
    return NULL;
}

static int offset_of(struct kvm *k, unsigned long request, uint64_t *offset)
{
    struct kvm_device_attr attribute = {
        .group = KVM_VCPU_TSC_CTRL, .attr = KVM_VCPU_TSC_OFFSET, .addr = (uint64_t)(uintptr_t)offset};

    return kvm_call(k->cpu, request, &attribute) == 0;
}

int tsc_read(struct kvm *k, const struct kvm_clock_data *clock, uint64_t *tsc)
{
    uint64_t offset = 0;

    *tsc = 0;
    if (!(clock->flags & KVM_CLOCK_HOST_TSC) || !offset_of(k, KVM_GET_DEVICE_ATTR, &offset)) return 0;
    *tsc = clock->host_tsc + offset;
    return 1;
}

int tsc_set(struct kvm *k, const struct kvm_clock_data *clock, uint64_t tsc)
{
    struct kvm_clock_data now = {.flags = 0};
    uint64_t offset;

    if (kvm_call(k->vm, KVM_GET_CLOCK, &now) < 0 || !(now.flags & KVM_CLOCK_HOST_TSC)) return 0;
    offset = tsc + (uint64_t)((double)(now.clock - clock->clock) * k->khz / KHZ_MS) - now.host_tsc;
    return offset_of(k, KVM_SET_DEVICE_ATTR, &offset);
}

const char *clock_stop(struct kvm *k, struct stopped_clock *s)
{
    *s = (struct stopped_clock){.is_stopped = 0};
    if (kvm_call(k->vm, KVM_GET_CLOCK, &s->clock) < 0) return kvm_reason("KVM_GET_CLOCK");
    s->has_tsc = tsc_read(k, &s->clock, &s->tsc);
    s->clock.flags = 0;
    s->is_stopped = 1;
    return NULL;
}

/* KVM_KVMCLOCK_CTRL fails for a guest without KVM's clock. */
const char *clock_start(struct kvm *k, struct stopped_clock *s)
{
    if (!s->is_stopped) return NULL;
    s->is_stopped = 0;
    if (kvm_call(k->vm, KVM_SET_CLOCK, &s->clock) < 0) return kvm_reason("KVM_SET_CLOCK");
    if (s->has_tsc && !tsc_set(k, &s->clock, s->tsc)) return "the guest's TSC goes on by its pause";
    kvm_call(k->cpu, KVM_KVMCLOCK_CTRL, NULL);
    return NULL;
}
