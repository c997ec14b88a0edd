/* What a move asks of a guest under KVM: the facts of the first frame, and the state of the last one. */
#include <stdlib.h>
#include <string.h>
#include "cpuid.h"
#include "feature_msrs.h"
#include "host.h"
#include "msrs.h"
#include "state.h"

/* KVM takes frequencies that differ by so many millionths for the same one. */
enum { TOLERANCE = 250, MILLION = 1000000 };

/* The facts: the frequency of the TSC in kHz, the number of entries of CPUID and of feature MSRs, and these as
 * KVM has them. */
struct facts {
    uint32_t khz, count, count_features;
};

size_t facts_write(struct host *h, uint8_t bytes[FACTS_MAX])
{
    struct kvm *k = &h->guest.kvm;
    struct features told;
    struct facts facts = {k->khz, k->cpuid->nent, 0};
    size_t length = facts.count * sizeof *k->cpuid->entries, features;

    features_read(k, &h->guest.features, &told);
    facts.count_features = told.count;
    features = told.count * sizeof *told.all;
    memcpy(bytes, &facts, sizeof facts);
    memcpy(bytes + sizeof facts, k->cpuid->entries, length);
    memcpy(bytes + sizeof facts + length, told.all, features);
    return sizeof facts + length + features;
}

static int is_same_frequency(uint64_t one, uint64_t other)
{
    uint64_t difference = one > other ? one - other : other - one;

    return difference * MILLION <= other * TOLERANCE;
}

/* Makes a virtual machine without RAM, and a processor as the guest's, to see what KVM says of it. */
static const char *try_processor(const struct kvm *k, struct kvm_cpuid2 *cpuid, uint32_t khz)
{
    struct kvm own = *k;
    const char *why;

    own.cpuid = cpuid;
    own.khz = 0;
    own.log = NULL;
    why = kvm_make(&own, NULL, 0);
    if (why == NULL) why = kvm_make_cpu(&own);
    if (why == NULL && !own.sets_frequency && !is_same_frequency(khz, own.khz))
        why = "the TSC of this host has another frequency";
    kvm_end(&own);
    free(own.log);
    return why;
}

/* Whether the first frame has what it says. */
static int is_whole(const struct facts *facts, size_t length)
{
    if (facts->count > CPUID_MOST || facts->count_features > FEATURES_MOST || facts->khz == 0) return 0;
    return length == sizeof *facts + facts->count * sizeof(struct kvm_cpuid_entry2) +
                         facts->count_features * sizeof(struct kvm_msr_entry);
}

/* This CPUID, and what lies behind it, are a guest's that this host can have. */
static const char *compare(struct host *h, const struct facts *facts, struct kvm_cpuid2 *cpuid, const uint8_t *behind)
{
    struct features told;
    const char *why = cpuid_compare(cpuid, h->guest.kvm.cpuid);

    memcpy(told.all, behind, facts->count_features * sizeof *told.all);
    if (why == NULL) why = features_compare(told.all, facts->count_features, &h->guest.features, 1);
    return why == NULL ? try_processor(&h->guest.kvm, cpuid, facts->khz) : why;
}

const char *facts_check(struct host *h, const uint8_t *bytes, size_t length)
{
    struct kvm *k = &h->guest.kvm;
    struct facts facts;
    struct kvm_cpuid2 *cpuid;
    const char *why;
    size_t size;

    if (length < sizeof facts) return "its first frame is too short";
    memcpy(&facts, bytes, sizeof facts);
    if (!is_whole(&facts, length)) return "its first frame has no CPUID";
    size = facts.count * sizeof *cpuid->entries;
    cpuid = calloc(1, sizeof *cpuid + size);
    if (cpuid == NULL) return "there is no memory for its CPUID";
    cpuid->nent = facts.count;
    memcpy(cpuid->entries, bytes + sizeof facts, size);
    why = compare(h, &facts, cpuid, bytes + sizeof facts + size);
    free(why == NULL ? k->cpuid : cpuid);
    if (why != NULL) return why;
    k->cpuid = cpuid;
    k->khz = facts.khz;
    return NULL;
}

const char *state_prepare(struct host *h)
{
    return msrs_prepare(&h->guest.kvm);
}

/* The clock that a state has is that at which the guest was paused. */
static void tell_clock(const struct stopped_clock *clock, struct state *state)
{
    if (!clock->is_stopped || clock->has_tsc != (int)state->has_tsc) return;
    state->clock = clock->clock;
    state->tsc = clock->tsc;
}

const char *state_write(struct host *h, uint8_t bytes[BODY_MAX], size_t *length)
{
    static struct whole_state all;
    const char *why;

    memset(&all, 0, sizeof all);
    all.state.uart = h->uart;
    all.state.typed = h->typed;
    why = parts_read(&h->guest.kvm, &all);
    tell_clock(&h->guest.clock, &all.state);
    if (why == NULL) why = state_pack(&all, bytes, BODY_MAX, length);
    state_free(&all);
    return why;
}

/* The processor is made only here: see kvm_make_cpu. Its feature MSRs are compared as in the first frame: KVM
 * takes any value. */
const char *state_read(struct host *h, const uint8_t *bytes, size_t length)
{
    static struct whole_state all;
    struct kvm *k = &h->guest.kvm;
    const char *why = state_unpack(k, &all, bytes, length);

    if (why == NULL) why = features_compare(all.msrs, all.state.count_msrs, &h->guest.features, 0);
    if (why == NULL) why = kvm_make_cpu(k);
    if (why == NULL) why = parts_set(k, &all, STATE_PARTS, PARTS);
    state_free(&all);
    if (why != NULL) return why;
    h->uart = all.state.uart;
    h->typed = all.state.typed;
    h->guest.clock = (struct stopped_clock){1, (int)all.state.has_tsc, all.state.clock, all.state.tsc};
    watch_guest(k->run);
    return NULL;
}
