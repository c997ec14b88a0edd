#define _DEFAULT_SOURCE
#include <stdio.h>
#include <stdlib.h>
#include <string.h>
#include "msrs.h"
#include "state.h"

enum { STATE_VERSION = 1, CHIPS = 3 };

static const char NOT_WHOLE[] = "the state of the processor and the board has another length",
                  NO_MEMORY[] = "there is no memory for the state";

#define AT(field) offsetof(struct state, field)
#define PART(field, request, of_vm) {"KVM_SET_" #request, KVM_GET_##request, KVM_SET_##request, AT(field), of_vm}

/* In the order in which they are set; they are read from the last to the first. Why so:
 * - SREGS has the LAPIC's base and mode, which LAPIC needs.
 * - CLOCK comes before the MSRs: to set that of the wall clock writes the time of the boot into RAM, and computes it
 *   from the clock.
 * - LAPIC comes before the MSRs: the TSC's deadline is taken only where the LAPIC's timer is in that mode. Without it
 *   the guest continues to run, but its timer is dead.
 * - VCPU_EVENTS comes after what may bring about or clear an exception, and MP_STATE last: a guest that waits in HLT
 *   is not woken by the calls before it. To read MP_STATE may change the others, as it takes INIT and SIPI, so it is
 *   read first. */
const struct part STATE_PARTS[PARTS] = {
    PART(sregs, SREGS2, 0),
    PART(regs, REGS, 0),
    {"KVM_SET_XSAVE", KVM_GET_XSAVE2, KVM_SET_XSAVE, 0, 0},
    PART(xcrs, XCRS, 0),
    PART(chips[0], IRQCHIP, 1),
    PART(chips[1], IRQCHIP, 1),
    PART(chips[2], IRQCHIP, 1),
    {"KVM_SET_PIT2", KVM_GET_PIT2, KVM_SET_PIT2, AT(pit), 1},
    PART(clock, CLOCK, 1),
    PART(lapic, LAPIC, 0),
    {"KVM_SET_DEVICE_ATTR", 0, KVM_SET_DEVICE_ATTR, 0, 0},   /* the TSC, by its distance from the host's */
    {"KVM_SET_MSRS", KVM_GET_MSRS, KVM_SET_MSRS, 0, 0},
    PART(debugregs, DEBUGREGS, 0),
    PART(events, VCPU_EVENTS, 0),
    PART(mp_state, MP_STATE, 0),
};

static void *place_of(const struct part *p, struct whole_state *all)
{
    return p->set == KVM_SET_XSAVE ? (void *)all->xsave : (uint8_t *)&all->state + p->at;
}

static const char *read_part(struct kvm *k, struct whole_state *all, const struct part *p)
{
    if (p->set == KVM_SET_DEVICE_ATTR) return NULL;
    if (p->set == KVM_SET_MSRS) return msrs_read(k, all->msrs, all->state.count_msrs);
    return kvm_call(p->is_of_vm ? k->vm : k->cpu, p->get, place_of(p, all)) < 0 ? kvm_reason(p->name) : NULL;
}

const char *parts_read(struct kvm *k, struct whole_state *all)
{
    struct state *s = &all->state;
    const char *why = NULL;

    s->version = STATE_VERSION;
    s->xsave_size = (uint32_t)k->xsave_size;
    s->count_msrs = msrs_count();
    all->xsave = calloc(1, s->xsave_size);
    all->msrs = calloc(s->count_msrs + 1, sizeof *all->msrs);
    if (all->xsave == NULL || all->msrs == NULL) return NO_MEMORY;
    for (uint32_t i = 0; i < CHIPS; i++) s->chips[i].chip_id = i;
    for (int i = PARTS - 1; i >= 0 && why == NULL; i--) why = read_part(k, all, &STATE_PARTS[i]);
    if (why == NULL) s->has_tsc = (uint32_t)tsc_read(k, &s->clock, &s->tsc);
    /* The guest's clock stands while it is paused: with other flags it would count the pause, and its TSC would
     * not. */
    s->clock.flags = 0;
    return why;
}

static const char *set_part(struct kvm *k, struct whole_state *all, const struct part *p)
{
    struct state *s = &all->state;

    if (p->set == KVM_SET_DEVICE_ATTR) {
        if (s->has_tsc) s->has_tsc = (uint32_t)tsc_set(k, &s->clock, s->tsc);
        return NULL;
    }
    if (p->set == KVM_SET_MSRS) return msrs_set(k, all->msrs, s->count_msrs, s->has_tsc);
    return kvm_call(p->is_of_vm ? k->vm : k->cpu, p->set, place_of(p, all)) < 0 ? kvm_reason(p->name) : NULL;
}

const char *parts_set(struct kvm *k, struct whole_state *all, const struct part *parts, int count)
{
    const char *why = NULL;

    for (int i = 0; i < count && why == NULL; i++) why = set_part(k, all, &parts[i]);
    return why;
}

const char *state_pack(const struct whole_state *all, uint8_t *bytes, size_t most, size_t *length)
{
    const struct state *s = &all->state;
    size_t msrs = s->count_msrs * sizeof *all->msrs;

    *length = sizeof *s + s->xsave_size + msrs;
    if (*length > most) return "the state of the processor does not fit into a frame";
    memcpy(bytes, s, sizeof *s);
    memcpy(bytes + sizeof *s, all->xsave, s->xsave_size);
    memcpy(bytes + sizeof *s + s->xsave_size, all->msrs, msrs);
    return NULL;
}

/* What KVM does not look at: numbers of chips, typed bytes. It looks at the values that it is given. */
static int is_sound(const struct state *s)
{
    for (uint32_t i = 0; i < CHIPS; i++)
        if (s->chips[i].chip_id != i) return 0;
    return s->uart.enabled < 16 && s->typed.count <= TYPED_MAX && s->clock.flags == 0;
}

const char *state_unpack(const struct kvm *k, struct whole_state *all, const uint8_t *bytes, size_t length)
{
    struct state *s = &all->state;
    size_t msrs;

    *all = (struct whole_state){.xsave = NULL};
    if (length < sizeof *s) return NOT_WHOLE;
    memcpy(s, bytes, sizeof *s);
    if (s->version != STATE_VERSION) return "the state of the processor and the board is of another version";
    if (s->xsave_size != k->xsave_size) return "the area of XSAVE has another size here";
    msrs = s->count_msrs * sizeof *all->msrs;
    if (length != sizeof *s + s->xsave_size + msrs) return NOT_WHOLE;
    if (!is_sound(s)) return "the state of the board has values that none can have";
    all->xsave = malloc(s->xsave_size);
    all->msrs = malloc(msrs + 1);
    if (all->xsave == NULL || all->msrs == NULL) return NO_MEMORY;
    memcpy(all->xsave, bytes + sizeof *s, s->xsave_size);
    memcpy(all->msrs, bytes + sizeof *s + s->xsave_size, msrs);
    return NULL;
}

void state_free(struct whole_state *all)
{
    free(all->xsave);
    free(all->msrs);
    all->xsave = NULL;
    all->msrs = NULL;
}
