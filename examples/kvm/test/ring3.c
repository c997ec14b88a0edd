/* In place of boot.c: the kernel of --kernel is no Linux but a guest of the tests, in 64 bits from its first
 * instruction on. The small guest runs in ring 3, so also where a KVM runs ring 0 slowly or not at all; with -DRING=0
 * it is that of interrupts.c, whose clock is far from that of a new one. RAM, the windows and the interrupt
 * controllers have the addresses that they have, by pages of 2 MiB, and ports are allowed. */
#define _DEFAULT_SOURCE
#include <errno.h>
#include <stdio.h>
#include <stdlib.h>
#include <string.h>
#include "../boot.h"
#include "host.h"
#include "say.h"

#ifndef RING
#define RING 3
#endif

enum { TOP = 0x10000, MIDDLE = 0x11000, LOW = 0x12000, WINDOW = 0x13000, STACK = 0x80000, START = 0x100000 };
enum { TABLE = 7, LARGE = 0x87, LARGE_SHIFT = 21, HUGE_SHIFT = 30, ENTRIES = 512, CODE = 8 | RING, DATA = 16 | RING };
enum { FLAGS = RING << 12 | 2, UNCACHED = 0x18, TOLD_AT = 0x90100 };

#define IOAPIC_AT UINT64_C(0xfec00000)
#define LAPIC_AT UINT64_C(0xfee00000)
#define CLOCK UINT64_C(1000000000000000)

static void map_identity(struct kvm *k)
{
    uint64_t *top = (uint64_t *)(void *)(k->ram + TOP), *middle = top + ENTRIES, *low = middle + ENTRIES,
             *window = low + ENTRIES;

    top[0] = MIDDLE | TABLE;
    middle[0] = LOW | TABLE;
    middle[WINDOWS_AT >> HUGE_SHIFT] = WINDOW | TABLE;
    for (uint64_t n = 0; n < ENTRIES && n << LARGE_SHIFT < k->length; n++) low[n] = n << LARGE_SHIFT | LARGE;
    window[(WINDOWS_AT >> LARGE_SHIFT) % ENTRIES] = WINDOWS_AT | LARGE;
    window[(IOAPIC_AT >> LARGE_SHIFT) % ENTRIES] = IOAPIC_AT | LARGE | UNCACHED;
    window[(LAPIC_AT >> LARGE_SHIFT) % ENTRIES] = LAPIC_AT | LARGE | UNCACHED;
}

/* What the guest of busy.c asks: RAM, the frequency of its TSC, and from the environment how many MB it writes a
 * second. */
static void tell_busy(struct kvm *k)
{
    const char *rate = getenv("BUSY_MB");
    uint64_t told[] = {k->length, k->khz, rate == NULL ? 0 : strtoul(rate, NULL, 10)};

    memcpy(k->ram + TOLD_AT, told, sizeof told);
}

/* A clock that a host which does not set it would not have, and a TSC likewise, where this host can set one. */
static void set_clock(struct host *h)
{
    struct stopped_clock *clock = &h->guest.clock, now;

    if (RING != 0 || clock_stop(&h->guest.kvm, clock) != NULL) return;
    clock->clock.clock += CLOCK;
    clock->tsc += CLOCK;
    if (clock_start(&h->guest.kvm, clock) != NULL || clock_stop(&h->guest.kvm, &now) != NULL || !now.has_tsc ||
        now.tsc < CLOCK)
        say("skipped: the TSC of this host cannot be set");
}

static void begin_in_ring(struct kvm *k)
{
    struct kvm_sregs2 s;
    struct kvm_regs r = {.rip = START, .rsp = STACK, .rflags = FLAGS};
    struct kvm_segment all = {
        .limit = UINT32_MAX, .selector = CODE, .present = 1, .type = 11, .dpl = RING, .s = 1, .l = 1, .g = 1};

    if (kvm_call(k->cpu, KVM_GET_SREGS2, &s) < 0) fail("%s", kvm_reason("KVM_GET_SREGS2"));
    s.cr3 = TOP;
    s.cr4 = 0x20;
    s.cr0 = 0x80050033;
    s.efer = 0x500;
    s.cs = all;
    all.type = 3;
    all.selector = DATA;
    all.l = 0;
    all.db = 1;
    s.ds = s.es = s.fs = s.gs = s.ss = all;
    if (kvm_call(k->cpu, KVM_SET_SREGS2, &s) < 0) fail("%s", kvm_reason("KVM_SET_SREGS2"));
    if (kvm_call(k->cpu, KVM_SET_REGS, &r) < 0) fail("%s", kvm_reason("KVM_SET_REGS"));
}

void load_guest(struct host *h)
{
    struct kvm *k = &h->guest.kvm;
    FILE *file = fopen(h->options.kernel, "rb");

    begin_anew(h);
    if (file == NULL) fail("%s: %s", h->options.kernel, strerror(errno));
    if (fread(k->ram + START, 1, k->length - START, file) == 0) fail("%s: there is nothing in it", h->options.kernel);
    fclose(file);
    if (RING == 0 && !kvm_hides_counters(k)) say("skipped: this KVM cannot take performance counters away");
    map_identity(k);
    tell_busy(k);
    begin_in_ring(k);
    set_clock(h);
}
