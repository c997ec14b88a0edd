/* The state of a guest, whose every part has values that those of a new processor are not, is set in a second virtual
 * machine and read there again. Each part that is left out, and MSRs that come before the LAPIC, have to be seen by
 * that. Then states and first frames of a move are changed at random: they are taken or refused, and nothing worse. */
#define _DEFAULT_SOURCE
#include <stdarg.h>
#include <stdio.h>
#include <stdlib.h>
#include <string.h>
#include <sys/mman.h>
#include <time.h>
#include "cpuid.h"
#include "host.h"
#include "msrs.h"
#include "say.h"
#include "state.h"

enum {
    LENGTH = 2 * MIB, CHANGED = 200, DEADLINE = 0x6e0, TSC = 0x10, KERNEL_GS = 0xc0000102, A_CLOCK_S = 5,
    WRONG_MAX = 20
};
enum { HYPERV_COUNT = 0x40000020, ARCH_CAPABILITIES = 0x10a, COUNTER_OF_INTEL = 0x186, COUNTER_OF_AMD = 0xc0010000 };
enum { PIN = 5, SELECTS = 0x530076 };
enum {
    PAUSE_NS = 200000000, MILLION = 1000000, XMM0 = 160, XSTATE_BV = 512, LVT_TIMER = 0x320, SPURIOUS = 0xf0,
    REQUESTS = 0x200, VECTOR = 0x61
};
#define CLOCK UINT64_C(1000000000000000)

static struct host host;
static uint8_t *ram;
static int count_wrong;

void watch_guest(struct kvm_run *run)
{
    (void)run;
}

void fail(const char *format, ...)
{
    va_list values;

    va_start(values, format);
    vfprintf(stderr, format, values);
    va_end(values);
    fprintf(stderr, "\n");
    exit(1);
}

static void wrong(const char *what, const char *why)
{
    if (count_wrong++ < WRONG_MAX) fprintf(stderr, "state: %s: %s\n", what, why);
}

static void expect(int is_right, const char *what)
{
    if (!is_right) fail("state: %s", what);
}

static struct kvm *kvm(void)
{
    return &host.guest.kvm;
}

static void make(int with_cpu)
{
    kvm_end(kvm());
    expect(kvm_make(kvm(), ram, LENGTH) == NULL, "no virtual machine");
    if (with_cpu) expect(kvm_make_cpu(kvm()) == NULL, "no processor");
}

/* The area of XSAVE has the register XMM0, and says that it has it. The LAPIC's timer waits for a deadline, and an
 * interrupt is requested. */
static void change_arrays(struct whole_state *all)
{
    struct state *s = &all->state;
    uint32_t timer = 0x40000 | VECTOR, enabled = 0x1ff, requested = 1 << (VECTOR % 32);
    uint64_t has = 3;

    memset(all->xsave + XMM0, 0x5a, 16);
    memcpy(all->xsave + XSTATE_BV, &has, sizeof has);
    memcpy(s->lapic.regs + LVT_TIMER, &timer, sizeof timer);
    memcpy(s->lapic.regs + SPURIOUS, &enabled, sizeof enabled);
    memcpy(s->lapic.regs + REQUESTS + VECTOR / 32 * 16, &requested, sizeof requested);
    for (uint32_t i = 0; i < s->count_msrs; i++) {
        if (all->msrs[i].index == DEADLINE) all->msrs[i].data = UINT64_C(1) << 60;
        if (all->msrs[i].index == KERNEL_GS) all->msrs[i].data = 0x123456789000;
    }
}

static void change(struct whole_state *all)
{
    struct state *s = &all->state;

    change_arrays(all);
    s->regs.rax = UINT64_C(0x123456789abcdef0);
    s->regs.rip = 0x1234;
    s->sregs.cr2 = 0x7654321;
    s->sregs.gdt.limit = 0x77;
    s->xcrs.xcrs[0].value = 3;
    s->chips[0].chip.pic.imr = 0xa5;
    s->chips[1].chip.pic.imr = 0x5a;
    s->chips[2].chip.ioapic.redirtbl[5].fields.vector = VECTOR;
    s->chips[2].chip.ioapic.redirtbl[5].fields.trig_mode = 1;
    s->pit.channels[0].count = 0x4321;
    s->pit.channels[0].mode = 2;
    s->clock.clock = CLOCK;
    s->has_tsc = 0;
    s->debugregs.db[0] = 0x1000;
    s->debugregs.db[3] = 0x3000;
    s->events.nmi.masked = 1;
    s->mp_state.mp_state = KVM_MP_STATE_HALTED;
}

static void read_all(struct whole_state *all)
{
    const char *why;

    memset(all, 0, sizeof *all);
    why = parts_read(kvm(), all);
    if (why != NULL) fail("state: %s", why);
}

/* What goes on by itself, and is left out of the comparison. The clock has to be near. */
static void level(struct whole_state *all)
{
    struct state *s = &all->state;

    for (int i = 0; i < 3; i++) s->pit.channels[i].count_load_time = 0;
    s->clock = (struct kvm_clock_data){.clock = s->clock.clock / 1000000000 / A_CLOCK_S};
    s->tsc = 0;
    for (uint32_t i = 0; i < s->count_msrs; i++)
        if (all->msrs[i].index == TSC || all->msrs[i].index == HYPERV_COUNT) all->msrs[i].data = 0;
}

static const char *name_of_msr(const struct kvm_msr_entry *entry)
{
    static char name[60];

    snprintf(name, sizeof name, "KVM_SET_MSRS: 0x%x", (unsigned)entry->index);
    return name;
}

/* The first part in which two states differ, or NULL. */
static const char *difference(const struct whole_state *one, const struct whole_state *other)
{
    const uint8_t *a = (const uint8_t *)&one->state, *b = (const uint8_t *)&other->state;

    if (memcmp(one->xsave, other->xsave, one->state.xsave_size) != 0) return "KVM_SET_XSAVE";
    for (uint32_t i = 0; i < one->state.count_msrs; i++)
        if (memcmp(&one->msrs[i], &other->msrs[i], sizeof *one->msrs) != 0) return name_of_msr(&one->msrs[i]);
    for (int i = 0; i < PARTS; i++) {
        size_t end = sizeof(struct state);

        if (STATE_PARTS[i].at == 0) continue;
        for (int k = 0; k < PARTS; k++)
            if (STATE_PARTS[k].at > STATE_PARTS[i].at && STATE_PARTS[k].at < end) end = STATE_PARTS[k].at;
        if (memcmp(a + STATE_PARTS[i].at, b + STATE_PARTS[i].at, end - STATE_PARTS[i].at) != 0)
            return STATE_PARTS[i].name;
    }
    return NULL;
}

static void copy(const struct whole_state *from, struct whole_state *to)
{
    uint8_t bytes[BODY_MAX];
    size_t length = 0;

    expect(state_pack(from, bytes, sizeof bytes, &length) == NULL, "a state does not fit");
    expect(state_unpack(kvm(), to, bytes, length) == NULL, "a state is not what was written");
}

/* Sets the state with these parts in a new machine, and says in which part it differs when it is read there. */
static const char *set_elsewhere(const struct whole_state *state, const struct part *parts, int count)
{
    struct whole_state set, got, wanted;
    const char *why;

    make(1);
    copy(state, &set);
    copy(state, &wanted);
    why = parts_set(kvm(), &set, parts, count);
    if (why != NULL) fail("state: %s", why);
    read_all(&got);
    level(&got);
    level(&wanted);
    why = difference(&got, &wanted);
    state_free(&set);
    state_free(&got);
    state_free(&wanted);
    return why;
}

/* All parts but the one of this number. */
static int without(int left_out, struct part parts[PARTS])
{
    int count = 0;

    for (int i = 0; i < PARTS; i++)
        if (i != left_out) parts[count++] = STATE_PARTS[i];
    return count;
}

static void try_orders(const struct whole_state *state)
{
    struct part parts[PARTS];
    const char *why = set_elsewhere(state, STATE_PARTS, PARTS);
    int lapic = 0, count = 0;

    if (why != NULL) wrong("all parts", why);
    for (int i = 0; i < PARTS; i++) {
        if (STATE_PARTS[i].set == KVM_SET_LAPIC) lapic = i;
        if (STATE_PARTS[i].set == KVM_SET_DEVICE_ATTR) continue;
        if (set_elsewhere(state, parts, without(i, parts)) == NULL)
            wrong(STATE_PARTS[i].name, "it is left out, and nothing shows it");
    }
    count = without(lapic, parts);
    parts[count] = STATE_PARTS[lapic];
    if (set_elsewhere(state, parts, PARTS) == NULL) wrong("MSRs before the LAPIC", "nothing shows it");
}

static uint64_t draw(void)
{
    static uint64_t state = 88172645463325252;

    state ^= state << 13;
    state ^= state >> 7;
    return state ^= state << 17;
}

static size_t spoil(uint8_t *bytes, size_t length)
{
    for (int n = (int)(draw() % 8); n >= 0; n--) bytes[draw() % length] = (uint8_t)draw();
    return draw() % 16 == 0 ? draw() % length : length;
}

static void change_states(const struct whole_state *state)
{
    static uint8_t bytes[BODY_MAX];
    size_t length = 0;
    int taken = 0;

    for (int i = 0; i < CHANGED; i++) {
        expect(state_pack(state, bytes, sizeof bytes, &length) == NULL, "a state does not fit");
        length = spoil(bytes, length);
        make(0);
        taken += state_read(&host, bytes, length) == NULL;
    }
    printf("state: of %d changed states %d were taken\n", CHANGED, taken);
}

static void change_facts(void)
{
    static uint8_t bytes[BODY_MAX];
    size_t length;
    int taken = 0;

    for (int i = 0; i < CHANGED; i++) {
        length = spoil(bytes, facts_write(&host, bytes));
        taken += facts_check(&host, bytes, length) == NULL;
    }
    printf("state: of %d changed first frames %d were taken\n", CHANGED, taken);
}

/* Some hosts answer that the TSC was set, and it goes on as before. */
static int tsc_can_be_set(void)
{
    struct stopped_clock before, after;

    expect(clock_stop(kvm(), &before) == NULL, "the clock cannot be read");
    if (!before.has_tsc || !tsc_set(kvm(), &before.clock, before.tsc - kvm()->khz * UINT64_C(1000))) return 0;
    expect(clock_stop(kvm(), &after) == NULL, "the clock cannot be read");
    return after.has_tsc && after.tsc < before.tsc;
}

/* The clock and the TSC stand while a guest is paused, for longer than the calls that set them take. */
static void stop_and_start(void)
{
    struct stopped_clock before, after;
    struct timespec pause = {.tv_nsec = PAUSE_NS};
    double passed, ticks;

    expect(clock_stop(kvm(), &before) == NULL, "the clock does not stop");
    nanosleep(&pause, NULL);
    after = before;
    expect(clock_start(kvm(), &after) == NULL, "the clock does not start");
    expect(clock_stop(kvm(), &after) == NULL, "the clock does not stop again");
    passed = (double)(int64_t)(after.clock.clock - before.clock.clock) / MILLION;
    ticks = after.has_tsc ? (double)(int64_t)(after.tsc - before.tsc) / kvm()->khz : 0;
    printf("state: a pause of %d ms took %.2f ms of the clock, %.2f of the TSC\n", PAUSE_NS / MILLION, passed, ticks);
    expect(passed >= 0 && passed < PAUSE_NS / MILLION / 2, "the clock went on while it stood");
    if (!tsc_can_be_set()) puts("state: skipped: the TSC of this host cannot be set");
    else expect(ticks > -1 && ticks < PAUSE_NS / MILLION / 2, "the TSC went on while it stood");
}

/* The level of a line, given to KVM, reaches the LAPIC through an unmasked pin, and once more in a machine that is
 * made anew: the vector waits in its register of requests. */
static void tell_lines(void)
{
    struct kvm_irqchip chip = {.chip_id = 2};
    struct kvm_lapic_state lapic;
    uint32_t enabled = 0x1ff, requests;

    make(1);
    expect(kvm_call(kvm()->vm, KVM_GET_IRQCHIP, &chip) == 0 && kvm_call(kvm()->cpu, KVM_GET_LAPIC, &lapic) == 0,
           "no LAPIC");
    chip.chip.ioapic.redirtbl[PIN].bits = 1 << 15 | VECTOR;
    memcpy(lapic.regs + SPURIOUS, &enabled, sizeof enabled);
    expect(kvm_call(kvm()->vm, KVM_SET_IRQCHIP, &chip) == 0 && kvm_call(kvm()->cpu, KVM_SET_LAPIC, &lapic) == 0,
           "no LAPIC is set");
    for (uint32_t is_high = 0; is_high < 2; is_high++) {
        kvm_set_lines(kvm(), is_high << PIN, UINT32_C(1) << PIN);
        expect(kvm_call(kvm()->cpu, KVM_GET_LAPIC, &lapic) == 0, "no LAPIC is read");
        memcpy(&requests, lapic.regs + REQUESTS + VECTOR / 32 * 16, sizeof requests);
        if ((requests >> VECTOR % 32 & 1) != is_high)
            wrong("a line", is_high ? "its interrupt is not requested" : "its interrupt is requested");
    }
}

/* A guest that was told of more than this host has is refused by its first frame, and by its state. */
static void tell_more(const struct whole_state *state)
{
    static uint8_t bytes[BODY_MAX];
    struct whole_state told;
    struct features *here = &host.guest.features;
    size_t length = 0, size;
    int count = 0;

    copy(state, &told);
    for (uint32_t i = 0; i < told.state.count_msrs; i++)
        if (told.msrs[i].index == ARCH_CAPABILITIES) told.msrs[i].data = UINT32_MAX, count++;
    expect(state_pack(&told, bytes, sizeof bytes, &length) == NULL, "a state does not fit");
    make(0);
    if (count > 0 && state_read(&host, bytes, length) == NULL)
        wrong("a state", "it tells of more than this host has, and is taken");
    state_free(&told);
    make(1);
    length = facts_write(&host, bytes);
    if (facts_check(&host, bytes, length) != NULL) wrong("a first frame", "this host's own is refused");
    for (uint32_t i = 0; i < here->count; i++) here->all[i].data = 0;
    size = facts_write(&host, bytes);
    if (count > 0 && facts_check(&host, bytes, size) == NULL)
        wrong("a first frame", "it tells of more than this host has, and is taken");
    expect(features_offer(kvm(), here) == NULL, "no feature MSRs");
    if (count == 0) puts("state: skipped: this host has no feature MSR");
}

/* A guest has no counter that it could set. */
static void set_counters(void)
{
    static const uint32_t NUMBERS[] = {COUNTER_OF_INTEL, COUNTER_OF_AMD};

    make(1);
    if (!kvm_hides_counters(kvm())) {
        puts("state: skipped: this KVM cannot take performance counters away");
        return;
    }
    for (int i = 0; i < 2; i++) {
        struct {
            uint32_t count, pad;
            struct kvm_msr_entry entry;
        } one = {1, 0, {.index = NUMBERS[i], .data = SELECTS}};
        int is_set = kvm_call(kvm()->cpu, KVM_SET_MSRS, &one) == 1 && kvm_call(kvm()->cpu, KVM_GET_MSRS, &one) == 1;

        if (is_set && one.entry.data == SELECTS) wrong("a counter", "it is there");
    }
}

int main(void)
{
    struct whole_state state, first;
    const char *why = kvm_open(kvm());

    ram = mmap(NULL, LENGTH, PROT_READ | PROT_WRITE, MAP_PRIVATE | MAP_ANONYMOUS, -1, 0);
    if (why != NULL) fail("state: %s", why);
    kvm()->cpuid = cpuid_offer(kvm());
    expect(ram != MAP_FAILED && kvm()->cpuid != NULL, "no memory");
    expect(features_offer(kvm(), &host.guest.features) == NULL, "no feature MSRs");
    make(1);
    expect(state_prepare(&host) == NULL, "no list of MSRs");
    read_all(&first);
    change(&first);
    why = parts_set(kvm(), &first, STATE_PARTS, PARTS);
    if (why != NULL) fail("state: %s", why);
    read_all(&state);
    printf("state: %zu bytes, %u of them MSRs\n",
           sizeof state.state + state.state.xsave_size + state.state.count_msrs * sizeof *state.msrs,
           (unsigned)(state.state.count_msrs * sizeof *state.msrs));
    stop_and_start();
    try_orders(&state);
    tell_lines();
    tell_more(&state);
    set_counters();
    change_states(&state);
    change_facts();
    kvm_end(kvm());
    free(kvm()->cpuid);
    free(kvm()->log);
    state_free(&first);
    state_free(&state);
    return count_wrong != 0;
}
