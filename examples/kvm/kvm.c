#define _DEFAULT_SOURCE
#include <errno.h>
#include <fcntl.h>
#include <stdio.h>
#include <stdlib.h>
#include <string.h>
#include <sys/ioctl.h>
#include <sys/mman.h>
#include <unistd.h>
#include "board.h"
#include "kvm.h"
#include "say.h"

/* Where the kernel keeps three pages and one of its own, which Intel's processors need: below 4 GiB, and no guest
 * looks there. */
enum { LOG_PIECE = 64 };
#define TSS_AT UINT64_C(0xfffbd000)
#define IDENTITY_MAP_AT UINT64_C(0xfffbc000)

/* Of Linux 5.18. */
#ifndef KVM_PMU_CAP_DISABLE
#define KVM_CAP_PMU_CAPABILITY 212
#define KVM_PMU_CAP_DISABLE 1
#endif

static const struct {
    int number;
    const char *name;
} NEEDED[] = {{KVM_CAP_IMMEDIATE_EXIT, "immediate_exit"},
              {KVM_CAP_IRQCHIP, "interrupt controllers"},
              {KVM_CAP_PIT_STATE2, "a PIT"},
              {KVM_CAP_SREGS2, "KVM_GET_SREGS2"},
              {KVM_CAP_XSAVE2, "KVM_GET_XSAVE2"},
              {KVM_CAP_XCRS, "KVM_GET_XCRS"},
              {KVM_CAP_DEBUGREGS, "KVM_GET_DEBUGREGS"},
              {KVM_CAP_VCPU_EVENTS, "KVM_GET_VCPU_EVENTS"},
              {KVM_CAP_MP_STATE, "KVM_GET_MP_STATE"},
              {KVM_CAP_ADJUST_CLOCK, "KVM_GET_CLOCK"},
              {KVM_CAP_GET_TSC_KHZ, "KVM_GET_TSC_KHZ"}};

int kvm_call(int of, unsigned long request, void *argument)
{
    int answer;

    do answer = ioctl(of, request, argument);
    while (answer < 0 && errno == EINTR);
    return answer;
}

const char *kvm_reason(const char *name)
{
    static char reason[120];

    snprintf(reason, sizeof reason, "%s: %s", name, strerror(errno));
    return reason;
}

static int capability(int of, int number)
{
    return kvm_call(of, KVM_CHECK_EXTENSION, (void *)(uintptr_t)number);
}

const char *kvm_open(struct kvm *k)
{
    static char lacks[80];

    *k = (struct kvm){.vm = -1, .cpu = -1};
    k->system = open("/dev/kvm", O_RDWR | O_CLOEXEC);
    if (k->system < 0) return kvm_reason("/dev/kvm");
    if (kvm_call(k->system, KVM_GET_API_VERSION, NULL) != KVM_API_VERSION) return "/dev/kvm has another version";
    for (size_t i = 0; i < sizeof NEEDED / sizeof *NEEDED; i++) {
        if (capability(k->system, NEEDED[i].number) > 0) continue;
        snprintf(lacks, sizeof lacks, "/dev/kvm lacks %s", NEEDED[i].name);
        return lacks;
    }
    k->sets_frequency = capability(k->system, KVM_CAP_TSC_CONTROL) > 0;
    return NULL;
}

/* All of RAM, and whether its writes are logged. To change the latter is allowed while there is a processor. */
static const char *set_slot(struct kvm *k)
{
    struct kvm_userspace_memory_region slot = {.guest_phys_addr = RAM_BASE, .memory_size = k->length,
                                               .userspace_addr = (uint64_t)(uintptr_t)k->ram,
                                               .flags = k->log_is_on ? KVM_MEM_LOG_DIRTY_PAGES : 0};

    return kvm_call(k->vm, KVM_SET_USER_MEMORY_REGION, &slot) < 0 ? kvm_reason("KVM_SET_USER_MEMORY_REGION") : NULL;
}

/* The interrupt controllers come before the processor, which gets its LAPIC from them. */
static const char *make_board(struct kvm *k)
{
    uint64_t map = IDENTITY_MAP_AT;
    struct kvm_pit_config pit = {.flags = KVM_PIT_SPEAKER_DUMMY};

    if (kvm_call(k->vm, KVM_SET_IDENTITY_MAP_ADDR, &map) < 0) return kvm_reason("KVM_SET_IDENTITY_MAP_ADDR");
    if (kvm_call(k->vm, KVM_SET_TSS_ADDR, (void *)(uintptr_t)TSS_AT) < 0) return kvm_reason("KVM_SET_TSS_ADDR");
    if (kvm_call(k->vm, KVM_CREATE_IRQCHIP, NULL) < 0) return kvm_reason("KVM_CREATE_IRQCHIP");
    return kvm_call(k->vm, KVM_CREATE_PIT2, &pit) < 0 ? kvm_reason("KVM_CREATE_PIT2") : NULL;
}

int kvm_hides_counters(const struct kvm *k)
{
    int flags = capability(k->vm, KVM_CAP_PMU_CAPABILITY);

    return flags > 0 && (flags & KVM_PMU_CAP_DISABLE);
}

/* No guest has performance counters, whose state moves with none: some can be used without a bit of CPUID. A kernel
 * before 5.18 cannot take them away. */
static void hide_counters(struct kvm *k)
{
    struct kvm_enable_cap off = {.cap = KVM_CAP_PMU_CAPABILITY, .args[0] = KVM_PMU_CAP_DISABLE};

    if (kvm_hides_counters(k)) kvm_call(k->vm, KVM_ENABLE_CAP, &off);
}

/* The log is read without being cleared, and begins with all pages, none of which is protected from writing before it
 * is cleared: so to switch it on, and to read it, costs little at once. */
static void let_log_keep(struct kvm *k)
{
    uint64_t flags = (uint64_t)capability(k->vm, KVM_CAP_MANUAL_DIRTY_LOG_PROTECT2) &
                     (KVM_DIRTY_LOG_MANUAL_PROTECT_ENABLE | KVM_DIRTY_LOG_INITIALLY_SET);
    struct kvm_enable_cap on = {.cap = KVM_CAP_MANUAL_DIRTY_LOG_PROTECT2, .args[0] = flags};

    k->log_keeps = (flags & KVM_DIRTY_LOG_MANUAL_PROTECT_ENABLE) && kvm_call(k->vm, KVM_ENABLE_CAP, &on) == 0;
}

const char *kvm_make(struct kvm *k, uint8_t *ram, uint64_t length)
{
    const char *why;
    int size;

    k->ram = ram;
    k->length = length;
    k->known = 0;
    if (k->log == NULL) {
        k->log_words = (length / PAGE + LOG_PIECE - 1) / LOG_PIECE;
        k->log = calloc(k->log_words + 1, sizeof *k->log);
        if (k->log == NULL) return "there is no memory for the log of RAM";
    }
    k->vm = kvm_call(k->system, KVM_CREATE_VM, NULL);
    if (k->vm < 0) return kvm_reason("KVM_CREATE_VM");
    size = capability(k->vm, KVM_CAP_XSAVE2);
    k->xsave_size = size > (int)sizeof(struct kvm_xsave) ? (size_t)size : sizeof(struct kvm_xsave);
    hide_counters(k);
    let_log_keep(k);
    why = make_board(k);
    return why == NULL && length > 0 ? set_slot(k) : why;
}

static const char *set_frequency(struct kvm *k)
{
    int khz = kvm_call(k->cpu, KVM_GET_TSC_KHZ, NULL);

    if (khz <= 0) return kvm_reason("KVM_GET_TSC_KHZ");
    if (k->khz == 0) k->khz = (uint32_t)khz;
    if (k->khz == (uint32_t)khz || !k->sets_frequency) return NULL;
    return kvm_call(k->cpu, KVM_SET_TSC_KHZ, (void *)(uintptr_t)k->khz) < 0 ? kvm_reason("KVM_SET_TSC_KHZ") : NULL;
}

const char *kvm_make_cpu(struct kvm *k)
{
    int size = kvm_call(k->system, KVM_GET_VCPU_MMAP_SIZE, NULL);
    void *run;

    k->cpu = kvm_call(k->vm, KVM_CREATE_VCPU, NULL);
    if (k->cpu < 0 || size <= 0) return kvm_reason("KVM_CREATE_VCPU");
    run = mmap(NULL, (size_t)size, PROT_READ | PROT_WRITE, MAP_SHARED, k->cpu, 0);
    if (run == MAP_FAILED) return kvm_reason("struct kvm_run");
    k->run_size = (size_t)size;
    k->run = run;
    if (kvm_call(k->cpu, KVM_SET_CPUID2, k->cpuid) < 0) return kvm_reason("KVM_SET_CPUID2");
    return set_frequency(k);
}

void kvm_end(struct kvm *k)
{
    if (k->run != NULL) munmap(k->run, k->run_size);
    if (k->cpu >= 0) close(k->cpu);
    if (k->vm >= 0) close(k->vm);
    k->run = NULL;
    k->cpu = k->vm = -1;
}

int kvm_run_guest(struct kvm *k)
{
    if (ioctl(k->cpu, KVM_RUN, NULL) >= 0) return 1;
    if (errno != EINTR && errno != EAGAIN) fail("%s", kvm_reason("KVM_RUN"));
    k->run->immediate_exit = 0;
    return 0;
}

const char *kvm_log(struct kvm *k, int on)
{
    const char *why;

    if (k->log_is_on == on) return NULL;
    k->log_is_on = on;
    why = set_slot(k);
    if (why != NULL) k->log_is_on = !on;
    return why;
}

const char *kvm_fetch_log(struct kvm *k, uint64_t *bits, uint64_t first, uint64_t count)
{
    uint64_t pages = k->length / PAGE, end = first + count < pages ? first + count : pages, any = 0;
    struct kvm_dirty_log log = {.dirty_bitmap = k->log};
    struct kvm_clear_dirty_log clear;

    if (kvm_call(k->vm, KVM_GET_DIRTY_LOG, &log) < 0) return kvm_reason("KVM_GET_DIRTY_LOG");
    if (!k->log_keeps) first = 0, end = pages;
    for (uint64_t n = first / LOG_PIECE; n < end / LOG_PIECE; n++) bits[n] |= k->log[n], any |= k->log[n];
    if (!k->log_keeps || any == 0) return NULL;
    clear = (struct kvm_clear_dirty_log){
        .num_pages = (uint32_t)(end - first), .first_page = first, .dirty_bitmap = k->log + first / LOG_PIECE};
    return kvm_call(k->vm, KVM_CLEAR_DIRTY_LOG, &clear) < 0 ? kvm_reason("KVM_CLEAR_DIRTY_LOG") : NULL;
}

void kvm_set_lines(struct kvm *k, uint32_t lines, uint32_t mask)
{
    uint32_t differ = ((lines ^ k->told) | ~k->known) & mask;

    for (uint32_t n = 0; differ >> n != 0; n++) {
        struct kvm_irq_level level = {.irq = n, .level = lines >> n & 1};

        if ((differ >> n & 1) && kvm_call(k->vm, KVM_IRQ_LINE, &level) < 0) fail("%s", kvm_reason("KVM_IRQ_LINE"));
    }
    k->told = (k->told & ~mask) | (lines & mask);
    k->known |= mask;
}
