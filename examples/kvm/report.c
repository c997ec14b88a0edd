/* Why a guest ends, in lines that can be sent to who looks for the reason. */
#include <stdio.h>
#include "report.h"
#include "say.h"

enum { BYTES_AT_RIP = 16 };

static const struct {
    uint32_t reason;
    const char *name, *means;
} REASONS[] = {
    {KVM_EXIT_UNKNOWN, "KVM_EXIT_UNKNOWN", "a reason of the hardware that KVM does not know"},
    {KVM_EXIT_EXCEPTION, "KVM_EXIT_EXCEPTION", "an exception"},
    {KVM_EXIT_HLT, "KVM_EXIT_HLT", "a halt"},
    {KVM_EXIT_SHUTDOWN, "KVM_EXIT_SHUTDOWN", "the guest met a fault within a fault within a fault"},
    {KVM_EXIT_FAIL_ENTRY, "KVM_EXIT_FAIL_ENTRY", "the hardware does not take the guest's state"},
    {KVM_EXIT_INTERNAL_ERROR, "KVM_EXIT_INTERNAL_ERROR", "KVM cannot go on"},
    {KVM_EXIT_SYSTEM_EVENT, "KVM_EXIT_SYSTEM_EVENT", "an event of the system"},
};

/* What the reason has beside its number. */
static void say_more(const struct kvm_run *run)
{
    if (run->exit_reason == KVM_EXIT_UNKNOWN)
        say("  hardware_exit_reason 0x%llx", (unsigned long long)run->hw.hardware_exit_reason);
    if (run->exit_reason == KVM_EXIT_FAIL_ENTRY)
        say("  hardware_entry_failure_reason 0x%llx",
            (unsigned long long)run->fail_entry.hardware_entry_failure_reason);
    if (run->exit_reason != KVM_EXIT_INTERNAL_ERROR) return;
    say("  suberror %u", run->internal.suberror);
    for (uint32_t i = 0; i < run->internal.ndata && i < sizeof run->internal.data / sizeof *run->internal.data; i++)
        say("  data[%u] 0x%llx", i, (unsigned long long)run->internal.data[i]);
}

static void say_reason(const struct kvm_run *run)
{
    for (size_t i = 0; i < sizeof REASONS / sizeof *REASONS; i++)
        if (REASONS[i].reason == run->exit_reason) {
            say("KVM ends the guest: %s: %s", REASONS[i].name, REASONS[i].means);
            return;
        }
    say("KVM ends the guest: exit reason %u of <linux/kvm.h>", run->exit_reason);
}

static void say_four(const char *const names[4], const uint64_t values[4])
{
    say("  %-4s %016llx  %-4s %016llx  %-4s %016llx  %-4s %016llx", names[0], (unsigned long long)values[0], names[1],
        (unsigned long long)values[1], names[2], (unsigned long long)values[2], names[3],
        (unsigned long long)values[3]);
}

static void say_registers(const struct kvm_regs *r, const struct kvm_sregs2 *s)
{
    say("  rip  %016llx  cs %04x, at %llx, %s  rflags %08llx", (unsigned long long)r->rip, s->cs.selector,
        (unsigned long long)s->cs.base, s->cs.l ? "64 bits" : s->cs.db ? "32 bits" : "16 bits",
        (unsigned long long)r->rflags);
    say_four((const char *const[]){"rax", "rbx", "rcx", "rdx"}, (const uint64_t[]){r->rax, r->rbx, r->rcx, r->rdx});
    say_four((const char *const[]){"rsi", "rdi", "rsp", "rbp"}, (const uint64_t[]){r->rsi, r->rdi, r->rsp, r->rbp});
    say_four((const char *const[]){"r8", "r9", "r10", "r11"}, (const uint64_t[]){r->r8, r->r9, r->r10, r->r11});
    say_four((const char *const[]){"r12", "r13", "r14", "r15"}, (const uint64_t[]){r->r12, r->r13, r->r14, r->r15});
    say_four((const char *const[]){"cr0", "cr3", "cr4", "efer"}, (const uint64_t[]){s->cr0, s->cr3, s->cr4, s->efer});
    say("  cr2  %016llx", (unsigned long long)s->cr2);
}

/* Where the guest's page tables put an address, or UINT64_MAX where it is not in RAM. */
static uint64_t place_of(const struct kvm *k, uint64_t address)
{
    struct kvm_translation found = {.linear_address = address};

    if (kvm_call(k->cpu, KVM_TRANSLATE, &found) < 0 || !found.valid) return UINT64_MAX;
    return found.physical_address < k->length ? found.physical_address : UINT64_MAX;
}

static void say_bytes(const struct kvm *k, uint64_t address)
{
    char text[3 * BYTES_AT_RIP + 1] = "";
    int length = 0;

    for (uint64_t i = 0; i < BYTES_AT_RIP; i++) {
        uint64_t at = place_of(k, address + i);

        if (at == UINT64_MAX) break;
        length += snprintf(text + length, sizeof text - (size_t)length, " %02x", k->ram[at]);
    }
    say("  the bytes at rip:%s", length == 0 ? " none are there" : text);
}

void report(const struct kvm *k)
{
    struct kvm_regs r;
    struct kvm_sregs2 s;

    say_reason(k->run);
    say_more(k->run);
    if (kvm_call(k->cpu, KVM_GET_REGS, &r) < 0 || kvm_call(k->cpu, KVM_GET_SREGS2, &s) < 0) {
        say("  its registers cannot be read: %s", kvm_reason("KVM_GET_REGS or KVM_GET_SREGS2"));
        return;
    }
    say_registers(&r, &s);
    say_bytes(k, s.cs.l ? r.rip : s.cs.base + r.rip);
}
