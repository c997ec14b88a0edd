/* Linked into the hypervisor, it writes a page of RAM while the registers of the guest are read, as some kernels do:
 * each KVM_GET_VCPU_EVENTS adds one to the word at LATE_AT, and the next log has its page. A host that does not read
 * the log once more after the registers loses it. */
#define _GNU_SOURCE
#include <linux/kvm.h>
#include <stdarg.h>
#include <stdint.h>
#include <sys/ioctl.h>
#include <sys/syscall.h>
#include <unistd.h>

enum { LATE_AT = 0x90000, PAGE_SHIFT = 12, WORD_SHIFT = 5 };

static uint8_t *ram;
static int is_late;

static void look(unsigned long request, void *argument)
{
    const struct kvm_userspace_memory_region *slot = argument;

    if (request == KVM_SET_USER_MEMORY_REGION) ram = (uint8_t *)(uintptr_t)slot->userspace_addr;
    if (request == KVM_GET_VCPU_EVENTS && ram != NULL) {
        ++*(uint32_t *)(void *)(ram + LATE_AT);
        is_late = 1;
    }
    if (request == KVM_GET_DIRTY_LOG && is_late) {
        uint32_t *bitmap = ((struct kvm_dirty_log *)argument)->dirty_bitmap;

        bitmap[LATE_AT >> (PAGE_SHIFT + WORD_SHIFT)] |= UINT32_C(1) << (LATE_AT >> PAGE_SHIFT) % (1 << WORD_SHIFT);
        is_late = 0;
    }
}

int ioctl(int of, unsigned long request, ...)
{
    va_list values;
    void *argument;
    long answer;

    va_start(values, request);
    argument = va_arg(values, void *);
    va_end(values);
    answer = syscall(SYS_ioctl, of, request, argument);
    if (answer >= 0) look(request, argument);
    return (int)answer;
}
