/* Linked into the hypervisor, it takes away what a kernel before 5.0 lacks: to read the log of pages without emptying
 * it. */
#define _GNU_SOURCE
#include <linux/kvm.h>
#include <stdarg.h>
#include <stdint.h>
#include <sys/ioctl.h>
#include <sys/syscall.h>
#include <unistd.h>

int ioctl(int of, unsigned long request, ...)
{
    va_list values;
    void *argument;

    va_start(values, request);
    argument = va_arg(values, void *);
    va_end(values);
    if (request == KVM_CHECK_EXTENSION && (uintptr_t)argument == KVM_CAP_MANUAL_DIRTY_LOG_PROTECT2) return 0;
    return (int)syscall(SYS_ioctl, of, request, argument);
}
