/* Linked into the hypervisor, it forgets what the log of pages had, wrong on purpose: UNREAD=n lets the n-th call
 * that reads it, and each later one, give no page. */
#define _GNU_SOURCE
#include <linux/kvm.h>
#include <stdarg.h>
#include <stdlib.h>
#include <string.h>
#include <sys/ioctl.h>
#include <sys/syscall.h>
#include <unistd.h>

static unsigned long reads;

/* The pages of the test's guest: 8 MiB. */
enum { BYTES = 8 * 256 / 8 };

int ioctl(int of, unsigned long request, ...)
{
    const char *from = getenv("UNREAD");
    va_list values;
    void *argument;
    long answer;

    va_start(values, request);
    argument = va_arg(values, void *);
    va_end(values);
    answer = syscall(SYS_ioctl, of, request, argument);
    if (request == KVM_GET_DIRTY_LOG && from != NULL && ++reads >= strtoul(from, NULL, 10))
        memset(((struct kvm_dirty_log *)argument)->dirty_bitmap, 0, BYTES);
    return (int)answer;
}
