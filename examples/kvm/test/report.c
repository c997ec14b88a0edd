/* What is reported where the hardware does not take a guest's state, which no test can bring about. The processor's
 * descriptor is none. */
#include <stdarg.h>
#include <stdio.h>
#include <stdlib.h>
#include "../report.h"
#include "say.h"

void say(const char *format, ...)
{
    va_list values;

    va_start(values, format);
    vprintf(format, values);
    va_end(values);
    putchar('\n');
}

void fail(const char *format, ...)
{
    (void)format;
    exit(1);
}

int main(void)
{
    struct kvm_run run = {.exit_reason = KVM_EXIT_FAIL_ENTRY, .fail_entry.hardware_entry_failure_reason = 0x80000021};
    struct kvm k = {.system = -1, .vm = -1, .cpu = -1, .run = &run};

    report(&k);
    return 0;
}
