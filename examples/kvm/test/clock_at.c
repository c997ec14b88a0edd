/* Where a state has the guest's clock, in nanoseconds. */
#include <stdio.h>
#include "state.h"

int main(void)
{
    printf("%zu\n", offsetof(struct state, clock) + offsetof(struct kvm_clock_data, clock));
    return 0;
}
