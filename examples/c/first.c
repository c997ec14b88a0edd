/* A guest of one entropy device: its driver reads a register, and random bytes come for it. */
#include <stdio.h>
#include "vmig.h"

int main(void)
{
    vmig_machine machine = VMIG_NONE;
    vmig_shape shape = {.kind = VMIG_ENTROPY};
    vmig_setup setup = VMIG_SETUP;
    uint32_t value = 0;
    size_t kept = 0;

    setup.pages = 16, setup.shapes = &shape, setup.count = 1;
    if (vmig_make(&setup, &machine) != VMIG_OK) return 1;
    if (vmig_reg_read(&machine, 0, 0x000, 4, &value) != VMIG_OK) return 1;
    printf("0x%08x\n", (unsigned)value);
    if (vmig_input(&machine, 0, (const uint8_t *)"random", 6, &kept) != VMIG_OK) return 1;
    vmig_free(&machine);
    return value == 0x74726976 && kept == 6 ? 0 : 1;
}
