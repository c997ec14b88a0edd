/* The nine register accesses of examples/registers.trace, and what is refused. */
#include "driver.h"

int main(void)
{
    static const vmig_shape entropy[] = {{.kind = VMIG_ENTROPY}};
    static const vmig_shape unknown[] = {{.kind = 5}};
    static const vmig_shape empty_disk[] = {{.kind = VMIG_BLOCK, .sectors = 0}};
    vmig_machine m = VMIG_NONE;
    uint32_t number = 77;
    uint8_t buf[16] = {1, 2, 3};

    expect("read of no machine", vmig_reg_read(&m, 0, 0, 4, &number), VMIG_NO_MACHINE);
    expect("its number", number, 77);
    expect("lines of no machine", vmig_lines(&m), 0);
    expect("no pages", make_new(0, entropy, 1, &m), VMIG_BAD_RAM);
    expect("no devices", make_new(1, entropy, 0, &m), VMIG_BAD_SHAPE);
    expect("unknown kind", make_new(1, unknown, 1, &m), VMIG_BAD_SHAPE);
    expect("disk of no sectors", make_new(1, empty_disk, 1, &m), VMIG_BAD_SHAPE);
    expect("make", make_new(1, entropy, 1, &m), VMIG_OK);
    expect("make again", make_new(1, entropy, 1, &m), VMIG_IN_USE);

    expect("magic value", read_reg(&m, 0x000), 0x74726976);
    expect("version", read_reg(&m, 0x004), 2);
    expect("device", read_reg(&m, 0x008), 4);
    expect("vendor", read_reg(&m, 0x00c), 0x4f575631);
    expect("features, bits 0 to 31", read_reg(&m, 0x010), 0x30000000);
    write_reg(&m, 0x014, 1);
    expect("features, bits 32 to 63", read_reg(&m, 0x010), 5);
    write_reg(&m, 0x014, 2);
    expect("no third window", read_reg(&m, 0x010), 0);

    expect("no such device", vmig_reg_read(&m, 1, 0, 4, &number), VMIG_NO_DEVICE);
    expect("its number", number, 77);
    expect("past RAM", vmig_ram_read(&m, 4090, buf, 10), VMIG_OUT_OF_RAM);
    expect("its buffer", buf[0], 1);
    expect("an entropy device has no size", vmig_resize(&m, 0, 80, 25), VMIG_WRONG_KIND);
    vmig_free(&m);
    vmig_free(&m);
    expect("after it was freed", vmig_reg_read(&m, 0, 0, 4, &number), VMIG_NO_MACHINE);
    return ended("registers");
}
