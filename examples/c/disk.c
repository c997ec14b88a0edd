/* A driver that writes a sector of a disk and reads it back (VIRTIO 1.2, 5.2.6). */
#include <string.h>
#include "driver.h"

enum { HEADER = 0x7000, OUTCOME = 0x7100, READ = 0, WRITE = 1 };

/* One request of one sector, from the driver's offer to the device's answer. Returns the status that the device wrote. */
static uint64_t request(vmig_machine *m, uint32_t count, uint32_t type, uint64_t sector)
{
    uint32_t len = 77;
    uint8_t none[1];

    put(m, HEADER, type, 4);
    put(m, HEADER + 4, 0, 4);
    put(m, HEADER + 8, sector, 8);
    put(m, OUTCOME, 0xff, 1);
    describe(m, 0, 0, HEADER, 16, HAS_NEXT, 1);
    describe(m, 0, 1, DATA, 512, HAS_NEXT | (type == READ ? WRITABLE : 0), 2);
    describe(m, 0, 2, OUTCOME, 1, WRITABLE, 0);
    offer(m, 0, count, 0);
    expect("taken", vmig_step(m, 0, 0, none, 0, &len), VMIG_TAKEN);
    expect("moved", vmig_step(m, 0, 1, none, 0, &len), VMIG_MOVED);
    expect("its number", len, 77);
    expect("completed", vmig_step(m, 0, 1, none, 0, &len), VMIG_COMPLETED);
    expect("used length", len, type == READ ? 513 : 1);
    expect("nothing left", vmig_step(m, 0, 1, none, 0, &len), VMIG_IDLE);
    expect("used ring", get(m, USED + 2, 2), count);
    return get(m, OUTCOME, 1);
}

int main(void)
{
    static const vmig_shape shapes[] = {{.kind = VMIG_BLOCK, .sectors = 8, .id = "a disk in memory"}};
    static const uint8_t zeros[512];
    vmig_machine m = VMIG_NONE;
    uint8_t written[512], back[512];
    size_t kept;

    for (size_t i = 0; i < 512; i++) written[i] = (uint8_t)(7 * i + 1);
    expect("make", make_new(16, shapes, 1, &m), VMIG_OK);
    expect("sectors", read_reg(&m, 0x100), 8);
    set_up(&m, 1);

    expect("read of zeros", request(&m, 1, READ, 3), 0);
    expect("read", vmig_ram_read(&m, DATA, back, 512), VMIG_OK);
    expect("zeros", (uint64_t)memcmp(back, zeros, 512), 0);

    expect("put", vmig_ram_write(&m, DATA, written, 512), VMIG_OK);
    expect("write", request(&m, 2, WRITE, 3), 0);
    expect("clear", vmig_ram_write(&m, DATA, zeros, 512), VMIG_OK);
    expect("read back", request(&m, 3, READ, 3), 0);
    expect("read", vmig_ram_read(&m, DATA, back, 512), VMIG_OK);
    expect("the sector", (uint64_t)memcmp(back, written, 512), 0);

    expect("a disk takes no input", vmig_input(&m, 0, written, 512, &kept), VMIG_WRONG_KIND);
    vmig_free(&m);
    return ended("disk");
}
