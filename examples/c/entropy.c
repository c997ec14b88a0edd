/* A driver that reads entropy over a split ring. */
#include <string.h>
#include "driver.h"

int main(void)
{
    static const vmig_shape shapes[] = {{.kind = VMIG_ENTROPY}};
    static const uint8_t entropy[20] = {9, 8, 7, 6, 5, 4, 3, 2, 1, 0, 11, 12, 13, 14, 15, 16, 17, 18, 19, 20};
    static const uint8_t used[12] = {0, 0, 1, 0, 0, 0, 0, 0, 16, 0, 0, 0};
    vmig_machine m = VMIG_NONE;
    uint32_t number = 77;
    size_t kept = 77, room = 77;
    uint8_t buf[16];

    expect("make", make_new(16, shapes, 1, &m), VMIG_OK);
    set_up(&m, 1);
    describe(&m, 0, 0, DATA, 16, WRITABLE, 0);
    offer(&m, 0, 1, 0);
    expect("nothing put in", vmig_step(&m, 0, 0, buf, 0, &number), VMIG_IDLE);
    expect("its number", number, 77);
    expect("input", vmig_input(&m, 0, entropy, sizeof entropy, &kept), VMIG_OK);
    expect("all kept", kept, sizeof entropy);
    expect("room", vmig_room(&m, 0, &room), VMIG_OK);
    expect("for the rest of the pool", room, 4096 - sizeof entropy);
    expect("step", vmig_step(&m, 0, 0, buf, 0, &number), VMIG_COMPLETED);
    expect("used length", number, 16);
    expect("line", vmig_lines(&m), 1);
    expect("interrupt", read_reg(&m, 0x060), 1);
    write_reg(&m, 0x064, 1);
    expect("line acknowledged", vmig_lines(&m), 0);
    expect("read", vmig_ram_read(&m, DATA, buf, 16), VMIG_OK);
    expect("the bytes", (uint64_t)memcmp(buf, entropy, 16), 0);
    expect("read", vmig_ram_read(&m, USED, buf, 12), VMIG_OK);
    expect("used ring", (uint64_t)memcmp(buf, used, 12), 0);
    expect("empty ring", vmig_step(&m, 0, 0, buf, 0, &number), VMIG_IDLE);

    /* A chain that leads out of RAM stops the device, and nothing else. */
    describe(&m, 0, 1, 0x10000, 16, WRITABLE, 0);
    offer(&m, 0, 2, 1);
    expect("malformed", vmig_step(&m, 0, 0, buf, 0, &number), VMIG_NEEDS_RESET);
    vmig_free(&m);
    return ended("entropy");
}
