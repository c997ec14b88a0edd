/* A guest that writes to its console: a message over its ring, and a byte into the emergency register. */
#include <string.h>
#include "driver.h"

int main(void)
{
    static const vmig_shape shapes[] = {{.kind = VMIG_CONSOLE}};
    static uint8_t buf[VMIG_SENT_MAX];
    vmig_machine m = VMIG_NONE;
    uint32_t number = 77;

    expect("make", make_new(16, shapes, 1, &m), VMIG_OK);
    expect("resize", vmig_resize(&m, 0, 80, 25), VMIG_OK);
    expect("columns and rows", read_reg(&m, 0x100), 25 << 16 | 80);
    expect("emergency", vmig_reg_write(&m, 0, 0x108, 4, '!', &number), VMIG_OK);
    expect("its byte", number, '!');

    set_up(&m, 2);
    expect("put", vmig_ram_write(&m, DATA, (const uint8_t *)"hello", 5), VMIG_OK);
    describe(&m, 1, 0, DATA, 5, 0, 0);
    offer(&m, 1, 1, 0);
    number = 77;
    expect("a small buffer", vmig_step(&m, 0, 1, buf, sizeof buf - 1, &number), VMIG_TOO_SMALL);
    expect("its number", number, 77);
    expect("nothing done", get(&m, USED + NEXT_QUEUE + 2, 2), 0);
    buf[5] = '.';
    expect("step", vmig_step(&m, 0, 1, buf, sizeof buf, &number), VMIG_SENT);
    expect("its length", number, 5);
    expect("the text", (uint64_t)memcmp(buf, "hello.", 6), 0);
    expect("used ring", get(&m, USED + NEXT_QUEUE + 2, 2), 1);
    expect("any buffer at pick 0", vmig_step(&m, 0, 0, buf, 0, &number), VMIG_IDLE);
    vmig_free(&m);
    return ended("console");
}
