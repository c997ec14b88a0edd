/* An exit of a guest under KVM: its driver touches a register of a console, the devices have their turn, and the interrupt line is set. In
 * place of the kernel this program fills in what KVM_RUN leaves. README.md quotes the function. Where KVM's header is missing there is
 * nothing to try. */
#include <stdio.h>
#if !__has_include(<linux/kvm.h>)
int main(void)
{
    puts("exit: skipped, as there is no linux/kvm.h");
    return 0;
}
#else
#include <linux/kvm.h>
#include "driver.h"

enum { PAGES = 64, PAGE = 4096, TEXT = 0x7200 };
#define WINDOW UINT64_C(0xd0000000)

struct host {
    vmig_machine machine;
    vmig_ram ram;
    vmig_turn turn;
};

static uint8_t memory[PAGES * PAGE];
static int interrupt = -1;

static void set_interrupt(uint32_t level)
{
    interrupt = (int)level;
}

/* The guest came out of KVM_RUN for the window of its console (KVM_EXIT_MMIO). RAM is lent to it, but for the devices' turn. */
static int handle_mmio(struct host *h, struct kvm_run *run)
{
    static const vmig_pages none = VMIG_NO_PAGES;
    static uint8_t sent[VMIG_SENT_MAX];
    uint32_t offset = (uint32_t)(run->mmio.phys_addr - WINDOW), value = 0, byte = VMIG_NO_BYTE;
    vmig_status status;

    if (!run->mmio.is_write) {
        status = vmig_reg_read(&h->machine, 0, offset, (uint8_t)run->mmio.len, &value);
        memcpy(run->mmio.data, &value, sizeof value);
        return status == VMIG_OK;
    }
    memcpy(&value, run->mmio.data, sizeof value);
    status = vmig_reg_write(&h->machine, 0, offset, (uint8_t)run->mmio.len, value, &byte);
    if (byte != VMIG_NO_BYTE) putchar((int)byte);
    if (status == VMIG_OK) status = vmig_give_back(&h->machine, &h->ram, &none);
    h->turn.left = 1000;
    while (status != VMIG_IDLE && status != VMIG_WORK && !vmig_refused(status)) {
        status = vmig_work(&h->machine, &h->turn, sent, sizeof sent);
        if (status == VMIG_SENT) fwrite(sent, 1, h->turn.len, stdout);
    }
    set_interrupt(vmig_lines(&h->machine) & 1);
    return !vmig_refused(status) && vmig_lend(&h->machine, &h->ram) == VMIG_OK;
}

static uint32_t exit_for(struct host *h, uint32_t offset, int is_write, uint32_t value)
{
    static struct kvm_run run;

    run.mmio.phys_addr = WINDOW + offset, run.mmio.len = 4, run.mmio.is_write = (uint8_t)is_write;
    memcpy(run.mmio.data, &value, sizeof value);
    expect("an exit", (uint64_t)handle_mmio(h, &run), 1);
    memcpy(&value, run.mmio.data, sizeof value);
    return value;
}

static void store(uint32_t addr, uint64_t value, int width)
{
    for (int i = 0; i < width; i++) memory[addr + (uint32_t)i] = (uint8_t)(value >> (8 * i));
}

/* The driver brings up the queue that sends, and prints a line. */
static void print(struct host *h)
{
    static const uint32_t writes[][2] = {{0x070, 0}, {0x070, 3}, {0x024, 1}, {0x020, 1}, {0x070, 11}, {0x030, 1}, {0x038, SIZE}, {0x080, DESC},
                                         {0x090, AVAIL}, {0x0a0, USED}, {0x044, 1}, {0x070, 15}};
    static const char text[] = "exit: all as expected\n";

    for (size_t i = 0; i < sizeof writes / sizeof writes[0]; i++) exit_for(h, writes[i][0], 1, writes[i][1]);
    memcpy(memory + TEXT, text, sizeof text - 1);
    store(DESC, TEXT, 8), store(DESC + 8, sizeof text - 1, 4), store(AVAIL + 2, 1, 2);
    exit_for(h, 0x050, 1, 1);
    expect("an interrupt", (uint64_t)interrupt, 1);
    expect("of a used buffer", exit_for(h, 0x060, 0, 0), 1);
}

int main(void)
{
    static const vmig_shape shapes[] = {{.kind = VMIG_CONSOLE}};
    struct host h = {.machine = VMIG_NONE, .ram = {memory, sizeof memory}, .turn = VMIG_TURN};

    expect("make", make_over(&h.ram, shapes, 1, NULL, 0, &h.machine), VMIG_OK);
    expect("lend", vmig_lend(&h.machine, &h.ram), VMIG_OK);
    print(&h);
    vmig_free(&h.machine);
    return failures != 0;
}
#endif
