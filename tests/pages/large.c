/* The code of docs/hosts/large.md as it stands there: an x86 guest with RAM below and above the hole, whose driver asks for random bytes above 4 GiB.
 * Where the system maps no 5 GiB without reserve the program says so, and ends. */
#define _DEFAULT_SOURCE
#include <stddef.h>
#include <stdint.h>
#include <string.h>
#include <sys/mman.h>
#include "vmig.h"

#define GIB (UINT64_C(1) << 30)
#define RAM_END (5 * GIB)
enum { PAGE = 4096, SLOTS = 2, MOST_WORDS = 3 << 12, STEPS_A_TURN = 1000 };
enum why { ENDED, CALLED_OUT, TOUCHED };

/* A memory slot: where it begins, by the guest's addresses and in the mapping alike, and how many bytes it has. */
static const struct slot {
    uint64_t at, size;
} slots[SLOTS] = {{0, 3 * GIB}, {4 * GIB, RAM_END - 4 * GIB}};

/* An access of the guest to a register: off bytes from the beginning of the window of device dev on. The windows lie in the hole. */
struct access {
    uint8_t dev, width;
    int is_write;
    uint32_t off, value;
};

struct host {
    vmig_machine machine;
    vmig_ram ram;                                   /* RAM, while it is lent */
    vmig_turn turn;
    uint64_t dirty[SLOTS][MOST_WORDS];              /* the pages of each slot that were written and not named */
};

/* What your hypervisor has beside this. */
void set_slot(uint32_t slot, uint64_t addr, uint64_t size, void *at);   /* KVM_SET_USER_MEMORY_REGION */
enum why run_guest(struct access *access);                              /* until a vCPU touches a register, or its time is over */
void finish_read(uint32_t value);
void stop_vcpus(void);                                                  /* all come out, until run_guest */
void fetch_dirty(uint32_t slot, uint64_t *words);                       /* adds what was written since the last call: KVM_GET_DIRTY_LOG */
void set_lines(uint32_t lines);                                         /* bit d is the level of the line of device d */
int fill_pool(vmig_machine *m);                                         /* random bytes for the entropy device, by vmig_input */

/* All of RAM with the hole, which takes memory only where it is written. The slots are set to it. */
static vmig_ram map_ram(void)
{
    void *at = mmap(NULL, RAM_END, PROT_READ | PROT_WRITE, MAP_PRIVATE | MAP_ANONYMOUS | MAP_NORESERVE, -1, 0);

    if (at == MAP_FAILED) return (vmig_ram)VMIG_NO_RAM;
    for (uint32_t i = 0; i < SLOTS; i++) set_slot(i, slots[i].at, slots[i].size, (uint8_t *)at + slots[i].at);
    return (vmig_ram){at, RAM_END};
}

/* Without RAM this is refused, and what was mapped is still the host's: *ram. */
static vmig_status make(struct host *h, vmig_ram *ram)
{
    static const vmig_shape shapes[] = {{.kind = VMIG_ENTROPY}};
    vmig_setup setup = VMIG_SETUP;
    vmig_status status;

    *h = (struct host){.machine = VMIG_NONE, .ram = VMIG_NO_RAM, .turn = VMIG_TURN};
    setup.ram = *ram, setup.flags = VMIG_LARGE, setup.shapes = shapes, setup.count = 1;
    status = vmig_make(&setup, &h->machine);
    *ram = setup.ram;
    return status;
}

/* A machine with exactly as much RAM may arrive, and with no disks in memory of the library: vmig_feed and vmig_finish come after it. */
static vmig_status let_arrive(struct host *h, vmig_ram *ram)
{
    vmig_arrival arrival = VMIG_ARRIVAL;
    vmig_status status;

    *h = (struct host){.machine = VMIG_NONE, .ram = VMIG_NO_RAM, .turn = VMIG_TURN};
    arrival.ram = *ram, arrival.flags = VMIG_LARGE;
    status = vmig_arrive(&arrival, &h->machine);
    *ram = arrival.ram;
    return status;
}

/* Names what was written in each slot since the last time: in a move, before a round ends and before the stop. RAM is back. */
static vmig_status name_written(struct host *h)
{
    vmig_status status = VMIG_OK;

    for (uint32_t i = 0; i < SLOTS && status == VMIG_OK; i++) {
        vmig_pages written = vmig_bitmap(h->dirty[i], MOST_WORDS);

        written.first = (uint32_t)(slots[i].at / PAGE), written.span = (uint32_t)(slots[i].size / PAGE);
        fetch_dirty(i, h->dirty[i]);
        status = vmig_mark(&h->machine, &written);
        if (status == VMIG_OK) memset(h->dirty[i], 0, sizeof h->dirty[i]);
    }
    return status;
}

/* The devices' turn, with RAM taken back and lent anew. */
static vmig_status take_a_turn(struct host *h)
{
    static const vmig_pages none = VMIG_NO_PAGES;
    vmig_turn *t = &h->turn;
    vmig_status status;

    stop_vcpus();
    status = vmig_give_back(&h->machine, &h->ram, &none);
    t->left = STEPS_A_TURN;
    while (status != VMIG_IDLE && status != VMIG_WORK && !vmig_refused(status)) {
        status = vmig_work(&h->machine, t, NULL, 0);
        if (status == VMIG_COMPLETED && !fill_pool(&h->machine)) break;
    }
    if (status == VMIG_NO_MEMORY) status = vmig_next(&h->machine, &t->dev, &t->pick);
    return vmig_refused(status) ? status : vmig_lend(&h->machine, &h->ram);
}

/* The access is made while RAM is lent. */
static vmig_status make_access(struct host *h, const struct access *a)
{
    uint32_t value = 0, byte;
    vmig_status status;

    if (a->is_write) status = vmig_reg_write(&h->machine, a->dev, a->off, a->width, a->value, &byte);
    else status = vmig_reg_read(&h->machine, a->dev, a->off, a->width, &value);
    if (!a->is_write) finish_read(value);
    return status == VMIG_NO_DEVICE ? VMIG_OK : status;
}

/* Until the guest ends. Then RAM is still lent. */
static vmig_status run(struct host *h)
{
    struct access access;
    enum why why;
    vmig_status status = vmig_lend(&h->machine, &h->ram);

    while (status == VMIG_OK && (why = run_guest(&access)) != ENDED) {
        uint8_t dev = h->turn.dev, pick = h->turn.pick;

        if (why == TOUCHED) status = make_access(h, &access);
        if (status == VMIG_OK && vmig_next(&h->machine, &dev, &pick) != VMIG_IDLE) status = take_a_turn(h);
        set_lines(vmig_lines(&h->machine));
    }
    return status;
}

/* ---- the hypervisor's own parts, and the guest ---- */
#include "driver.h"

enum { LENGTH = 16 };

#define ABOVE (4 * GIB + 0x5000)        /* where the random bytes go */

static uint8_t *slot_at[SLOTS];
static uint64_t logs[SLOTS][MOST_WORDS];
static int entries, stopped;
static uint32_t lines, read_value;
static uint8_t next_random;

void set_slot(uint32_t slot, uint64_t addr, uint64_t size, void *at)
{
    expect("where it begins", addr, slot == 0 ? 0 : 4 * GIB);
    expect("its size", size, slot == 0 ? 3 * GIB : GIB);
    slot_at[slot] = at;
}

/* The guest writes into RAM, of which it sees what the slots have. The hypervisor notes the page. */
static void store(uint64_t addr, uint64_t value, int width)
{
    uint32_t slot = addr >= 4 * GIB;
    uint64_t at = addr - (slot ? 4 * GIB : 0);

    expect("no address of the hole", slot || at < 3 * GIB, 1);
    for (int i = 0; i < width; i++) slot_at[slot][at + (uint64_t)i] = (uint8_t)(value >> (8 * i));
    logs[slot][at / PAGE / 64] |= UINT64_C(1) << at / PAGE % 64;
}

/* It asks for random bytes above 4 GiB, and then reads a register. */
enum why run_guest(struct access *access)
{
    if (entries == 0) {
        store(DESC, ABOVE, 8);
        store(DESC + 8, LENGTH, 4);
        store(DESC + 12, WRITABLE, 2);
        store(AVAIL + 2, 1, 2);
        store(5 * GIB - 1, 0x99, 1);
    }
    *access = entries == 0 ? (struct access){0, 4, 1, 0x050, 0} : (struct access){0, 4, 0, 0x000, 0};
    return entries++ < 2 ? TOUCHED : ENDED;
}

void finish_read(uint32_t value)
{
    read_value = value;
}

void stop_vcpus(void)
{
    stopped++;
}

void fetch_dirty(uint32_t slot, uint64_t *words)
{
    for (int i = 0; i < MOST_WORDS; i++) words[i] |= logs[slot][i], logs[slot][i] = 0;
}

void set_lines(uint32_t level)
{
    lines = level;
}

int fill_pool(vmig_machine *m)
{
    uint8_t bytes[LENGTH];
    size_t kept = 0;

    for (int i = 0; i < LENGTH; i++) bytes[i] = ++next_random;
    return vmig_input(m, 0, bytes, LENGTH, &kept) == VMIG_OK && kept == LENGTH;
}

/* What the guest writes while it is sent is named by the bitmaps of both slots: two pages below the hole, and two above. */
static void is_named(struct host *h)
{
    static const vmig_pages none = VMIG_NO_PAGES;
    vmig_left left;

    expect("back", vmig_give_back(&h->machine, &h->ram, &none), VMIG_OK);
    expect("all that was written before", name_written(h), VMIG_OK);
    expect("begin", vmig_send_begin(&h->machine), VMIG_OK);
    store(0x9000, 1, 1);
    store(3 * GIB - 1, 1, 1);
    store(4 * GIB, 1, 1);
    store(5 * GIB - 8, 1, 8);
    expect("named", name_written(h), VMIG_OK);
    expect("what is left", vmig_send_left(&h->machine, &left), VMIG_OK);
    expect("all pages are due", left.due_pages, 5 * GIB / PAGE);
    expect("those of both slots are dirty", left.dirty_pages, 4);
    expect("abort", vmig_send_abort(&h->machine), VMIG_OK);
}

/* The target takes RAM of as many pages, and a machine without VMIG_LARGE is not made over it. */
static void may_arrive(vmig_ram ram)
{
    static struct host target;
    vmig_ram again = ram;
    vmig_setup setup = VMIG_SETUP;
    vmig_shape shape = {.kind = VMIG_ENTROPY};

    expect("arrive", let_arrive(&target, &again), VMIG_OK);
    expect("RAM is taken", again.len, 0);
    vmig_free(&target.machine);
    setup.ram = ram, setup.shapes = &shape, setup.count = 1;
    expect("without VMIG_LARGE", vmig_make(&setup, &target.machine), VMIG_BAD_RAM);
}

static void serves(vmig_ram ram)
{
    static struct host h;
    vmig_ram taken = ram;

    expect("make", make(&h, &taken), VMIG_OK);
    expect("RAM is taken", taken.len, 0);
    set_up(&h.machine, 1);
    expect("fill", (uint64_t)fill_pool(&h.machine), 1);
    expect("run", run(&h), VMIG_OK);
    expect("random bytes above 4 GiB", slot_at[1][0x5000] + 256u * slot_at[1][0x5000 + LENGTH - 1], 1 + 256 * LENGTH);
    expect("the last read", read_value, 0x74726976);
    expect("its line", lines, 1);
    expect("turns", (uint64_t)stopped, 1);
    is_named(&h);
    vmig_free(&h.machine);
    may_arrive(ram);
}

int main(void)
{
    vmig_ram ram = map_ram();

    if (ram.len == 0) puts("pages/large: not run: the system maps no 5 GiB without reserve");
    else serves(ram);
    if (ram.len != 0) munmap(ram.at, RAM_END);
    return ended("pages/large");
}
