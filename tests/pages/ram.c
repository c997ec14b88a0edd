/* The code of docs/hosts/ram.md as it stands there: RAM that is lent, and a disk in a file that is mapped; and a guest in place of vCPUs. */
#define _DEFAULT_SOURCE
#include <fcntl.h>
#include <stdint.h>
#include <sys/mman.h>
#include "vmig.h"

enum { DISK, CONSOLE, DEVICES };
enum { PAGES = 1024, PAGE = 4096, RAM = PAGES * PAGE, SECTORS = 2048, BYTES = SECTORS * 512, STEPS_A_TURN = 1000 };
enum why { ENDED, CALLED_OUT, TOUCHED };

/* An access of the guest to a register: off bytes from the beginning of the window of device dev on. */
struct access {
    uint8_t dev, width;
    int is_write;
    uint32_t off, value;
};

/* What your hypervisor has beside this. */
void load_guest(uint8_t *ram);                                      /* what it boots from; and its memory slot is set to this memory */
enum why run_guest(uint8_t *ram, struct access *access);            /* until a vCPU touches a register, or its time is over */
void finish_read(uint32_t value);
void stop_vcpus(void);                                              /* all come out, until run_guest */
void set_lines(uint32_t lines);                                     /* bit d is the level of the line of device d */
void hand_on(uint8_t dev, const uint8_t *bytes, size_t length);     /* to its terminal */

struct host {
    vmig_machine machine;
    vmig_ram ram;               /* RAM, while it is lent */
    vmig_image disk;
    vmig_turn turn;
};

static vmig_ram map_ram(void)
{
    void *at = mmap(NULL, RAM, PROT_READ | PROT_WRITE, MAP_PRIVATE | MAP_ANONYMOUS | MAP_NORESERVE, -1, 0);

    return at == MAP_FAILED ? (vmig_ram)VMIG_NO_RAM : (vmig_ram){at, RAM};
}

/* A file as a disk. It has storage for each of its bytes before it is mapped. No sectors: that failed. */
static vmig_image map_disk(int file)
{
    void *at = MAP_FAILED;

    if (posix_fallocate(file, 0, BYTES) == 0) at = mmap(NULL, BYTES, PROT_READ | PROT_WRITE, MAP_SHARED, file, 0);
    return at == MAP_FAILED ? (vmig_image)VMIG_NO_IMAGE : (vmig_image){at, SECTORS};
}

/* Without RAM, or without a disk, this is refused. */
static vmig_status make(struct host *h, int file)
{
    static const vmig_shape shapes[DEVICES] = {[DISK] = {.kind = VMIG_BLOCK, .sectors = SECTORS}, [CONSOLE] = {.kind = VMIG_CONSOLE}};
    vmig_image image = map_disk(file);
    vmig_setup setup = VMIG_SETUP;

    *h = (struct host){.machine = VMIG_NONE, .ram = VMIG_NO_RAM, .disk = image, .turn = VMIG_TURN};
    setup.shapes = shapes, setup.count = DEVICES;
    setup.ram = map_ram(), setup.images = &image, setup.count_images = 1;
    if (setup.ram.len != 0) load_guest(setup.ram.at);
    return vmig_make(&setup, &h->machine);
}

/* The step that was passed over takes what the guest wrote for durable. A sync that failed is for good, and never tried again. */
static vmig_status sync_and_step(struct host *h, uint8_t *sent, size_t size)
{
    vmig_turn *t = &h->turn;

    if (msync(h->disk.at, BYTES, MS_SYNC) != 0) return vmig_sync_failed(&h->machine, t->dev);
    return vmig_step(&h->machine, t->dev, t->pick, sent, size, &t->len);
}

/* The devices' turn, with RAM taken back. */
static vmig_status do_work(struct host *h)
{
    static uint8_t sent[VMIG_SENT_MAX];
    vmig_turn *t = &h->turn;
    vmig_status status;

    t->left = STEPS_A_TURN;
    do {
        status = vmig_work(&h->machine, t, sent, sizeof sent);
        if (status == VMIG_SYNC) status = sync_and_step(h, sent, sizeof sent);
        if (status == VMIG_SENT) hand_on(t->dev, sent, t->len);
    } while (status != VMIG_IDLE && status != VMIG_WORK && !vmig_refused(status));
    return status == VMIG_NO_MEMORY ? vmig_next(&h->machine, &t->dev, &t->pick) : status;
}

/* RAM is taken back, and lent anew. No page is named: that has to be done before a round of a move ends. */
static vmig_status take_a_turn(struct host *h)
{
    static const vmig_pages none = VMIG_NO_PAGES;
    vmig_status status;

    stop_vcpus();
    status = vmig_give_back(&h->machine, &h->ram, &none);
    if (status == VMIG_OK) status = do_work(h);
    return vmig_refused(status) ? status : vmig_lend(&h->machine, &h->ram);
}

/* The access is made while RAM is lent, and the other vCPUs run on. */
static vmig_status make_access(struct host *h, const struct access *a)
{
    uint32_t value = 0, byte = VMIG_NO_BYTE;
    uint8_t printed;
    vmig_status status;

    if (a->is_write) status = vmig_reg_write(&h->machine, a->dev, a->off, a->width, a->value, &byte);
    else status = vmig_reg_read(&h->machine, a->dev, a->off, a->width, &value);
    printed = (uint8_t)byte;
    if (byte != VMIG_NO_BYTE) hand_on(a->dev, &printed, 1);
    if (!a->is_write) finish_read(value);
    return status == VMIG_NO_DEVICE ? VMIG_OK : status;
}

static int has_work(const struct host *h)
{
    uint8_t dev = h->turn.dev, pick = h->turn.pick;

    return vmig_next(&h->machine, &dev, &pick) != VMIG_IDLE;
}

/* Until the guest ends. Then RAM is still lent. */
static vmig_status run(struct host *h)
{
    struct access access;
    enum why why;
    vmig_status status = vmig_lend(&h->machine, &h->ram);

    while (status == VMIG_OK && (why = run_guest(h->ram.at, &access)) != ENDED) {
        if (why == TOUCHED) status = make_access(h, &access);
        if (status == VMIG_OK && has_work(h)) status = take_a_turn(h);
        set_lines(vmig_lines(&h->machine));
    }
    return status;
}

/* ---- the hypervisor's own parts, and the guest ---- */
#include <stdlib.h>
#include <unistd.h>
#include "driver.h"

enum { HEADER = 0x7000, OUTCOME = 0x7100, TEXT = 0x7200, WRITE = 1, SECTOR = 5 };

static struct access script[64];
static int count_script, at_script, stopped, turns;
static uint32_t lines, read_value;
static char printed[16];

/* The driver brings a device up, whose queues lie from queue `first` on. */
static void bring_up(uint8_t dev, uint32_t first, uint32_t queues)
{
    static const uint32_t status[][2] = {{0x070, 0}, {0x070, 3}, {0x024, 1}, {0x020, 1}, {0x070, 11}};

    for (int i = 0; i < 5; i++) script[count_script++] = (struct access){dev, 4, 1, status[i][0], status[i][1]};
    for (uint32_t q = 0; q < queues; q++) {
        uint32_t at = (first + q) * NEXT_QUEUE;
        const uint32_t queue[][2] = {{0x030, q}, {0x038, SIZE}, {0x080, DESC + at}, {0x090, AVAIL + at}, {0x0a0, USED + at}, {0x044, 1}};

        for (int i = 0; i < 6; i++) script[count_script++] = (struct access){dev, 4, 1, queue[i][0], queue[i][1]};
    }
    script[count_script++] = (struct access){dev, 4, 1, 0x070, 15};
}

static void store(uint8_t *ram, uint32_t addr, uint64_t value, int width)
{
    for (int i = 0; i < width; i++) ram[addr + (uint32_t)i] = (uint8_t)(value >> (8 * i));
}

static void store_descriptor(uint8_t *ram, uint32_t at, uint32_t addr, uint32_t len, uint32_t flags, uint32_t next)
{
    store(ram, at, addr, 8);
    store(ram, at + 8, len, 4);
    store(ram, at + 12, flags, 2);
    store(ram, at + 14, next, 2);
}

/* The guest asks for a write of a sector, and prints a text: its own stores into RAM, before its two kicks. */
static void fill_rings(uint8_t *ram)
{
    store(ram, HEADER, WRITE, 8);
    store(ram, HEADER + 8, SECTOR, 8);
    store(ram, OUTCOME, 0xff, 1);
    memset(ram + DATA, 0x5a, 512);
    memcpy(ram + TEXT, "lent", 4);
    store_descriptor(ram, DESC, HEADER, 16, HAS_NEXT, 1);
    store_descriptor(ram, DESC + 16, DATA, 512, HAS_NEXT, 2);
    store_descriptor(ram, DESC + 32, OUTCOME, 1, WRITABLE, 0);
    store(ram, AVAIL + 2, 1, 2);
    store_descriptor(ram, DESC + 2 * NEXT_QUEUE, TEXT, 4, 0, 0);
    store(ram, AVAIL + 2 * NEXT_QUEUE + 2, 1, 2);
}

void load_guest(uint8_t *ram)
{
    expect("zeros", ram[0], 0);
    fill_rings(ram);
}

enum why run_guest(uint8_t *ram, struct access *access)
{
    stopped = 0;
    expect("RAM with its rings", ram[DATA], 0x5a);
    if (at_script == count_script) return ENDED;
    *access = script[at_script++];
    return TOUCHED;
}

void finish_read(uint32_t value)
{
    read_value = value;
}

void stop_vcpus(void)
{
    stopped = 1;
    turns++;
}

void set_lines(uint32_t level)
{
    lines = level;
}

void hand_on(uint8_t dev, const uint8_t *bytes, size_t length)
{
    expect("from the console", dev, CONSOLE);
    expect("every vCPU is outside", (uint64_t)stopped, 1);
    expect("a text", length, 4);
    memcpy(printed, bytes, 4);
}

static void is_done(struct host *h, int file, const uint8_t *ram)
{
    uint8_t got[512] = {0};

    expect("printed", (uint64_t)strcmp(printed, "lent"), 0);
    expect("the outcome", ram[OUTCOME], 0);
    expect("the file", (uint64_t)pread(file, got, sizeof got, SECTOR * 512), sizeof got);
    expect("has the sector", (uint64_t)memcmp(got, ram + DATA, sizeof got), 0);
    expect("the last read", read_value, 15);
    expect("turns", (uint64_t)turns, 2);
    expect("lines", lines, 3);
    expect("no disk is lost", description_of(&h->machine).lost, 0);
}

int main(void)
{
    char name[] = "/tmp/vmig-pages-ram-XXXXXX";
    int file = mkstemp(name);
    struct host h;
    uint8_t *ram;

    if (file < 0 || unlink(name) != 0) {
        puts("pages/ram: there is no file to be had");
        return 0;
    }
    bring_up(DISK, 0, 1);
    bring_up(CONSOLE, 1, 2);
    script[count_script++] = (struct access){DISK, 4, 1, 0x050, 0};
    script[count_script++] = (struct access){CONSOLE, 4, 1, 0x050, 1};
    script[count_script++] = (struct access){CONSOLE, 4, 0, 0x070, 0};
    expect("make", make(&h, file), VMIG_OK);
    expect("run", run(&h), VMIG_OK);
    ram = h.ram.at;
    is_done(&h, file, ram);
    vmig_free(&h.machine);
    munmap(ram, RAM);
    munmap(h.disk.at, BYTES);
    close(file);
    return ended("pages/ram");
}
