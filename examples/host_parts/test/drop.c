/* A driver that resets its disk while what it asked for is out, and a sync that fails: `drop FILE OTHER`, over files of
 * 1 MiB, where the first sync fails (failing.c). The reset is made once all is answered, and RAM stays lent until then.
 * Of the sync the library is told before the write is answered that waits for it, so its driver reads an error, and the
 * disk is lost. Then OTHER hangs: a reset of FILE does not wait for it. */
#define _DEFAULT_SOURCE
#include <fcntl.h>
#include <stdio.h>
#include <stdlib.h>
#include <string.h>
#include <unistd.h>
#include "host.h"
#include "say.h"

enum { DEV = FIRST_DISK, OTHER, DRIVERS, QUEUE = 32, COUNT = 4, RAM_LENGTH = 1 << 20, AREA = 0x20000 };
enum { DESC = 0x1000, AVAIL = 0x2000, USED = 0x3000, HEADERS = 0x4000, VERDICTS = 0x5000, BUFFERS = 0x6000 };
enum { IN = 0, OUT = 1, NEXT = 1, WRITABLE = 2, STATUS = 0x070, TOLD_LATER = 0xff, IOERR = 1 };

static struct host host;
static unsigned taken;                  /* how often RAM was taken back */
static unsigned offered[DRIVERS];       /* requests of the driver of each device */

static void check(int is_right, const char *what)
{
    if (!is_right) fail("drop: %s", what);
}

/* ---- what storage.c wants of a host ---- */

void take_ram(struct host *h)
{
    if (h->ram.at == NULL) return;
    must(vmig_give_back(&h->machine, &h->ram, &(vmig_pages)VMIG_ALL_PAGES), "vmig_give_back");
    taken++;
}

void enter_library(struct host *h) { (void)h; }
void leave_library(struct host *h) { (void)h; }
void stop_clock(struct host *h) { (void)h; }
void start_clock(struct host *h) { (void)h; }
int ask_operator(const char *question) { return question == NULL; }

/* ---- the driver ---- */

/* Where the rings and buffers of this device's driver are. */
static uint32_t area_of(uint8_t dev)
{
    return (uint32_t)(dev - DEV) * AREA;
}

static void put(uint64_t at, uint64_t value, size_t width)
{
    for (size_t i = 0; i < width; i++) host.memory[at + i] = (uint8_t)(value >> (8 * i));
}

static vmig_status write_reg(uint8_t dev, uint32_t off, uint32_t value)
{
    uint32_t byte;

    return vmig_reg_write(&host.machine, dev, off, 4, value, &byte);
}

/* It accepts no FLUSH, so each write has to be durable. */
static void set_up(uint8_t dev)
{
    const uint32_t at = area_of(dev);
    const uint32_t registers[][2] = {
        {STATUS, 0}, {STATUS, 3}, {0x024, 1}, {0x020, 1}, {STATUS, 11}, {0x030, 0}, {0x038, QUEUE},
        {0x080, RAM_BASE + at + DESC}, {0x090, RAM_BASE + at + AVAIL}, {0x0a0, RAM_BASE + at + USED},
        {0x044, 1}, {STATUS, 15}};

    memset(host.memory + at, 0, HEADERS);
    offered[dev] = 0;
    for (size_t i = 0; i < sizeof registers / sizeof *registers; i++)
        check(write_reg(dev, registers[i][0], registers[i][1]) == VMIG_OK, "a register is refused");
}

/* Descriptor `number` of a table, which names its bytes by their place in RAM. */
static void describe(uint64_t table, uint32_t number, uint64_t at, uint32_t length, uint32_t flags)
{
    put(table + 16 * number, RAM_BASE + at, 8);
    put(table + 16 * number + 8, length, 4);
    put(table + 16 * number + 12, flags, 2);
    put(table + 16 * number + 14, number + 1, 2);
}

/* A request of one sector. */
static void offer(uint8_t dev, uint32_t type, uint32_t sector)
{
    uint32_t at = area_of(dev), number = offered[dev]++, base = 3 * number, bytes = at + BUFFERS + SECTOR * number;

    put(at + HEADERS + 16 * number, type, 8);
    put(at + HEADERS + 16 * number + 8, sector, 8);
    put(at + VERDICTS + number, TOLD_LATER, 1);
    memset(host.memory + bytes, (int)(sector + 1), SECTOR);
    describe(at + DESC, base, at + HEADERS + 16 * number, 16, NEXT);
    describe(at + DESC, base + 1, bytes, SECTOR, NEXT | (type == IN ? WRITABLE : 0));
    describe(at + DESC, base + 2, at + VERDICTS + number, 1, WRITABLE);
    put(at + AVAIL + 4 + 2 * number, base, 2);
    put(at + AVAIL + 2, number + 1, 2);
    check(write_reg(dev, 0x050, 0) == VMIG_OK, "a kick is refused");
}

static void turn(void)
{
    static uint8_t sent[VMIG_SENT_MAX];
    vmig_status status;

    host.work.left = 1000;
    do status = vmig_work(&host.machine, &host.work, sent, sizeof sent);
    while (status != VMIG_IDLE && !vmig_refused(status));
    check(status == VMIG_IDLE, "a turn is refused");
    storage_ask(&host);
}

static vmig_description described(void)
{
    vmig_description found;

    vmig_describe(&host.machine, &found);
    return found;
}

/* ---- the tests ---- */

static void begin(char **names)
{
    host.options.count_disks = 2;
    for (int i = 0; i < 2; i++) host.options.disks[i].name = names[i];
    devices_plan(&host.devices, &host.options);
    host.memory_length = RAM_LENGTH;
    host.memory = devices_take_ram(host.memory_length);
    check(host.memory != NULL, "there is no memory");
    devices_make(&host.devices, host.memory, host.memory_length, &host.machine);
    check(storage_begin(&host) == NULL, "there is no pool");
}

/* Resets DEV once its reads are answered, and no sooner. */
static void reset(void)
{
    unsigned refused = 0, before = taken;

    must(vmig_lend(&host.machine, &host.ram), "vmig_lend");
    while (write_reg(DEV, STATUS, 0) == VMIG_CALLS_OUT) {
        refused++;
        check(storage_drop(&host, DEV), "it is to end");
    }
    check(refused >= COUNT, "the reset was made before all answers");
    check(taken == before, "RAM was taken back for a reset");
    take_ram(&host);
}

/* Reads alone: a write would have to be durable, and the first sync fails. */
static void reset_with_calls_out(void)
{
    set_up(DEV);
    for (uint32_t i = 0; i < COUNT; i++) offer(DEV, IN, i);
    turn();
    check(described().calls_out == COUNT, "the reads are not out");
    reset();
    check(described().calls_out == 0, "a call is out after the reset");
}

static void sync_that_fails(void)
{
    uint8_t bytes[SECTOR];

    set_up(DEV);
    offer(DEV, OUT, 7);
    turn();
    while (storage_waits(&host)) continue;
    turn();
    check(described().lost == 1 << DEV, "the library was not told of the sync");
    check(host.memory[VERDICTS] == IOERR, "a write that is not durable was told done");
    check(pread(host.devices.disks[0].file, bytes, SECTOR, 7 * SECTOR) == SECTOR && bytes[0] == 8,
          "the write did not land");
}

/* The other disk hangs with as many calls as it may have, more than its threads. */
static void reset_beside_a_disk_that_hangs(void)
{
    set_up(OTHER);
    for (uint32_t i = 0; i < SLOTS_A_DISK; i++) offer(OTHER, OUT, i);
    turn();
    set_up(DEV);
    for (uint32_t i = 0; i < COUNT; i++) offer(DEV, IN, i);
    turn();
    check(described().calls_out == COUNT + SLOTS_A_DISK, "the calls are not out");
    reset();
    check(described().calls_out == SLOTS_A_DISK, "the reset waited for another disk");
    check(unlink(getenv("HANGS")) == 0, "there is no file that says that it hangs");
    while (storage_waits(&host)) continue;
    turn();
    check(described().lost == 1 << DEV, "another disk is lost than the one whose sync failed");
    for (uint32_t i = 0; i < SLOTS_A_DISK; i++)
        check(host.memory[area_of(OTHER) + VERDICTS + i] == 0, "a write that hung did not end well");
}

int main(int count, char **words)
{
    check(count == 3, "it is drop FILE OTHER");
    begin(words + 1);
    reset_with_calls_out();
    sync_that_fails();
    reset_beside_a_disk_that_hangs();
    storage_end(&host);
    vmig_free(&host.machine);
    puts("drop: all as expected");
    return 0;
}
