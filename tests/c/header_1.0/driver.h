/* What the programs share: checks of what they get, and the parts of a guest's driver that each of them needs. */
#ifndef DRIVER_H
#define DRIVER_H

#include <stdio.h>
#include <string.h>
#include "vmig.h"

static int failures;

static inline void expect(const char *what, uint64_t got, uint64_t wanted)
{
    if (got != wanted) {
        printf("%s: got 0x%llx, wanted 0x%llx\n", what, (unsigned long long)got, (unsigned long long)wanted);
        failures++;
    }
}

/* Prints how the program ended, and returns its exit status. */
static inline int ended(const char *name)
{
    if (failures == 0) printf("%s: all as expected\n", name);
    else printf("%s: %d not as expected\n", name, failures);
    return failures != 0;
}

/* A machine with RAM and disks of zeros; over disks that hold the contents; over images; and over RAM of the program, with images or
 * none. */
static inline vmig_status make_with(uint32_t pages, const vmig_shape *shapes, size_t count, const uint8_t *contents, size_t len, vmig_machine *m)
{
    vmig_setup setup = VMIG_SETUP;
    setup.pages = pages, setup.shapes = shapes, setup.count = count, setup.contents = contents, setup.len = len;
    return vmig_make(&setup, m);
}

static inline vmig_status make_new(uint32_t pages, const vmig_shape *shapes, size_t count, vmig_machine *m)
{
    return make_with(pages, shapes, count, NULL, 0, m);
}

static inline vmig_status make_mapped(uint32_t pages, const vmig_shape *shapes, size_t count, vmig_image *images, size_t count_images, vmig_machine *m)
{
    vmig_setup setup = VMIG_SETUP;
    setup.pages = pages, setup.shapes = shapes, setup.count = count, setup.images = images, setup.count_images = count_images;
    return vmig_make(&setup, m);
}

static inline vmig_status make_over(vmig_ram *ram, const vmig_shape *shapes, size_t count, vmig_image *images, size_t count_images, vmig_machine *m)
{
    vmig_setup setup = VMIG_SETUP;
    setup.shapes = shapes, setup.count = count, setup.images = images, setup.count_images = count_images, setup.ram = *ram;
    vmig_status status = vmig_make(&setup, m);
    *ram = setup.ram;
    return status;
}

/* A machine will arrive in RAM of the program, if there is some, and over images, if there are some. What comes here was sent by these
 * programs, so the rest may be as large as that of any machine. */
static inline vmig_status arrive_over(vmig_ram *ram, vmig_image *images, size_t count_images, vmig_machine *m)
{
    vmig_arrival arrival = VMIG_ARRIVAL;
    if (ram->len == 0) arrival.most_pages = 16384;
    if (count_images == 0) arrival.most_sectors = 16 * 2097152;
    arrival.images = images, arrival.count_images = count_images, arrival.ram = *ram;
    vmig_status status = vmig_arrive(&arrival, m);
    *ram = arrival.ram;
    return status;
}

static inline vmig_status arrive_mapped(vmig_image *images, size_t count_images, vmig_machine *m)
{
    vmig_ram none = VMIG_NO_RAM;
    return arrive_over(&none, images, count_images, m);
}

static inline vmig_status arrive_any(vmig_machine *m)
{
    return arrive_mapped(NULL, 0, m);
}

static inline vmig_description description_of(const vmig_machine *m)
{
    vmig_description found;
    vmig_describe(m, &found);
    return found;
}

/* The machine of a whole stream, and how many rounds ended in it. Where it is refused there is none. */
static inline vmig_status receive(const uint8_t *bytes, size_t len, vmig_machine *m, uint32_t *rounds)
{
    uint32_t ended;
    vmig_status status = arrive_any(m);
    if (status != VMIG_OK) return status;
    status = vmig_feed(m, bytes, len);
    ended = description_of(m).rounds;
    if (!vmig_refused(status)) status = vmig_finish(m);
    if (status == VMIG_OK) *rounds = ended;
    else vmig_free(m);
    return status;
}

/* RAM is given back with the pages of a list, or of a bitmap, or with all; and the pages of a list are handed in. */
static inline vmig_status give_back_list(vmig_machine *m, vmig_ram *ram, const uint32_t *list, size_t count)
{
    vmig_pages written = VMIG_NO_PAGES;
    written.list = list, written.count = count;
    return vmig_give_back(m, ram, &written);
}

static inline vmig_status give_back_marked(vmig_machine *m, vmig_ram *ram, const uint64_t *words, size_t count)
{
    vmig_pages written = VMIG_NO_PAGES;
    written.words = words, written.count_words = count;
    return vmig_give_back(m, ram, &written);
}

static inline vmig_status give_back_all(vmig_machine *m, vmig_ram *ram)
{
    static const vmig_pages all = VMIG_ALL_PAGES;
    return vmig_give_back(m, ram, &all);
}

static inline vmig_status push_list(vmig_machine *m, const uint32_t *list, size_t count, const uint8_t *ram, size_t len, uint64_t *seen, size_t count_seen)
{
    vmig_pages written = VMIG_NO_PAGES;
    written.list = list, written.count = count;
    return vmig_push(m, &written, ram, len, seen, count_seen);
}

static inline uint32_t read_reg_of(vmig_machine *m, uint8_t dev, uint32_t off)
{
    uint32_t value = 0xdeadbeef;
    expect("status of a register read", vmig_reg_read(m, dev, off, 4, &value), VMIG_OK);
    return value;
}

static inline void write_reg_of(vmig_machine *m, uint8_t dev, uint32_t off, uint32_t value)
{
    uint32_t byte = 77;
    expect("status of a register write", vmig_reg_write(m, dev, off, 4, value, &byte), VMIG_OK);
    expect("no byte for a terminal", byte, VMIG_NO_BYTE);
}

/* The same of device 0. */
static inline uint32_t read_reg(vmig_machine *m, uint32_t off)
{
    return read_reg_of(m, 0, off);
}

static inline void write_reg(vmig_machine *m, uint32_t off, uint32_t value)
{
    write_reg_of(m, 0, off, value);
}

/* The guest writes a number of up to 8 bytes into its RAM, the lowest byte first. */
static inline void put(vmig_machine *m, uint64_t addr, uint64_t value, size_t width)
{
    uint8_t bytes[8];
    for (size_t i = 0; i < width; i++) bytes[i] = (uint8_t)(value >> (8 * i));
    expect("status of a RAM write", vmig_ram_write(m, addr, bytes, width), VMIG_OK);
}

static inline uint64_t get(vmig_machine *m, uint64_t addr, size_t width)
{
    uint8_t bytes[8] = {0};
    uint64_t value = 0;
    expect("status of a RAM read", vmig_ram_read(m, addr, bytes, width), VMIG_OK);
    for (size_t i = width; i-- > 0;) value = value << 8 | bytes[i];
    return value;
}

/* Where the driver of device 0 keeps a queue (VIRTIO 1.2, 2.7). Queue q lies q * NEXT_QUEUE bytes after queue 0. */
enum { DESC = 0x1000, AVAIL = 0x2000, USED = 0x2800, DATA = 0x8000, NEXT_QUEUE = 0x2000, SIZE = 64 };

/* Flags of a descriptor. */
enum { HAS_NEXT = 1, WRITABLE = 2 };

static inline void describe(vmig_machine *m, uint32_t queue, uint32_t number, uint64_t addr, uint32_t len, uint32_t flags, uint32_t next)
{
    uint64_t at = DESC + (uint64_t)queue * NEXT_QUEUE + 16u * number;
    put(m, at, addr, 8);
    put(m, at + 8, len, 4);
    put(m, at + 12, flags, 2);
    put(m, at + 14, next, 2);
}

/* The driver makes the chain that begins at this descriptor available as its `count`-th. */
static inline void make_available(vmig_machine *m, uint32_t queue, uint32_t count, uint32_t head)
{
    uint64_t at = AVAIL + (uint64_t)queue * NEXT_QUEUE;
    put(m, at + 4 + 2u * ((count - 1) % SIZE), head, 2);
    put(m, at + 2, count, 2);
}

/* As above, and the driver notifies the device. */
static inline void offer(vmig_machine *m, uint32_t queue, uint32_t count, uint32_t head)
{
    make_available(m, queue, count, head);
    write_reg(m, 0x050, queue);
}

/* The driver takes a device over, with the feature VERSION_1 and those of `low`, which are below bit 32, and makes its queues
 * ready (VIRTIO 1.2, 3.1.1). The first of them lies where queue `first` of device 0 does. */
static inline void set_up_device(vmig_machine *m, uint8_t dev, uint32_t first, uint32_t queues, uint32_t low)
{
    write_reg_of(m, dev, 0x070, 0);
    write_reg_of(m, dev, 0x070, 1);
    write_reg_of(m, dev, 0x070, 3);
    write_reg_of(m, dev, 0x024, 0);
    write_reg_of(m, dev, 0x020, low);
    write_reg_of(m, dev, 0x024, 1);
    write_reg_of(m, dev, 0x020, 1);
    write_reg_of(m, dev, 0x070, 0xb);
    expect("features accepted", read_reg_of(m, dev, 0x070), 0xb);
    for (uint32_t q = 0; q < queues; q++) {
        write_reg_of(m, dev, 0x030, q);
        write_reg_of(m, dev, 0x038, SIZE);
        write_reg_of(m, dev, 0x080, DESC + (first + q) * NEXT_QUEUE);
        write_reg_of(m, dev, 0x090, AVAIL + (first + q) * NEXT_QUEUE);
        write_reg_of(m, dev, 0x0a0, USED + (first + q) * NEXT_QUEUE);
        write_reg_of(m, dev, 0x044, 1);
        expect("queue ready", read_reg_of(m, dev, 0x044), 1);
    }
    write_reg_of(m, dev, 0x070, 0xf);
}

static inline void set_up_with(vmig_machine *m, uint32_t queues, uint32_t low)
{
    set_up_device(m, 0, 0, queues, low);
}

static inline void set_up(vmig_machine *m, uint32_t queues)
{
    set_up_with(m, queues, 0);
}

/* A turn of the devices, until no step has anything to do. Messages are not looked at. Returns the number of steps. */
static inline uint32_t serve(vmig_machine *m)
{
    enum { MOST = 1000 };
    static uint8_t buf[VMIG_SENT_MAX];
    vmig_turn turn = VMIG_TURN;
    vmig_status status;

    turn.left = MOST;
    do {
        status = vmig_work(m, &turn, buf, sizeof buf);
        if (status == VMIG_SYNC) status = vmig_step(m, turn.dev, turn.pick, buf, sizeof buf, &turn.len);
    } while (status != VMIG_IDLE && status != VMIG_WORK && !vmig_refused(status));
    expect("no step is left", status, VMIG_IDLE);
    return MOST - turn.left;
}

/* The driver of an entropy device asks for 16 bytes, as its `count`-th chain. Returns the used length. */
static inline uint32_t ask(vmig_machine *m, uint32_t count)
{
    uint8_t none[1];
    uint32_t len = 77;

    describe(m, 0, 0, DATA, 16, WRITABLE, 0);
    offer(m, 0, count, 0);
    expect("step", vmig_step(m, 0, 0, none, 0, &len), VMIG_COMPLETED);
    return len;
}

static inline void equal_ram(vmig_machine *one, vmig_machine *other, uint64_t pages)
{
    uint8_t a[4096], b[4096];

    for (uint64_t page = 0; page < pages; page++) {
        expect("read", vmig_ram_read(one, page * 4096, a, 4096), VMIG_OK);
        expect("read", vmig_ram_read(other, page * 4096, b, 4096), VMIG_OK);
        expect("equal pages", (uint64_t)memcmp(a, b, 4096), 0);
    }
}

#endif
