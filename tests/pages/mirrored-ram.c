/* The code of docs/hosts/mirrored-ram.md as it stands there: a guest whose RAM lies in two places of this program, and prints and types; and a
 * host that goes on with the machine of another one. */
#include <stddef.h>
#include <stdint.h>
#include <string.h>
#include "vmig.h"

enum { CONSOLE, DEVICES };
enum { PAGES = 1024, PAGE = 4096, RAM = PAGES * PAGE, WORDS = PAGES / 64, STEPS_A_TURN = 1000 };
enum why { ENDED, CALLED_OUT, TOUCHED };

/* An access of the guest to a register: off bytes from the beginning of the window of device dev on. */
struct access {
    uint8_t dev, width;
    int is_write;
    uint32_t off, value;
};

/* What your hypervisor has beside this. Page n has the guest-physical addresses from 4,096 n on. */
enum why run_guest(struct access *access);                          /* until a vCPU touches a register, or its time is over */
void finish_read(uint32_t value);
void stop_vcpus(void);                                              /* all come out, until run_guest */
void fetch_dirty(uint64_t *words);                                  /* adds to these bits which pages were written since the last call */
void read_page(uint32_t page, uint8_t *bytes);                      /* of the guest's RAM, wherever it lies */
void write_page(uint32_t page, const uint8_t *bytes);
void set_lines(uint32_t lines);                                     /* bit d is the level of the line of device d */
void hand_on(uint8_t dev, const uint8_t *bytes, size_t length);     /* to its terminal */

struct host {
    vmig_machine machine;
    vmig_turn turn;
    uint8_t ram[RAM];                       /* the host's copy of RAM, and at which version it has each page */
    uint64_t seen[PAGES], before[PAGES];
    uint64_t dirty[WORDS];                  /* the pages that were written and not handed in */
};

/* Hands in every page that the guest wrote. All vCPUs are outside. After a refusal they are handed in the next time. */
static vmig_status hand_in(struct host *h)
{
    vmig_pages written = vmig_bitmap(h->dirty, WORDS);
    vmig_status status;

    fetch_dirty(h->dirty);
    for (uint32_t page = 0; page < PAGES; page++)
        if (h->dirty[page / 64] >> page % 64 & 1) read_page(page, h->ram + (size_t)page * PAGE);
    status = vmig_push(&h->machine, &written, h->ram, RAM, h->seen, PAGES);
    if (status == VMIG_OK) memset(h->dirty, 0, sizeof h->dirty);
    return status;
}

/* Hands out every page that a device wrote: those whose version is new, or is no longer counted. */
static vmig_status hand_out(struct host *h)
{
    uint32_t count;
    vmig_status status;

    memcpy(h->before, h->seen, sizeof h->before);
    status = vmig_pull(&h->machine, h->ram, RAM, h->seen, PAGES, &count);
    for (uint32_t page = 0; status == VMIG_OK && page < PAGES; page++)
        if (h->seen[page] != h->before[page] || h->seen[page] == VMIG_UNSEEN) write_page(page, h->ram + (size_t)page * PAGE);
    return status;
}

static void begin(struct host *h)
{
    memset(h, 0, sizeof *h);
    h->turn = (vmig_turn)VMIG_TURN;
    for (uint32_t page = 0; page < PAGES; page++) h->seen[page] = VMIG_UNSEEN;
}

/* The guest's RAM is the one to begin with: all of it is handed in. */
static vmig_status make(struct host *h)
{
    static const vmig_shape shapes[DEVICES] = {[CONSOLE] = {.kind = VMIG_CONSOLE}};
    vmig_setup setup = VMIG_SETUP;
    vmig_status status;

    begin(h);
    setup.pages = PAGES, setup.shapes = shapes, setup.count = DEVICES;
    status = vmig_make(&setup, &h->machine);
    memset(h->dirty, 0xff, sizeof h->dirty);
    return status == VMIG_OK ? hand_in(h) : status;
}

/* The machine's RAM is the one to begin with, as after vmig_finish: all of it is handed out. */
static vmig_status begin_with(struct host *h, vmig_machine arrived)
{
    begin(h);
    h->machine = arrived;
    return hand_out(h);
}

/* The devices' turn. */
static vmig_status do_work(struct host *h)
{
    static uint8_t sent[VMIG_SENT_MAX];
    vmig_turn *t = &h->turn;
    vmig_status status;

    t->left = STEPS_A_TURN;
    do {
        status = vmig_work(&h->machine, t, sent, sizeof sent);
        if (status == VMIG_SENT) hand_on(t->dev, sent, t->len);
    } while (status != VMIG_IDLE && status != VMIG_WORK && !vmig_refused(status));
    return status == VMIG_NO_MEMORY ? vmig_next(&h->machine, &t->dev, &t->pick) : status;
}

/* No vCPU runs from the hand-in to the hand-out. Then the two copies are equal, byte for byte. */
static vmig_status take_a_turn(struct host *h)
{
    vmig_status status;

    stop_vcpus();
    status = hand_in(h);
    if (status == VMIG_OK) status = do_work(h);
    return vmig_refused(status) ? status : hand_out(h);
}

/* An access needs no byte of RAM. */
static vmig_status make_access(struct host *h, const struct access *a)
{
    uint32_t value = 0, byte = VMIG_NO_BYTE;
    uint8_t printed;
    vmig_status status;

    if (a->is_write) status = vmig_reg_write(&h->machine, a->dev, a->off, a->width, a->value, &byte);
    else status = vmig_reg_read(&h->machine, a->dev, a->off, a->width, &value);
    printed = (uint8_t)byte;
    if (byte != VMIG_NO_BYTE) hand_on(a->dev, &printed, 1);
    if (!a->is_write) finish_read(value);
    return status == VMIG_NO_DEVICE ? VMIG_OK : status;
}

static int has_work(const struct host *h)
{
    uint8_t dev = h->turn.dev, pick = h->turn.pick;

    return vmig_next(&h->machine, &dev, &pick) != VMIG_IDLE;
}

static vmig_status run(struct host *h)
{
    struct access access;
    enum why why;
    vmig_status status = VMIG_OK;

    while (status == VMIG_OK && (why = run_guest(&access)) != ENDED) {
        if (why == TOUCHED) status = make_access(h, &access);
        if (status == VMIG_OK && has_work(h)) status = take_a_turn(h);
        set_lines(vmig_lines(&h->machine));
    }
    return status;
}

/* ---- the hypervisor's own parts, and the guest ---- */
#include "driver.h"

enum { HALF = RAM / 2, TEXT = 0x9000, TYPED = RAM - 16 };

static uint8_t low[HALF], high[HALF];
static uint8_t dirty_pages[PAGES];
static struct access script[64];
static int count_script, at_script, stopped;
static uint32_t lines, read_value;
static char printed[16];

static uint8_t *bytes_at(uint32_t at)
{
    return at < HALF ? low + at : high + (at - HALF);
}

/* The guest writes into its RAM, and its hypervisor notes the page. */
static void store(uint32_t at, uint64_t value, int width)
{
    for (int i = 0; i < width; i++) {
        *bytes_at(at + (uint32_t)i) = (uint8_t)(value >> (8 * i));
        dirty_pages[(at + (uint32_t)i) / PAGE] = 1;
    }
}

static void store_descriptor(uint32_t at, uint32_t addr, uint32_t len, uint32_t flags)
{
    store(at, addr, 8);
    store(at + 8, len, 4);
    store(at + 12, flags, 2);
    store(at + 14, 0, 2);
}

void fetch_dirty(uint64_t *words)
{
    for (uint32_t page = 0; page < PAGES; page++) words[page / 64] |= (uint64_t)dirty_pages[page] << page % 64;
    memset(dirty_pages, 0, sizeof dirty_pages);
}

void read_page(uint32_t page, uint8_t *bytes)
{
    memcpy(bytes, bytes_at(page * PAGE), PAGE);
}

void write_page(uint32_t page, const uint8_t *bytes)
{
    memcpy(bytes_at(page * PAGE), bytes, PAGE);
}

void finish_read(uint32_t value)
{
    read_value = value;
}

void stop_vcpus(void)
{
    stopped++;
}

void set_lines(uint32_t level)
{
    lines = level;
}

void hand_on(uint8_t dev, const uint8_t *bytes, size_t length)
{
    expect("from the console", dev, CONSOLE);
    expect("a text", length, 6);
    memcpy(printed, bytes, 6);
}

static void touch(int is_write, uint32_t off, uint32_t value)
{
    script[count_script++] = (struct access){CONSOLE, 4, is_write, off, value};
}

/* The driver brings the console up, offers a buffer for what is typed, at the end of its RAM, and prints a text. */
static void write_script(void)
{
    static const uint32_t status[][2] = {{0x070, 0}, {0x070, 3}, {0x024, 1}, {0x020, 1}, {0x070, 11}};

    for (int i = 0; i < 5; i++) touch(1, status[i][0], status[i][1]);
    for (uint32_t q = 0; q < 2; q++) {
        uint32_t at = q * NEXT_QUEUE;
        const uint32_t queue[][2] = {{0x030, q}, {0x038, SIZE}, {0x080, DESC + at}, {0x090, AVAIL + at}, {0x0a0, USED + at}, {0x044, 1}};

        for (int i = 0; i < 6; i++) touch(1, queue[i][0], queue[i][1]);
    }
    touch(1, 0x070, 15);
    touch(1, 0x050, 0);
    touch(1, 0x050, 1);
    touch(0, 0x070, 0);
}

enum why run_guest(struct access *access)
{
    if (at_script == 0) {
        store_descriptor(DESC, TYPED, 16, WRITABLE);
        store(AVAIL + 2, 1, 2);
        for (int i = 0; i < 6; i++) store(TEXT + (uint32_t)i, (uint64_t)"mirror"[i], 1);
        store_descriptor(DESC + NEXT_QUEUE, TEXT, 6, 0);
        store(AVAIL + NEXT_QUEUE + 2, 1, 2);
    }
    if (at_script == count_script) return ENDED;
    *access = script[at_script++];
    return TOUCHED;
}

static void is_equal(struct host *h)
{
    static uint8_t page[PAGE];

    for (uint32_t at = 0; at < RAM; at += PAGE) {
        expect("a page of the machine", vmig_ram_read(&h->machine, at, page, PAGE), VMIG_OK);
        expect("is the guest's", (uint64_t)memcmp(page, bytes_at(at), PAGE), 0);
    }
}

/* Another host goes on with the machine: the guest's RAM is what arrived. */
static void goes_on(struct host *h)
{
    static struct host next;
    static uint8_t stream[2 * RAM], was_low[HALF], was_high[HALF];
    vmig_machine arrived = VMIG_NONE;
    uint32_t rounds;
    size_t len = 0;

    store(5 * PAGE, 77, 1);
    stop_vcpus();
    expect("handed in before it is sent", hand_in(h), VMIG_OK);
    expect("save", vmig_save(&h->machine, stream, sizeof stream, &len), VMIG_OK);
    memcpy(was_low, low, HALF), memcpy(was_high, high, HALF);
    memset(low, 0xaa, HALF), memset(high, 0xaa, HALF);
    expect("receive", receive(stream, len, &arrived, &rounds), VMIG_OK);
    expect("begin", begin_with(&next, arrived), VMIG_OK);
    expect("RAM is there", (uint64_t)(memcmp(was_low, low, HALF) | memcmp(was_high, high, HALF)), 0);
    vmig_free(&next.machine);
}

int main(void)
{
    static struct host h;
    size_t kept = 0;

    memset(low, 0x11, HALF);
    write_script();
    expect("make", make(&h), VMIG_OK);
    is_equal(&h);
    memset(low + DESC, 0, 0x8000);
    memset(dirty_pages, 1, 16);
    expect("typed", vmig_input(&h.machine, CONSOLE, (const uint8_t *)"keys", 4, &kept), VMIG_OK);
    expect("run", run(&h), VMIG_OK);
    expect("printed", (uint64_t)strcmp(printed, "mirror"), 0);
    expect("typed, at the end of RAM", (uint64_t)memcmp(bytes_at(TYPED), "keys", 4), 0);
    expect("turns", (uint64_t)stopped, 2);
    expect("its line", lines, 1);
    expect("the last read", read_value, 15);
    is_equal(&h);
    goes_on(&h);
    vmig_free(&h.machine);
    return ended("pages/mirrored-ram");
}
