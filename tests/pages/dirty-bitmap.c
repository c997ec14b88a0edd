/* The code of docs/hosts/dirty-bitmap.md as it stands there: a guest that writes into two memory slots while its host sends it; and what arrives. */
#include <stddef.h>
#include <stdint.h>
#include <string.h>
#include "vmig.h"

enum { LOW_PAGES = 96, HIGH_PAGES = 64, PAGES = LOW_PAGES + HIGH_PAGES, PAGE = 4096, RAM = PAGES * PAGE };
enum { SLOTS = 2, MOST_WORDS = 2, STEPS_A_TURN = 1000, ITEMS = 32, FEW = 4, ROUNDS = 8, PIECE = 65536 };

/* A memory slot: its first page in RAM, how many it has, and its dirty bitmap, where bit k of word n is its page 64 n + k. */
struct slot {
    uint32_t first, count;
    uint64_t dirty[MOST_WORDS];
};

struct host {
    vmig_machine machine;
    vmig_ram ram;                   /* RAM, while it is lent */
    vmig_turn turn;
    struct slot slots[SLOTS];
};

/* What your hypervisor has beside this. */
void run_guest(struct host *h);                                         /* on h->ram, for a while, and makes its accesses to registers */
void stop_vcpus(void);                                                  /* all come out, until run_guest */
void fetch_dirty(uint32_t slot, uint64_t *words);                       /* adds what was written since the last call: KVM_GET_DIRTY_LOG */
void hand_on(uint8_t dev, const uint8_t *bytes, size_t length);         /* what the guest sends, to its terminal or out of its tap */
void set_lines(uint32_t lines);                                         /* bit d is the level of the line of device d */
int line_send(const uint8_t *bytes, size_t length);                     /* to the target: 0 where that fails */

/* Names the pages of a slot. After a refusal they are named the next time. */
static vmig_status name_slot(struct host *h, uint32_t number)
{
    struct slot *s = &h->slots[number];
    vmig_pages written = vmig_bitmap(s->dirty, MOST_WORDS);
    vmig_status status;

    fetch_dirty(number, s->dirty);
    written.first = s->first, written.span = s->count;
    status = vmig_mark(&h->machine, &written);
    if (status == VMIG_OK) memset(s->dirty, 0, sizeof s->dirty);
    return status;
}

/* Names every page that was written since the last time. RAM is back, and all vCPUs are outside. */
static vmig_status name_written(struct host *h)
{
    vmig_status status = VMIG_OK;

    for (uint32_t number = 0; number < SLOTS && status == VMIG_OK; number++) status = name_slot(h, number);
    return status;
}

/* The devices' turn. */
static vmig_status do_work(struct host *h)
{
    static uint8_t sent[VMIG_SENT_MAX];
    vmig_turn *t = &h->turn;
    vmig_status status;

    t->left = STEPS_A_TURN;
    do {
        status = vmig_work(&h->machine, t, sent, sizeof sent);
        if (status == VMIG_SENT) hand_on(t->dev, sent, t->len);
    } while (status != VMIG_IDLE && status != VMIG_WORK && !vmig_refused(status));
    set_lines(vmig_lines(&h->machine));
    return status == VMIG_NO_MEMORY ? vmig_next(&h->machine, &t->dev, &t->pick) : status;
}

/* One loan: the guest runs, RAM comes back, and the devices do their work. No page is named: the bitmaps keep them. */
static vmig_status run_slice(struct host *h)
{
    static const vmig_pages none = VMIG_NO_PAGES;
    vmig_status status = vmig_lend(&h->machine, &h->ram);

    if (status != VMIG_OK) return status;
    run_guest(h);
    stop_vcpus();
    status = vmig_give_back(&h->machine, &h->ram, &none);
    return status == VMIG_OK ? do_work(h) : status;
}

/* What waits goes to the target. */
static int send_waiting(struct host *h)
{
    static uint8_t piece[PIECE];
    size_t got = 0;

    do {
        if (vmig_send_take(&h->machine, piece, sizeof piece, &got) != VMIG_OK) return 0;
        if (got > 0 && !line_send(piece, got)) return 0;
    } while (got > 0);
    return 1;
}

/* One round: the guest runs between two copies. */
static int send_due(struct host *h)
{
    vmig_status status;

    do {
        if (vmig_refused(run_slice(h))) return 0;
        status = vmig_send_some(&h->machine, ITEMS);
        if (vmig_refused(status) || !send_waiting(h)) return 0;
    } while (status != VMIG_ROUND_DONE);
    return 1;
}

/* Mark, then ask, then decide. */
static int is_enough(struct host *h, int round)
{
    vmig_left left;

    return vmig_send_left(&h->machine, &left) != VMIG_OK || left.dirty_pages + left.dirty_sectors <= FEW || round == ROUNDS;
}

/* The whole stream. RAM is back, and the bitmaps are on and empty; from the stop on the guest is paused. 0: it has failed; call vmig_send_abort,
 * and let the guest run on. */
static int send_machine(struct host *h)
{
    uint64_t pages, sectors;

    if (vmig_send_begin(&h->machine) != VMIG_OK) return 0;
    for (int round = 1;; round++) {
        if (!send_due(h) || name_written(h) != VMIG_OK) return 0;
        if (is_enough(h, round)) break;
        if (vmig_send_round(&h->machine) != VMIG_OK) return 0;
    }
    return vmig_send_stop(&h->machine, &pages, &sectors) == VMIG_OK && send_waiting(h);
}

/* ---- the hypervisor's own parts, and the guest ---- */
#include "driver.h"

enum { QUIET_AFTER = 12 };

static uint8_t room[RAM], there[RAM];
static uint64_t logs[SLOTS][MOST_WORDS];
static vmig_machine target;
static int slices, is_forgotten, is_fed;
static uint32_t counter;

/* The guest writes a number, and the hypervisor notes the page in the log of its slot. */
static void store(struct host *h, uint32_t page, uint32_t value)
{
    uint32_t slot = page >= LOW_PAGES, bit = page - (slot ? LOW_PAGES : 0);

    memcpy((uint8_t *)h->ram.at + (size_t)page * PAGE, &value, sizeof value);
    logs[slot][bit / 64] |= UINT64_C(1) << bit % 64;
}

/* It counts in pages of both slots; after a while it writes two only. */
void run_guest(struct host *h)
{
    slices++;
    for (uint32_t i = 0; i < (slices < QUIET_AFTER ? 20u : 2u); i++, counter++)
        store(h, slices < QUIET_AFTER ? counter * 7 % PAGES : i * (PAGES - 1), counter + 1);
}

void stop_vcpus(void)
{
}

void fetch_dirty(uint32_t slot, uint64_t *words)
{
    if (is_forgotten && slot == 1) return;
    for (int i = 0; i < MOST_WORDS; i++) words[i] |= logs[slot][i], logs[slot][i] = 0;
}

void hand_on(uint8_t dev, const uint8_t *bytes, size_t length)
{
    (void)bytes;
    expect("no message", dev + length, 0);
}

void set_lines(uint32_t lines)
{
    expect("no line", lines, 0);
}

int line_send(const uint8_t *bytes, size_t length)
{
    vmig_status status = vmig_feed(&target, bytes, length);

    is_fed = status == VMIG_WHOLE;
    return !vmig_refused(status);
}

static void make(struct host *h)
{
    static const vmig_shape shapes[] = {{.kind = VMIG_ENTROPY}};
    vmig_ram ram = {room, RAM};

    *h = (struct host){.machine = VMIG_NONE, .ram = VMIG_NO_RAM, .turn = VMIG_TURN};
    h->slots[0] = (struct slot){.first = 0, .count = LOW_PAGES};
    h->slots[1] = (struct slot){.first = LOW_PAGES, .count = HIGH_PAGES};
    memset(logs, 0, sizeof logs);
    memset(room, 0, RAM);
    expect("make", make_over(&ram, shapes, 1, NULL, 0, &h->machine), VMIG_OK);
}

/* How many pages arrived with other bytes. */
static uint32_t move(void)
{
    static struct host h;
    vmig_ram ram = {there, RAM};
    uint32_t other = 0;

    make(&h);
    slices = 0, is_fed = 0;
    memset(there, 0, RAM);
    expect("arrive", arrive_over(&ram, NULL, 0, &target), VMIG_OK);
    expect("sent", (uint64_t)send_machine(&h), 1);
    expect("whole", (uint64_t)is_fed, 1);
    expect("finish", vmig_finish(&target), VMIG_OK);
    for (uint32_t page = 0; page < PAGES; page++) other += memcmp(room + page * PAGE, there + page * PAGE, PAGE) != 0;
    vmig_free(&target);
    vmig_free(&h.machine);
    return other;
}

int main(void)
{
    expect("pages that are not the source's", move(), 0);
    expect("it ended as few were left", (uint64_t)(slices > QUIET_AFTER), 1);
    is_forgotten = 1;
    expect("without the upper slot's bitmap pages are lost", move() > 0, 1);
    return ended("pages/dirty-bitmap");
}
