/* The loop: the guest runs on RAM that is lent to it, and what it comes out for is done, with RAM lent or taken back.
 * docs/hosts/kvm.md quotes it. */
#include "host.h"
#include "output.h"
#include "say.h"
#include "terminal.h"

/* The steps of one turn: a guest can give its devices work without end. And the pick of a console that takes a
 * message. */
enum { STEPS_A_TURN = 1000, MESSAGES = 1 };

/* A driver that resets its device waits in its access until what the device asked of its disk is answered. RAM stays
 * lent meanwhile: no other processor of a guest would have to come out. */
static vmig_status write_register(struct host *h, uint8_t dev, uint32_t off, uint32_t *byte)
{
    const struct touched *a = &h->touched;
    vmig_status status;

    do status = vmig_reg_write(&h->machine, dev, off, a->width, a->value, byte);
    while (status == VMIG_CALLS_OUT && storage_drop(h, dev));
    return status;
}

/* A driver's access to a register of its device, while RAM is lent. A window without a device reads 0. */
static void access_register(struct host *h)
{
    const struct touched *a = &h->touched;
    uint8_t dev = (uint8_t)(a->at / WINDOW_SIZE), printed;
    uint32_t off = (uint32_t)(a->at % WINDOW_SIZE), value = 0, byte = VMIG_NO_BYTE;

    if (!a->is_write) {
        vmig_status status = vmig_reg_read(&h->machine, dev, off, a->width, &value);
        finish_read(h, status == VMIG_OK ? value : 0);
    } else if (write_register(h, dev, off, &byte) == VMIG_OK) {
        printed = (uint8_t)byte;
        if (byte != VMIG_NO_BYTE) hand_on(h, dev, &printed, 1);
        h->steps_wait = 1;
    }
    h->statistics.accesses++;
}

/* Before a reboot, with RAM lent: what the guest boots from is loaded anew. It is done with the lock: who copies for a
 * move would find the guest's log gone meanwhile. False where it cannot be, and the guest ends: one that was moved here
 * without --kernel has no image here, and a disk that is lost would be used by one that does not know. */
static int load_again(struct host *h)
{
    vmig_description found;
    const char *why;

    enter_library(h);
    vmig_describe(&h->machine, &found);
    why = found.lost != 0 ? "a disk is lost" : h->options.kernel == NULL ? "there is no --kernel here" : "--no-reboot";
    h->has_ended = h->options.kernel == NULL || found.lost != 0 || h->options.no_reboot;
    if (!h->has_ended) load_guest(h);
    leave_library(h);
    if (h->has_ended) say("the guest asks for a reboot, and ends: %s", why);
    return !h->has_ended;
}

/* The machine and the board are as they were when the guest was switched on, but for RAM and the disks. */
static void reboot(struct host *h)
{
    if (!storage_drain(h)) return;
    must(vmig_reset(&h->machine), "vmig_reset");
    board_reset(h);
    fill_pool(h);
    h->reboots = 0;
}

/* Makes the step that was passed over: it makes a flush, or ends a write that its driver then takes for durable, so
 * the disk is brought to its file before. Where that fails the disk is lost: the guest's flush ends with an error,
 * now and later. Such a write cannot fail any more, and does not end: the guest ends. */
static vmig_status sync_and_step(struct host *h, uint8_t *sent, size_t size)
{
    vmig_turn *t = &h->work;
    int is_lost = !disk_bring(devices_disk(&h->devices, t->dev));
    vmig_status status;

    if (is_lost) must(vmig_sync_failed(&h->machine, t->dev), "vmig_sync_failed");
    status = vmig_step(&h->machine, t->dev, t->pick, sent, size, &t->len);
    if (is_lost && status == VMIG_IDLE) fail("the guest ends: it would take what is lost for durable");
    if (is_lost) say("each flush of this disk fails from now on: move the guest soon, or end it");
    return status;
}

static int takes_message(const vmig_turn *t)
{
    return t->dev == CONSOLE && t->pick == MESSAGES;
}

/* As vmig_work, but that no message of the console is taken: it waits in the guest's queue. That it is named once more,
 * without a step that was made in between, says that nothing else is left. */
static vmig_status work_but_console(struct host *h, uint8_t *sent, size_t size)
{
    vmig_turn *t = &h->work;
    int is_named = 0;

    for (; t->left > 0; t->left--) {
        vmig_status status = vmig_next(&h->machine, &t->dev, &t->pick);

        if (vmig_refused(status) || status == VMIG_SYNC) return status;
        if (status == VMIG_IDLE || status == VMIG_CALL || (is_named && takes_message(t))) return VMIG_IDLE;
        is_named = takes_message(t);
        if (is_named) h->console_is_held = 1;
        if (is_named) continue;
        status = vmig_step(&h->machine, t->dev, t->pick, sent, size, &t->len);
        if (status == VMIG_SENT || vmig_refused(status)) return status;
        if (status == VMIG_COMPLETED && t->dev == ENTROPY) return status;
    }
    return VMIG_WORK;
}

/* Steps, one after another, until one comes of which the host has something to do. */
static vmig_status make_steps(struct host *h, uint8_t *sent, size_t size)
{
    return output_has_room() ? vmig_work(&h->machine, &h->work, sent, size) : work_but_console(h, sent, size);
}

void take_ram(struct host *h)
{
    if (h->ram.at == NULL) return;
    must(vmig_give_back(&h->machine, &h->ram, &(vmig_pages)VMIG_NO_PAGES), "vmig_give_back");
    h->statistics.loans++;
}

void lend_ram(struct host *h)
{
    if (h->ram.at == NULL) must(vmig_lend(&h->machine, &h->ram), "vmig_lend");
}

static void read_lines(struct host *h)
{
    h->lines = vmig_lines(&h->machine);
    set_lines(h);
}

/* Whether a step has something to do, or a disk waits to be asked, which needs no byte of RAM to be told. */
static int has_work(const struct host *h)
{
    uint8_t dev = h->work.dev, pick = h->work.pick;

    return vmig_next(&h->machine, &dev, &pick) != VMIG_IDLE;
}

/* The devices do their work, in turn from where they were, with RAM taken back. What is more than a turn has waits
 * for the next one, which begins after the last step, and behind one that was refused memory: so none keeps the
 * others waiting. Then disks are asked what they want. */
static void do_work(struct host *h)
{
    static uint8_t sent[VMIG_SENT_MAX];
    vmig_turn *t = &h->work;
    vmig_status status;

    take_ram(h);
    t->left = STEPS_A_TURN;
    do {
        status = make_steps(h, sent, sizeof sent);
        if (status == VMIG_SYNC) status = sync_and_step(h, sent, sizeof sent);
        if (status == VMIG_SENT) hand_on(h, t->dev, sent, t->len);
        if (status == VMIG_COMPLETED && t->dev == ENTROPY) fill_pool(h);
    } while (status != VMIG_IDLE && status != VMIG_WORK && !vmig_refused(status));
    storage_ask(h);
    h->statistics.steps += STEPS_A_TURN - t->left;
    h->steps_wait = status != VMIG_IDLE;
    if (status == VMIG_NO_MEMORY) status = vmig_next(&h->machine, &t->dev, &t->pick);
    if (vmig_refused(status)) fail("a turn of the devices: %s", vmig_status_name(status));
}

/* One turn. The guest runs on RAM that is lent to it until it comes out. What it came out for and what waits is done
 * while RAM is lent; only steps and parts of a move take it back. The guest is outside from then on, so one look at
 * the lines at the end is enough. */
static void turn(struct host *h)
{
    int is_answered = run_guest(h);

    if (is_between_slices(h)) hold_back(h);
    if (h->reboots && !load_again(h)) return;
    if (is_answered && !h->steps_wait && !h->input_waits && !h->reboots && !move_is_due(h)) return;
    enter_library(h);
    if (!is_answered) access_register(h);
    if (h->reboots) reboot(h);
    take_input(h);
    h->steps_wait = storage_answer(h) || (h->steps_wait && has_work(h));
    if (h->steps_wait) do_work(h);
    if (move_further(h)) {
        read_lines(h);
        lend_ram(h);
    }
    leave_library(h);
}

void host_run(struct host *h)
{
    enter_library(h);
    do_work(h);
    read_lines(h);
    lend_ram(h);
    leave_library(h);
    if (guest_arrives(&h->options)) announce(h);
    while (!h->has_ended && !h->is_gone && !operator_words.ends) turn(h);
    enter_library(h);
    leave_line(h, h->has_ended ? "the guest ended" : "its operator ended the guest");
    leave_library(h);
    storage_end(h);
    if (operator_words.ends) say("ended by its operator");
}
