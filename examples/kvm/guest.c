/* What the parts of a host ask of a guest under KVM: to run it, its ports, its lines and its log. */
#include <stdlib.h>
#include <string.h>
#include "cpuid.h"
#include "host.h"
#include "output.h"
#include "report.h"
#include "say.h"

/* A guest whose devices have more to do than one turn does is called out after this time. */
enum { WORK_MS = 1 };

void prepare_guests(struct host *h)
{
    struct kvm *k = &h->guest.kvm;
    const char *why = kvm_open(k);

    if (why == NULL && (k->cpuid = cpuid_offer(k)) == NULL) why = kvm_reason("KVM_GET_SUPPORTED_CPUID");
    if (why == NULL) why = features_offer(k, &h->guest.features);
    if (why != NULL) fail("%s", why);
    watch_begin(&h->guest.watch);
}

const char *give_ram(struct host *h, uint8_t *ram, uint64_t length)
{
    return kvm_make(&h->guest.kvm, ram, length);
}

void end_guest(struct host *h)
{
    watch_guest(NULL);
    watch_end(&h->guest.watch);
    kvm_end(&h->guest.kvm);
    free(h->guest.kvm.log);
    free(h->guest.kvm.cpuid);
}

static void end(struct host *h, uint64_t outcome)
{
    h->has_ended = 1;
    h->outcome = outcome;
}

static uint32_t read_port(struct host *h, uint64_t port)
{
    if (lies_in(port, UART_AT, UART_SIZE)) return uart_read(&h->uart, &h->typed, port - UART_AT);
    return port == RESET_AT || port == SLEEP_AT || port == SLEEP_AT + 1 ? 0 : UINT32_MAX;
}

static void write_port(struct host *h, uint64_t port, uint32_t value)
{
    uint8_t byte = (uint8_t)value;

    if (lies_in(port, UART_AT, UART_SIZE)) {
        int sent = uart_write(&h->uart, port - UART_AT, byte);

        byte = (uint8_t)sent;
        if (sent >= 0) output_write(&byte, 1);
    } else if (port == RESET_AT && byte == RESET_WORD) h->reboots = 1;
    else if (port == POWER_AT && value == POWER_OFF) end(h, 0);
    else if (port == SLEEP_AT && byte == SLEEP_OFF) end(h, 0);
    else if (port == FAILED_AT) end(h, byte);
}

/* A string instruction has several values in one exit. */
static void access_ports(struct host *h)
{
    struct kvm_run *run = h->guest.kvm.run;
    uint8_t *data = (uint8_t *)run + run->io.data_offset;
    uint32_t value;

    for (uint32_t i = 0; i < run->io.count; i++, data += run->io.size) {
        value = 0;
        if (run->io.direction == KVM_EXIT_IO_OUT) {
            memcpy(&value, data, run->io.size);
            write_port(h, run->io.port, value);
            continue;
        }
        value = read_port(h, run->io.port);
        memcpy(data, &value, run->io.size);
    }
    h->guest.ports++;
    set_lines(h);
}

/* Whether the window of a device is touched. What else is outside of RAM reads as a bus without a device does. */
static int is_window(struct host *h)
{
    struct kvm_run *run = h->guest.kvm.run;

    if (!lies_in(run->mmio.phys_addr, WINDOWS_AT, WINDOWS * WINDOW_SIZE)) {
        if (!run->mmio.is_write) memset(run->mmio.data, 0xff, sizeof run->mmio.data);
        return 0;
    }
    h->touched = (struct touched){
        .at = run->mmio.phys_addr - WINDOWS_AT, .width = (uint8_t)run->mmio.len, .is_write = run->mmio.is_write};
    memcpy(&h->touched.value, run->mmio.data, sizeof h->touched.value);
    return 1;
}

void finish_read(struct host *h, uint32_t value)
{
    struct kvm_run *run = h->guest.kvm.run;

    memset(run->mmio.data, 0, sizeof run->mmio.data);
    memcpy(run->mmio.data, &value, sizeof value);
}

/* What the board answers without the machine. False where the guest came out for the window of a device. */
static int board_answers(struct host *h)
{
    struct kvm_run *run = h->guest.kvm.run;

    switch (run->exit_reason) {
    case KVM_EXIT_IO: access_ports(h); return 1;
    case KVM_EXIT_MMIO: return !is_window(h);
    default:
        report(&h->guest.kvm);
        end(h, 1);
        return 1;
    }
}

/* What the guest is called out for: bytes on the terminal and the wire, a disk, and time for devices that have more
 * to do, or to be held back. */
static void await_input(struct host *h)
{
    int files[WATCHED];

    list_files(h, files);
    watch_for(&h->guest.watch, files, h->steps_wait ? WORK_MS : milliseconds_until_held(h), h->guest.is_between);
}

/* Ports need no machine. Where a part of a move is due the guest comes out once no access of its is half done:
 * KVM_RUN finishes it before it looks at immediate_exit. */
int run_guest(struct host *h)
{
    struct guest *g = &h->guest;
    int is_answered;

    if (move_is_due(h)) g->kvm.run->immediate_exit = 1;
    do {
        await_input(h);
        g->is_between = !kvm_run_guest(&g->kvm);
        g->exits++;
        is_answered = g->is_between || board_answers(h);
    } while (is_answered && !g->is_between && !h->has_ended && !h->reboots);
    g->called += (uint64_t)g->is_between;
    if (g->is_between) look_around(h);
    return is_answered;
}

int is_between_slices(const struct host *h)
{
    return h->guest.is_between;
}

void call_out(struct host *h)
{
    watch_call(&h->guest.watch);
}

int milliseconds_to_wait(const struct host *h)
{
    (void)h;
    return 0;
}

void set_lines(struct host *h)
{
    uint32_t mask = UINT32_C(1) << UART_INTERRUPT, lines = uart_interrupts(&h->uart, &h->typed) ? mask : 0;

    for (unsigned d = 0; d < h->devices.count; d++) {
        mask |= UINT32_C(1) << interrupt_of(d);
        if (h->lines >> d & 1) lines |= UINT32_C(1) << interrupt_of(d);
    }
    kvm_set_lines(&h->guest.kvm, lines, mask);
}

void board_reset(struct host *h)
{
    h->uart = (struct uart){0};
}

const char *log_begins(struct host *h)
{
    h->guest.is_loaded = 0;
    return kvm_log(&h->guest.kvm, 1);
}

void log_ends(struct host *h)
{
    const char *why = kvm_log(&h->guest.kvm, 0);

    if (why != NULL) say("the log of RAM stays on: %s", why);
}

/* What the host itself wrote is not in the kernel's log: then all pages are set, as where there is no log. */
void log_fetch(struct host *h, uint64_t *bits, uint64_t first, uint64_t count)
{
    struct kvm *k = &h->guest.kvm;

    if (kvm_fetch_log(k, bits, first, count) != NULL || h->guest.is_loaded)
        memset(bits, 0xff, k->log_words * sizeof *bits);
    h->guest.is_loaded = 0;
}

void stop_clock(struct host *h)
{
    const char *why = clock_stop(&h->guest.kvm, &h->guest.clock);

    if (why != NULL) say("the guest's clock goes on while it is paused: %s", why);
}

void start_clock(struct host *h)
{
    const char *why = clock_start(&h->guest.kvm, &h->guest.clock);

    if (why != NULL) say("the guest's clock is not as it was: %s", why);
}

void print_guest_statistics(const struct host *h, double seconds)
{
    const struct guest *g = &h->guest;

    say("%llu exits, %.0f a second: %llu for ports, %llu as it was called out", (unsigned long long)g->exits,
        (double)g->exits / seconds, (unsigned long long)g->ports, (unsigned long long)g->called);
}
