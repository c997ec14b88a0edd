/* What is around the guest: the terminal, the wire of its network, and random bytes. */
#define _DEFAULT_SOURCE
#include <errno.h>
#include <poll.h>
#include <string.h>
#include <sys/random.h>
#include <unistd.h>
#include "clock.h"
#include "host.h"
#include "output.h"
#include "say.h"
#include "terminal.h"

enum { FRAMES_A_TURN = 64, STATUS_REGISTER = 0x070, DRIVER_OK = 4 };

/* All that the pool of the entropy device could hold. */
enum { POOL_MAX = 4096 };

/* Whether the guest's driver drives a device. What comes before that waits, or is lost. */
static int is_driven(struct host *h, unsigned device)
{
    uint32_t status = 0;

    return vmig_reg_read(&h->machine, (uint8_t)device, STATUS_REGISTER, 4, &status) == VMIG_OK && (status & DRIVER_OK);
}

/* On a terminal the keys for the program are read also while the guest takes none; what it does not take is lost. */
static void read_typed(struct host *h)
{
    uint8_t bytes[TYPED_MAX];
    size_t room = TYPED_MAX - h->typed.count, got = terminal_read(bytes, room > 0 ? room : sizeof bytes);

    if (got > room) got = room;
    memcpy(h->typed.bytes + h->typed.count, bytes, got);
    h->typed.count += (uint32_t)got;
}

void list_files(const struct host *h, int files[SOURCES_OF_INPUT])
{
    int hears = !terminal_has_ended() && (h->typed.count < TYPED_MAX || terminal_is_taken());

    files[0] = hears ? STDIN_FILENO : -1;
    files[1] = h->frame_length == 0 ? h->wire : -1;
    files[2] = storage_bell(h);
    files[3] = output_bell();
}

void look_around(struct host *h)
{
    int files[SOURCES_OF_INPUT], count;
    uint64_t before = clock_nanoseconds(), rings;

    list_files(h, files);
    struct pollfd sources[SOURCES_OF_INPUT];
    for (int i = 0; i < SOURCES_OF_INPUT; i++) sources[i] = (struct pollfd){.fd = files[i], .events = POLLIN};
    count = poll(sources, SOURCES_OF_INPUT, milliseconds_to_wait(h));
    h->statistics.waited += clock_nanoseconds() - before;
    h->input_waits = count > 0 || operator_words.has_new_size;
    if (count > 0 && sources[0].revents != 0) read_typed(h);
    if (count > 0 && sources[3].revents != 0 && read(files[3], &rings, sizeof rings) < 0 && errno != EAGAIN)
        fail("standard output has no bell");
    set_lines(h);
}

static void take_size(struct host *h)
{
    uint16_t columns, rows;

    operator_words.has_new_size = 0;
    if (terminal_size(&columns, &rows)) must(vmig_resize(&h->machine, CONSOLE, columns, rows), "vmig_resize");
}

/* What was typed goes to the console, once its driver is there. A guest that has none reads it at the UART, and so does
 * one that waits for it there, as with a login on it. */
static void take_typed(struct host *h)
{
    size_t kept = 0;

    if (h->typed.count == 0 || uart_hears(&h->uart) || !is_driven(h, CONSOLE)) return;
    must(vmig_input(&h->machine, CONSOLE, h->typed.bytes, h->typed.count, &kept), "vmig_input");
    h->steps_wait = 1;
    h->typed.count -= (uint32_t)kept;
    memmove(h->typed.bytes, h->typed.bytes + kept, h->typed.count);
}

/* Frames go to the card until it takes no more; then the last one waits. One that its driver does not hear is lost,
 * and so is one of a length that the card refuses. */
static void take_frames(struct host *h)
{
    size_t room = 0, kept;

    if (h->wire < 0) return;
    int hears = is_driven(h, (unsigned)h->devices.network);
    for (int i = 0; i < FRAMES_A_TURN; i++) {
        if (h->frame_length == 0)
            h->frame_length = network_receive(h->wire, h->frame, devices_longest_frame(&h->devices));
        if (h->frame_length == 0) return;
        if (hears) must(vmig_room(&h->machine, (uint8_t)h->devices.network, &room), "vmig_room");
        if (hears && room == 0) return;
        if (hears &&
            vmig_input(&h->machine, (uint8_t)h->devices.network, h->frame, h->frame_length, &kept) == VMIG_BAD_FRAME)
            say("a frame of %zu bytes is dropped", h->frame_length);
        h->frame_length = 0;
        h->steps_wait = 1;
    }
}

const char *open_wire(struct host *h)
{
    const char *why = NULL;

    if (h->options.net != NULL) h->wire = network_prepare(h->options.net, &why);
    return why;
}

const char *name_wire(struct host *h)
{
    return h->wire < 0 ? NULL : network_take_name();
}

const char *lend_wire_name(struct host *h)
{
    return h->wire < 0 ? NULL : network_keep_name();
}

void take_input(struct host *h)
{
    if (operator_words.has_new_size) take_size(h);
    if (h->console_is_held && output_has_room()) {
        h->console_is_held = 0;
        h->steps_wait = 1;
    }
    take_typed(h);
    if (h->input_waits || h->frame_length > 0) take_frames(h);
    h->input_waits = 0;
}

void fill_pool(struct host *h)
{
    uint8_t bytes[POOL];
    size_t room = 0, kept, missing;

    must(vmig_room(&h->machine, ENTROPY, &room), "vmig_room");
    if (room <= POOL_MAX - POOL) return;
    missing = room - (POOL_MAX - POOL);
    if (getrandom(bytes, missing, 0) != (ssize_t)missing) fail("the host gives no random bytes");
    must(vmig_input(&h->machine, ENTROPY, bytes, missing, &kept), "vmig_input");
}

void announce(struct host *h)
{
    if (h->wire < 0) return;
    network_announce(h->wire, h->devices.shapes[h->devices.network].mac);
}

void hand_on(struct host *h, unsigned device, const uint8_t *bytes, size_t length)
{
    leave_library(h);
    if (device == CONSOLE) output_write(bytes, length);
    else if (h->wire >= 0) network_send(h->wire, bytes, length);
    enter_library(h);
}

int ask_operator(const char *question)
{
    struct pollfd sources[] = {{.events = POLLIN}, {.fd = operator_bell, .events = POLLIN}};
    uint8_t bytes[TYPED_MAX];
    uint64_t rings;

    /* An answer may come as soon as it is asked. */
    operator_words.continues = 0;
    say("%s", question);
    terminal_take();
    while (!operator_words.continues && !operator_words.ends) {
        sources[0].fd = terminal_is_taken() && !terminal_has_ended() ? STDIN_FILENO : -1;
        if (poll(sources, 2, -1) < 0) continue;
        if (sources[0].revents != 0) terminal_read(bytes, sizeof bytes);
        if (sources[1].revents != 0 && read(operator_bell, &rings, sizeof rings) < 0) continue;
    }
    return operator_words.continues;
}
