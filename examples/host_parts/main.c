/* The program: a guest begins or arrives, runs, and ends. */
#define _DEFAULT_SOURCE
#include <errno.h>
#include <stdio.h>
#include <string.h>
#include "host.h"
#include "output.h"
#include "say.h"
#include "terminal.h"

static void begin_guest(struct host *h)
{
    const char *why;

    h->memory_length = (uint64_t)h->options.mib * MIB;
    h->memory = devices_take_ram(h->memory_length);
    why = h->memory == NULL ? "there is no memory for RAM" : give_ram(h, h->memory, h->memory_length);
    if (why != NULL) fail("%s", why);
    load_guest(h);
    devices_make(&h->devices, h->memory, h->memory_length, &h->machine);
    fill_pool(h);
    terminal_take();
    why = name_wire(h);
    if (why != NULL) fail("%s", why);
}

/* The first line of a file, of which the rest of the word is zeros. Without --word it is zeros alone. */
static void read_word(struct host *h)
{
    const char *name = h->options.word;
    char line[WORD_LENGTH + 2] = "";
    FILE *file = name == NULL ? NULL : fopen(name, "r");
    size_t length;

    if (name == NULL) return;
    if (file == NULL) fail("--word %s: %s", name, strerror(errno));
    length = fgets(line, sizeof line, file) == NULL ? 0 : strcspn(line, "\n");
    fclose(file);
    if (length == 0 || length > WORD_LENGTH)
        fail("--word %s: its first line has to have 1 to %d bytes", name, WORD_LENGTH);
    memcpy(h->word, line, length);
}

/* A guest that is moved here reboots with this file, if it is named: so it is looked for at once. */
static void look_for(const char *name)
{
    FILE *file = name == NULL ? NULL : fopen(name, "rb");

    if (name != NULL && file == NULL) fail("%s: %s", name, strerror(errno));
    if (file != NULL) fclose(file);
}

/* What a guest needs of this host is taken before it begins, or arrives: from then on nothing that may fail is taken
 * for it. */
static void prepare(struct host *h)
{
    const char *why;

    read_word(h);
    look_for(h->options.kernel);
    look_for(h->options.initrd);
    prepare_guests(h);
    devices_plan(&h->devices, &h->options);
    why = open_wire(h);
    if (why == NULL) why = storage_begin(h);
    if (why != NULL) fail("%s", why);
}

/* All is given back. The bytes of the disks that are mapped are in their files. */
static void end(struct host *h)
{
    vmig_image images[DISKS_MAX] = {VMIG_NO_IMAGE};

    take_ram(h);
    end_guest(h);
    must(vmig_release(&h->machine, images, DISKS_MAX), "vmig_release");
    for (unsigned i = 0; i < h->devices.count_disks; i++) disk_close(&h->devices.disks[i]);
    devices_give_ram(h->memory, h->memory_length);
}

int main(int count, char **words)
{
    static struct host h = {
        .wire = -1, .move.bell = -1, .next = PTHREAD_MUTEX_INITIALIZER, .library = PTHREAD_MUTEX_INITIALIZER};

    options_read(&h.options, count, words);
    terminal_begin();
    output_begin();
    prepare(&h);
    if (guest_arrives(&h.options)) host_receive(&h);
    else begin_guest(&h);
    begin_statistics(&h);
    host_run(&h);
    print_statistics(&h);
    end(&h);
    if (h.has_ended && h.outcome != 0) fail("the guest says that it failed: %llu", (unsigned long long)h.outcome);
    return h.has_ended || h.is_gone ? 0 : 1;
}
