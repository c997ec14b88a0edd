/* What the guest boots from: the image, an initial RAM disk, and the device tree. */
#define _DEFAULT_SOURCE
#include <errno.h>
#include <stdio.h>
#include <string.h>
#include "host.h"
#include "memory.h"
#include "say.h"
#include "tree.h"

/* Reads a file whole into RAM, between two offsets. Returns its length, or ends the program. */
static uint64_t load_file(const char *name, struct memory *m, uint64_t offset, uint64_t end)
{
    FILE *file = fopen(name, "rb");
    size_t got;

    if (file == NULL) fail("%s: %s", name, strerror(errno));
    got = fread(m->ram + offset, 1, end - offset, file);
    if (ferror(file)) fail("%s: %s", name, strerror(errno));
    if (fgetc(file) != EOF)
        fail("%s: it does not fit into %llu MiB of RAM", name, (unsigned long long)(m->length / MIB));
    fclose(file);
    memory_note(m, offset, got);
    return got;
}

/* How long a file is, rounded up to whole pages. */
static uint64_t pages_of(const char *name)
{
    FILE *file = fopen(name, "rb");
    long length;

    if (file == NULL || fseek(file, 0, SEEK_END) != 0 || (length = ftell(file)) < 0)
        fail("%s: %s", name, strerror(errno));
    fclose(file);
    return ((uint64_t)length + PAGE - 1) / PAGE * PAGE;
}

void prepare_guests(struct host *h)
{
    (void)h;
    processor_prepare();
}

/* The initial RAM disk is at the end of RAM, and the device tree before it. */
void load_guest(struct host *h)
{
    const struct options *o = &h->options;
    struct memory *m = &h->guest.processor.memory;
    uint64_t end = m->length, initrd_length = o->initrd == NULL ? 0 : pages_of(o->initrd), tree, tree_length;
    struct tree_facts facts = {
        .ram_length = m->length, .devices = h->devices.count, .arguments = o->append == NULL ? "" : o->append};
    uint8_t blob[TREE_MAX];

    if (end < LOAD_OFFSET + TREE_MAX || initrd_length > end - LOAD_OFFSET - TREE_MAX)
        fail("--mem %u is too little RAM", o->mib);
    end -= initrd_length;
    if (o->initrd != NULL) {
        facts.initrd = RAM_BASE + end;
        facts.initrd_end = facts.initrd + load_file(o->initrd, m, end, m->length);
    }
    tree = end - TREE_MAX;
    load_file(o->kernel, m, LOAD_OFFSET, tree);
    tree_length = tree_write(blob, &facts);
    if (tree_length == 0) fail("--append: the text is too long");
    memcpy(m->ram + tree, blob, tree_length);
    memory_note(m, tree, tree_length);
    processor_reset(&h->guest.processor, RAM_BASE + tree);
}
