/* What a guest boots from: a kernel, an initial RAM disk, arguments, and the tables that describe the board. */
#include <stdio.h>
#include <string.h>
#include "boot.h"
#include "host.h"
#include "say.h"

/* The windows of the devices are named in the arguments, for a kernel without ACPI. What follows " -- " goes to
 * init, so they come before it. */
static void write_arguments(struct kvm *k, const char *arguments, unsigned devices)
{
    char *text = (char *)k->ram + ARGUMENTS;
    const char *rest = strstr(arguments, " -- ");
    int at = snprintf(text, ARGUMENTS_MAX, "%.*s", rest == NULL ? ARGUMENTS_MAX : (int)(rest - arguments), arguments);

    for (unsigned d = 0; d < devices && at < ARGUMENTS_MAX; d++)
        at += snprintf(text + at, ARGUMENTS_MAX - (size_t)at, " virtio_mmio.device=4K@0x%llx:%u",
                       (unsigned long long)(WINDOWS_AT + d * WINDOW_SIZE), interrupt_of(d));
    if (at < ARGUMENTS_MAX) at += snprintf(text + at, ARGUMENTS_MAX - (size_t)at, "%s", rest == NULL ? "" : rest);
    if (at >= ARGUMENTS_MAX) fail("--append: the text is too long");
}

/* The initial RAM disk lies at the end of RAM, or as high as the kernel takes it. */
static void load_initrd(struct kvm *k, const char *name, struct boot *b)
{
    struct image image;
    uint64_t top = b->initrd_below < k->length ? b->initrd_below : k->length;

    image_open(&image, name);
    b->initrd_size = image.length;
    b->initrd_at = image.length > top ? top : (top - image.length) & ~(uint64_t)(PAGE - 1);
    if (b->initrd_at < HIGH || (b->initrd_at < b->to && b->from < b->initrd_at + b->initrd_size))
        fail("%s: it would overlap the kernel, which takes %llu to %llu KiB of RAM: --mem gives more", name,
             (unsigned long long)(b->from >> 10), (unsigned long long)(b->to >> 10));
    image_read(&image, 0, image_place(&image, k, b->initrd_at, b->initrd_size), b->initrd_size);
    image_close(&image);
}

void load_guest(struct host *h)
{
    struct kvm *k = &h->guest.kvm;
    const struct options *o = &h->options;
    struct boot b = {.initrd_below = UINT64_MAX};
    struct image image;
    int is_bzimage;

    begin_anew(h);
    if (k->length <= HIGH) fail("--mem %u is too little RAM", o->mib);
    image_open(&image, o->kernel);
    is_bzimage = bzimage_load(k, &image, &b);
    if (!is_bzimage) pvh_load(k, &image, &b);
    image_close(&image);
    if (o->initrd != NULL) load_initrd(k, o->initrd, &b);
    write_arguments(k, o->append == NULL ? "" : o->append, h->devices.count);
    table_write(k->ram);
    b.rsdp_at = acpi_write(k->ram, h->devices.count);
    if (is_bzimage) bzimage_begin(k, &b);
    else pvh_begin(k, &b);
}
