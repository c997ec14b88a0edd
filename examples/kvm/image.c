/* A file of which parts go into RAM. What is wrong with it ends the program. */
#include <errno.h>
#include <stdio.h>
#include <string.h>
#include "boot.h"
#include "say.h"

void image_open(struct image *image, const char *name)
{
    FILE *file = fopen(name, "rb");
    long end;

    if (file == NULL || fseek(file, 0, SEEK_END) != 0 || (end = ftell(file)) < 0) fail("%s: %s", name, strerror(errno));
    *image = (struct image){.name = name, .file = file, .length = (uint64_t)end};
}

void image_close(struct image *image)
{
    fclose(image->file);
}

void image_read(const struct image *image, uint64_t offset, void *to, uint64_t size)
{
    if (offset > INT64_MAX || fseek(image->file, (long)offset, SEEK_SET) != 0 ||
        fread(to, 1, size, image->file) != size)
        fail("%s: it cannot be read whole", image->name);
}

uint8_t *image_place(const struct image *image, struct kvm *k, uint64_t at, uint64_t size)
{
    if (at > k->length || size > k->length - at)
        fail("%s: it does not fit into %llu MiB of RAM", image->name, (unsigned long long)(k->length / MIB));
    return k->ram + at;
}
