/* The device tree: what the guest reads about its board. */
#ifndef TREE_H
#define TREE_H

#include <stddef.h>
#include <stdint.h>

enum { TREE_MAX = 4096 };

/* What differs from guest to guest. An initial RAM disk from `initrd` to `initrd_end` is there unless both are
 * equal. */
struct tree_facts {
    uint64_t ram_length, initrd, initrd_end;
    unsigned devices;
    const char *arguments;
};

/* Writes the tree (a blob of version 17) into `blob`. Returns its length, or 0 where it does not fit. */
size_t tree_write(uint8_t blob[TREE_MAX], const struct tree_facts *facts);

#endif
