/* What the program is asked to do. */
#ifndef OPTIONS_H
#define OPTIONS_H

#include <stddef.h>
#include "board.h"

/* A board has a console, an entropy device, and as many disks as windows are left beside them and a network device. */
enum { DISKS_MAX = WINDOWS - 3 };

/* A disk: its file, and whether it is mapped into the memory of the program. Else the guest's requests are read and
 * written as they come. */
struct disk_option {
    const char *name;
    int is_mapped;
};

struct options {
    const char *kernel, *initrd, *append, *listen, *connect, *save, *restore, *net, *word;
    struct disk_option disks[DISKS_MAX];
    unsigned count_disks, mib, mtu, rounds, few, pause_ms, max_tries;  /* mtu: 0 where none is offered */
    int stats, no_reboot;
    int throttle;       /* a guest that writes faster than it is sent is held back */
    int digest_is_own;  /* the library digests what is moved, and no thread of the program */
    int is_shared;      /* both hosts of a move have the files of the disks that are not mapped */
    int stops_on_error; /* a read or write that fails stops the guest */
};

/* Whether the guest does not begin here: it is moved here, or was saved. */
static inline int guest_arrives(const struct options *o)
{
    return o->listen != NULL || o->restore != NULL;
}

/* What --help prints, which each hypervisor has of its own. */
extern const char HELP[];

/* Reads the words of the command line. What is wrong with them is printed, and ends the program; so does --help. */
void options_read(struct options *o, int count, char **words);

#endif
