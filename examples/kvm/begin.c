#define _DEFAULT_SOURCE
#include <sys/mman.h>
#include "boot.h"
#include "host.h"
#include "say.h"

void begin_anew(struct host *h)
{
    struct kvm *k = &h->guest.kvm;
    const char *why = NULL;

    if (k->cpu >= 0) {
        watch_guest(NULL);
        kvm_end(k);
        if (madvise(k->ram, k->length, MADV_DONTNEED) != 0) fail("RAM cannot be made zeros");
        why = kvm_make(k, k->ram, k->length);
        h->guest.is_loaded = 1;
    }
    if (why == NULL) why = kvm_make_cpu(k);
    if (why != NULL) fail("%s", why);
    watch_guest(k->run);
}

void memory_map(const struct kvm *k, struct piece map[PIECES])
{
    map[0] = (struct piece){0, TABLE_AT, USABLE};
    map[1] = (struct piece){TABLE_AT, HIGH - TABLE_AT, RESERVED};
    map[2] = (struct piece){HIGH, k->length - HIGH, USABLE};
}
