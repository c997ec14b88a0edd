/* The memory of the library, over malloc. `install` puts it into libvmig.a, so a program that links that needs no second archive.
 *
 * The library asks for sizes that are multiples of their alignment, which is a power of two of at most 16: malloc and realloc give
 * such memory. A request of no bytes gets some of its own. */
#include <stdbool.h>
#include <stddef.h>
#include <stdlib.h>

/* Whether there is memory, and where it is. Where there is none, it is a byte that nobody reads or writes. */
typedef struct Tried {
    bool there;
    void *at;
} Tried;

Tried rattle_alloc(size_t size, size_t alignment);
Tried rattle_realloc(void *at, size_t kept, size_t size, size_t alignment);
void rattle_dealloc(void *at);

static unsigned char nobodys;

static Tried tried(void *at)
{
    return at != NULL ? (Tried){true, at} : (Tried){false, &nobodys};
}

Tried rattle_alloc(size_t size, size_t alignment)
{
    return tried(malloc(size != 0 ? size : alignment));
}

/* The first `kept` bytes stay, as realloc has it. Where memory is refused the old block is as it was. */
Tried rattle_realloc(void *at, size_t kept, size_t size, size_t alignment)
{
    (void)kept;
    return tried(realloc(at, size != 0 ? size : alignment));
}

void rattle_dealloc(void *at)
{
    free(at);
}
