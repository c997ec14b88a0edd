/* Loaded before a program, it refuses one of its requests for memory: the n-th, where REFUSE=n. At the end it writes how many
 * there were to descriptor 9, where that is open. The C library keeps its own allocator under the names __libc_*. */
#include <stdio.h>
#include <stdlib.h>
#include <unistd.h>

void *__libc_malloc(size_t size);
void *__libc_calloc(size_t count, size_t size);
void *__libc_realloc(void *at, size_t size);

static unsigned long requests, refused;
static int is_read;

static int is_refused(void)
{
    if (!is_read) {
        const char *text = getenv("REFUSE");
        refused = text ? strtoul(text, NULL, 10) : 0;
        is_read = 1;
    }
    return ++requests == refused;
}

void *malloc(size_t size)
{
    return is_refused() ? NULL : __libc_malloc(size);
}

void *calloc(size_t count, size_t size)
{
    return is_refused() ? NULL : __libc_calloc(count, size);
}

void *realloc(void *at, size_t size)
{
    return is_refused() ? NULL : __libc_realloc(at, size);
}

__attribute__((destructor)) static void tell(void)
{
    char text[32];
    int len = snprintf(text, sizeof text, "%lu\n", requests);
    if (write(9, text, (size_t)len) < 0) return;
}
