/* The library has tables by which debuggers, profilers and sanitizers walk through it: from each request for memory, in each call that makes
 * one, up to what main returns to. A malloc of this program looks. */
#define _DEFAULT_SOURCE
#include <execinfo.h>
#include <stdlib.h>
#include "driver.h"

/* The C library's own allocator, under the names that it keeps for a program with its own malloc. */
void *__libc_malloc(size_t size);
void *__libc_realloc(void *at, size_t size);

static const void *end_of_the_way;      /* what main returns to */
static int is_looking;
static uint64_t requests, walked;

/* Walks up from here. The walk asks for memory too. */
static void look(void)
{
    void *frames[100];

    if (!is_looking) return;
    is_looking = 0, requests++;
    for (int n = backtrace(frames, 100) - 1; n >= 0; n--)
        if (frames[n] == end_of_the_way) walked++, n = 0;
    is_looking = 1;
}

void *malloc(size_t size)
{
    look();
    return __libc_malloc(size);
}

void *realloc(void *old, size_t size)
{
    look();
    return __libc_realloc(old, size);
}

/* Of this call. */
static void was_walked(const char *call)
{
    is_looking = 0;
    expect(call, requests > 0, 1);
    expect(call, walked, requests);
    requests = walked = 0;
}

int main(void)
{
    static const vmig_shape shapes[] = {{.kind = VMIG_NETWORK}, {.kind = VMIG_BLOCK, .sectors = 1}, {.kind = VMIG_CONSOLE}};
    static uint8_t stream[1 << 16];
    vmig_machine m = VMIG_NONE, other = VMIG_NONE;
    vmig_setup setup = VMIG_SETUP;
    vmig_arrival arrival = VMIG_ARRIVAL;
    void *first[1];
    size_t len = 0;

    (void)backtrace(first, 1);          /* what it loads it loads here */
    end_of_the_way = __builtin_return_address(0);
    setup.pages = 2, setup.shapes = shapes, setup.count = 3;
    arrival.most_pages = 2, arrival.most_sectors = 1;
    is_looking = 1;
    expect("make", vmig_make(&setup, &m), VMIG_OK);
    was_walked("vmig_make");
    is_looking = 1;
    expect("save", vmig_save(&m, stream, sizeof stream, &len), VMIG_OK);
    was_walked("vmig_save");
    is_looking = 1;
    expect("arrive", vmig_arrive(&arrival, &other), VMIG_OK);
    was_walked("vmig_arrive");
    is_looking = 1;
    expect("feed", vmig_feed(&other, stream, len), VMIG_WHOLE);
    was_walked("vmig_feed");
    vmig_free(&m);
    vmig_free(&other);
    return ended("unwound");
}
