/* A wait whose end passes as it begins: between two looks at the clock, as where the processors have more to do than
 * they can. It ends, and does not last as long as a line may be silent. The clock is this test's own: each look is
 * two milliseconds after the one before. */
#define _DEFAULT_SOURCE
#include <poll.h>
#include <stdarg.h>
#include <stdio.h>
#include <stdlib.h>
#include <sys/eventfd.h>
#include <unistd.h>
#include "clock.h"
#include "line.h"
#include "lookup.h"
#include "say.h"
#include "terminal.h"

enum { LOOK_NS = 2000000, SILENCE_MS = 300000, SECONDS = 20, LOOKS = 6 };

struct operator_words operator_words;
static uint64_t now;

uint64_t clock_nanoseconds(void)
{
    return now += LOOK_NS;
}

const char *look_up(struct line *l, const char *where, struct addrinfo **found)
{
    (void)l;
    (void)where;
    *found = NULL;
    return "no name is looked up here";
}

void say(const char *format, ...)
{
    (void)format;
}

void fail(const char *format, ...)
{
    va_list values;

    va_start(values, format);
    vfprintf(stderr, format, values);
    va_end(values);
    exit(1);
}

int main(void)
{
    static struct line l;
    int ends[2], bell = eventfd(0, EFD_NONBLOCK);

    if (bell < 0 || pipe(ends) != 0) fail("wait: there is nothing to wait for\n");
    alarm(SECONDS);
    for (uint64_t looks = 0; looks < LOOKS; looks++) {
        line_prepare(&l, bell, HEARS_NOTHING);
        l.until = now + looks * LOOK_NS + LOOK_NS / 2;
        if (line_wait(&l, ends[0], POLLIN, SILENCE_MS) != -1) fail("wait: it is not over\n");
        if (line_wait(&l, ends[0], POLLIN, -1) != -1) fail("wait: one without silence is not over\n");
    }
    return 0;
}
