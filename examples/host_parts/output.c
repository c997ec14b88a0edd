#define _DEFAULT_SOURCE
#include <errno.h>
#include <poll.h>
#include <pthread.h>
#include <stdlib.h>
#include <sys/eventfd.h>
#include <time.h>
#include <unistd.h>
#include "clock.h"
#include "output.h"
#include "say.h"
#include "terminal.h"

/* The bytes that wait at most, and those of a message. A test may let fewer wait. */
#ifndef OUTPUT_MAX
#define OUTPUT_MAX 262144
#endif
enum { MESSAGE_MAX = 65536, WAIT_MS = 20, END_MS = 500 };

static struct {
    pthread_mutex_t lock;
    pthread_cond_t changed;
    uint8_t bytes[OUTPUT_MAX];
    size_t from, count;     /* where the first byte is that waits, and how many do */
    int bell, is_awaited;   /* somebody waits for room */
} output = {.lock = PTHREAD_MUTEX_INITIALIZER, .changed = PTHREAD_COND_INITIALIZER, .bell = -1};

static int has_room(void)
{
    return OUTPUT_MAX - output.count >= MESSAGE_MAX;
}

/* These were written, or are lost as nobody is there who reads. */
static void take_away(size_t length)
{
    uint64_t one = 1;

    output.from = (output.from + length) % OUTPUT_MAX;
    output.count -= length;
    pthread_cond_broadcast(&output.changed);
    if (!output.is_awaited || !has_room()) return;
    output.is_awaited = 0;
    if (write(output.bell, &one, sizeof one) < 0) fail("standard output has no bell");
}

/* Some bytes, with the lock free. Returns how many are done with. */
static size_t write_some(size_t from, size_t length)
{
    struct pollfd out = {.fd = STDOUT_FILENO, .events = POLLOUT};
    ssize_t put;

    poll(&out, 1, -1);
    say_no_more();
    put = write(STDOUT_FILENO, output.bytes + from, length);
    if (put < 0 && (errno == EINTR || errno == EAGAIN)) return 0;
    return put < 0 ? length : (size_t)put;
}

static void *write_all(void *of)
{
    pthread_mutex_lock(&output.lock);
    for (;;) {
        size_t from, length, done;

        while (output.count == 0) pthread_cond_wait(&output.changed, &output.lock);
        from = output.from;
        length = output.count < OUTPUT_MAX - from ? output.count : OUTPUT_MAX - from;
        pthread_mutex_unlock(&output.lock);
        done = write_some(from, length);
        pthread_mutex_lock(&output.lock);
        take_away(done);
    }
    return of;
}

/* At the end of the program. */
static void finish(void)
{
    uint64_t until = UINT64_MAX;
    struct timespec moment;

    pthread_mutex_lock(&output.lock);
    while (output.count > 0 && clock_nanoseconds() < until) {
        if (operator_words.ends && until == UINT64_MAX) until = clock_nanoseconds() + END_MS * UINT64_C(1000000);
        clock_gettime(CLOCK_REALTIME, &moment);
        moment.tv_nsec += WAIT_MS * 1000000L;
        if (moment.tv_nsec >= 1000000000L) {
            moment.tv_sec++;
            moment.tv_nsec -= 1000000000L;
        }
        pthread_cond_timedwait(&output.changed, &output.lock, &moment);
    }
    pthread_mutex_unlock(&output.lock);
}

void output_begin(void)
{
    pthread_t thread;

    output.bell = eventfd(0, EFD_CLOEXEC | EFD_NONBLOCK);
    if (output.bell < 0 || !begin_thread(&thread, write_all, NULL)) fail("there is no thread for standard output");
    pthread_detach(thread);
    if (atexit(finish) != 0) fail("there is no memory for the end of standard output");
}

int output_has_room(void)
{
    int has;

    pthread_mutex_lock(&output.lock);
    has = has_room();
    if (!has) output.is_awaited = 1;
    pthread_mutex_unlock(&output.lock);
    return has;
}

int output_bell(void)
{
    return output.bell;
}

void output_write(const uint8_t *bytes, size_t length)
{
    pthread_mutex_lock(&output.lock);
    for (size_t i = 0; i < length && output.count < OUTPUT_MAX; i++) {
        output.bytes[(output.from + output.count) % OUTPUT_MAX] = bytes[i];
        output.count++;
    }
    pthread_cond_broadcast(&output.changed);
    pthread_mutex_unlock(&output.lock);
}
