#define _DEFAULT_SOURCE
#include <poll.h>
#include <signal.h>
#include <stdint.h>
#include <string.h>
#include <sys/eventfd.h>
#include <unistd.h>
#include "say.h"
#include "terminal.h"
#include "watch.h"

static struct kvm_run *volatile running;

/* KVM_RUN is interrupted by a signal, but one that comes just before it would be lost: so the next KVM_RUN comes out
 * at once. Only the guest's thread writes the word. It is cleared where KVM_RUN came out for it, and before anything
 * is looked at. */
static void come_out(void)
{
    struct kvm_run *run = running;

    if (run != NULL) run->immediate_exit = 1;
}

static void on_signal(int signal_number)
{
    (void)signal_number;
    come_out();
}

void watch_guest(struct kvm_run *run)
{
    running = run;
}

void watch_call(struct watch *w)
{
    pthread_kill(w->guest, SIGIO);
}

static void ring(const struct watch *w)
{
    uint64_t one = 1;

    if (write(w->bell, &one, sizeof one) != sizeof one) fail("the watch has no bell");
}

/* Once it has called the guest out, it waits until the guest's thread awaits something anew. */
static void *watch(void *of)
{
    struct watch *w = of;
    struct pollfd all[WATCHED + 1] = {{.fd = -1}};
    int milliseconds = -1, stops = 0;

    for (int i = 0; i < WATCHED; i++) all[i].fd = -1;
    all[WATCHED] = (struct pollfd){.fd = w->bell, .events = POLLIN};
    while (!stops) {
        uint64_t rings;
        int count = poll(all, WATCHED + 1, milliseconds), is_rung = count > 0 && all[WATCHED].revents != 0;

        if (is_rung && read(w->bell, &rings, sizeof rings) < 0) continue;
        if (!is_rung) watch_call(w);
        pthread_mutex_lock(&w->lock);
        for (int i = 0; i < WATCHED; i++) all[i] = (struct pollfd){.fd = is_rung ? w->files[i] : -1, .events = POLLIN};
        milliseconds = is_rung ? w->milliseconds : -1;
        stops = w->stops;
        pthread_mutex_unlock(&w->lock);
    }
    return NULL;
}

void watch_begin(struct watch *w)
{
    struct sigaction action = {.sa_handler = on_signal, .sa_flags = SA_RESTART};

    sigemptyset(&action.sa_mask);
    sigaction(SIGIO, &action, NULL);
    operator_speaks = come_out;
    w->guest = pthread_self();
    w->bell = eventfd(0, EFD_CLOEXEC);
    w->milliseconds = -1;
    for (int i = 0; i < WATCHED; i++) w->files[i] = -1;
    pthread_mutex_init(&w->lock, NULL);
    if (w->bell < 0 || !begin_thread(&w->thread, watch, w)) fail("there is no thread that waits for input");
}

void watch_end(struct watch *w)
{
    pthread_mutex_lock(&w->lock);
    w->stops = 1;
    pthread_mutex_unlock(&w->lock);
    ring(w);
    pthread_join(w->thread, NULL);
    close(w->bell);
}

void watch_for(struct watch *w, const int files[WATCHED], int milliseconds, int anew)
{
    if (!anew && milliseconds == w->milliseconds && memcmp(files, w->files, sizeof w->files) == 0) return;
    pthread_mutex_lock(&w->lock);
    memcpy(w->files, files, sizeof w->files);
    w->milliseconds = milliseconds;
    pthread_mutex_unlock(&w->lock);
    ring(w);
}
