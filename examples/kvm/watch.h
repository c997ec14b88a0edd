/* A guest that runs does not look around: a thread waits for what comes in, and calls it out. */
#ifndef WATCH_H
#define WATCH_H

#include <linux/kvm.h>
#include <pthread.h>

enum { WATCHED = 4 };

struct watch {
    pthread_t thread, guest;    /* the latter is where KVM_RUN is called */
    pthread_mutex_t lock;
    int bell;                   /* an eventfd: what is awaited has changed */
    int files[WATCHED];         /* bytes on these, or this number of milliseconds, call the guest out; -1 is none */
    int milliseconds, stops;
};

/* Begins it, in the thread of the guest. Ends the program where that fails. */
void watch_begin(struct watch *w);
void watch_end(struct watch *w);

/* This guest is called out from here on; NULL: none. */
void watch_guest(struct kvm_run *run);

/* The guest is called out at once. Any thread may call this. */
void watch_call(struct watch *w);

/* What the guest is called out for from here on, once. `anew`: it came out for what was awaited before. */
void watch_for(struct watch *w, const int files[WATCHED], int milliseconds, int anew);

#endif
