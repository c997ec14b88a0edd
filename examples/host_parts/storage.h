/* The disks whose requests the guest's host serves as they come: calls of the library go to a pool of threads, and
 * what came of them goes back. */
#ifndef STORAGE_H
#define STORAGE_H

#include <stdint.h>

struct host;

/* Begins the pool, where there is such a disk. Returns why there is none, or NULL. */
const char *storage_begin(struct host *h);
/* What is under way is done, and the pool ends. So does the program, where its operator ends it and a disk does not
 * answer for half a second. */
void storage_end(struct host *h);

/* The file on which bytes come once something is done, or -1. */
int storage_bell(const struct host *h);

/* The library is told which disks are lost that are not mapped: before any answer that comes after it. */
void storage_tell_lost(struct host *h);
/* Hands in what is done; for a read that takes RAM back. True where there was something: a step may have something
 * to do then. */
int storage_answer(struct host *h);
/* Takes all calls that the library has, and that there is room for, with RAM taken back. */
void storage_ask(struct host *h);

/* Answers what is done of all that is out, or waits a moment for it with the lock free. False once nothing is out. */
int storage_waits(struct host *h);
/* The same until nothing is out: before a reset of the machine. False where the operator ends the program meanwhile. */
int storage_drain(struct host *h);
/* The driver of a device resets it, and wants no answer of what is out: one call of it is answered, or awaited for a
 * moment with the lock free. RAM stays lent. False where the operator ends the program meanwhile. */
int storage_drop(struct host *h, uint8_t dev);

#endif
