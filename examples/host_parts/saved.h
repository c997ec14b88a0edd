/* The file of a saved guest: the frames of a move from HELLO to END, whose digest covers all of it, the stream too. It
 * has its name once it is whole and on its storage. */
#ifndef SAVED_H
#define SAVED_H

#include "line.h"

/* Begins the file under another name beside this one. Returns why it cannot, or NULL. */
const char *saved_create(struct line *l, const char *name);
/* All frames are in it, and are brought to the storage. Returns why they cannot be, or NULL. */
const char *saved_close(struct line *l);
/* It takes its name, in place of what had it. Returns why it cannot, or NULL; then there is no such file. */
const char *saved_keep(const char *name);
/* What has not got its name goes. */
void saved_drop(void);

/* A guest continues from it, and no second one is to. Returns why it cannot go, or NULL. */
const char *saved_remove(const char *name);

/* Opens the file, and looks whether it is whole, before anything of it is taken. Returns what is wrong, or NULL. */
const char *saved_open(struct line *l, const char *name);

#endif
