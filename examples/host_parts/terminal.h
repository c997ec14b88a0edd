/* The terminal, and the signals of the operator. */
#ifndef TERMINAL_H
#define TERMINAL_H

#include <pthread.h>
#include <signal.h>
#include <stddef.h>
#include <stdint.h>

/* What the operator asked for, by a signal or by Ctrl-A and a letter. The program sets a word back when it has done
 * it. */
struct operator_words {
    volatile sig_atomic_t moves, continues, ends, has_new_size;
};

extern struct operator_words operator_words;

/* An eventfd, which rings with each of these words: so none is missed that comes just before a wait. */
extern int operator_bell;

/* Called in the signal's handler after each of these words, if it is not NULL. */
extern void (*operator_speaks)(void);

/* Takes the signals, which come to the thread that calls. */
void terminal_begin(void);

/* Begins a thread, to which no signal comes. False where there is none. */
int begin_thread(pthread_t *thread, void *(*does)(void *), void *of);

/* Takes the terminal over, if standard input is one. At each end of the program it is set back. */
void terminal_take(void);
int terminal_is_taken(void);

/* Reads typed bytes, without those that are for the program. Returns how many, and 0 at the end of the input, after
 * which there is none any more. */
size_t terminal_read(uint8_t *bytes, size_t size);
int terminal_has_ended(void);

/* Its size in characters. False where standard output is no terminal. */
int terminal_size(uint16_t *columns, uint16_t *rows);

#endif
