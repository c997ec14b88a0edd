/* Texts that name the bits of a register, a word for each from the lowest on, with a space between two. `-` is a bit
 * without a name. */
#ifndef WORDS_H
#define WORDS_H

#include <stdint.h>

/* The longest word, with its end. */
enum { WORD_MAX = 32 };

/* The word of a bit, which is put into `word`, or "which has no name". `names` may be NULL. */
const char *word_at(const char *names, int bit, char word[WORD_MAX]);

/* The bits that have a name. */
uint32_t named_bits(const char *names);

#endif
