#include <stdio.h>
#include <string.h>
#include "words.h"

static const char NO_NAME[] = "which has no name";

static int is_a_name(const char *word)
{
    return strcspn(word, " ") != 1 || *word != '-';
}

static const char *next_word(const char *word)
{
    word += strcspn(word, " ");
    return *word == '\0' ? NULL : word + 1;
}

const char *word_at(const char *names, int bit, char word[WORD_MAX])
{
    while (names != NULL && bit-- > 0) names = next_word(names);
    if (names == NULL || !is_a_name(names)) return NO_NAME;
    snprintf(word, WORD_MAX, "%.*s", (int)strcspn(names, " "), names);
    return word;
}

uint32_t named_bits(const char *names)
{
    uint32_t bits = 0;

    for (int bit = 0; names != NULL && bit < 32; bit++, names = next_word(names))
        if (is_a_name(names)) bits |= UINT32_C(1) << bit;
    return bits;
}
