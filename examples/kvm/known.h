/* What is known of CPUID: each bit that a guest may be offered, by its name. A bit that is not here no guest is
 * offered, as its state may be in no list of state.c. */
#ifndef KNOWN_H
#define KNOWN_H

#include <stdint.h>

enum name { EAX, EBX, ECX, EDX };

/* The bits of a register of a leaf that are features, which another host is compared by; and those that are names,
 * counts and sizes, which a guest keeps. */
uint32_t known_features(uint32_t leaf, uint32_t index, enum name name);
uint32_t known_values(uint32_t leaf, uint32_t index, enum name name);

/* The names of the bits of a register, for word_at, or NULL. */
const char *known_names(uint32_t leaf, uint32_t index, enum name name);

#endif
