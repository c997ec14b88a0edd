/* Standard output, to which a thread writes what the guest prints. Where nobody reads it, no one waits but who has
 * more to print. */
#ifndef OUTPUT_H
#define OUTPUT_H

#include <stddef.h>
#include <stdint.h>

/* Begins its thread, or ends the program. At the end of the program what is left is written, for half a second where
 * the operator ends it. */
void output_begin(void);

/* Whether a whole message of a console has room. Where it has none the bell rings once it has. */
int output_has_room(void);
/* The bell, an eventfd. */
int output_bell(void);

/* These bytes are written after those before. What has no room is lost. */
void output_write(const uint8_t *bytes, size_t length);

#endif
