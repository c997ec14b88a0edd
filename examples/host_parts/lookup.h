/* The addresses of a name, which a thread of its own looks up: nobody says when a server of names answers. */
#ifndef LOOKUP_H
#define LOOKUP_H

#include <netdb.h>
#include "line.h"

/* The addresses of `[HOST:]PORT`, of this host where none is given. A host with colons has brackets around it. It
 * waits as the line does. Returns why there is none, or NULL; then freeaddrinfo gives *found back. */
const char *look_up(struct line *l, const char *where, struct addrinfo **found);

#endif
