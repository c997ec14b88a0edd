#define _DEFAULT_SOURCE
#include <poll.h>
#include <stdatomic.h>
#include <stdint.h>
#include <stdlib.h>
#include <string.h>
#include <sys/eventfd.h>
#include <unistd.h>
#include "lookup.h"
#include "terminal.h"

enum { HOST_MAX = 256, PORT_MAX = 32, LOOKUP_MS = 30000 };

/* It belongs to who asks and to the thread, and the last one of both gives it back: who asks may leave earlier. */
struct lookup {
    char host[HOST_MAX], port[PORT_MAX];
    int bell, error;               /* an eventfd: it is done; what getaddrinfo answered */
    struct addrinfo *found;
    atomic_int is_done, users;
};

static const char *split(const char *where, struct lookup *k)
{
    const char *colon = strrchr(where, ':'), *port = colon == NULL ? where : colon + 1;
    size_t length = colon == NULL ? 0 : (size_t)(colon - where), from = 0;

    if (length >= sizeof k->host || strlen(port) >= sizeof k->port) return "the name of the host is too long";
    if (length > 2 && where[0] == '[' && where[length - 1] == ']') {
        from = 1;
        length -= 2;
    }
    strcpy(k->host, "127.0.0.1");
    strcpy(k->port, port);
    if (length == 0) return NULL;
    memcpy(k->host, where + from, length);
    k->host[length] = '\0';
    return NULL;
}

static void ask(struct lookup *k, int flags)
{
    struct addrinfo hints = {.ai_family = AF_UNSPEC, .ai_socktype = SOCK_STREAM, .ai_flags = AI_NUMERICSERV | flags};

    k->error = getaddrinfo(k->host, k->port, &hints, &k->found);
}

static void leave(struct lookup *k)
{
    if (atomic_fetch_sub(&k->users, 1) > 1) return;
    if (k->found != NULL) freeaddrinfo(k->found);
    if (k->bell >= 0) close(k->bell);
    free(k);
}

static void *ask_server(void *of)
{
    struct lookup *k = of;
    uint64_t one = 1;

    ask(k, 0);
    k->is_done = 1;
    if (write(k->bell, &one, sizeof one) < 0) k->is_done = 1;
    leave(k);
    return NULL;
}

/* A name is no number: a thread asks for it. */
static const char *await_server(struct line *l, struct lookup *k)
{
    pthread_t thread;

    k->bell = eventfd(0, EFD_CLOEXEC | EFD_NONBLOCK);
    if (k->bell < 0) return "there is no bell to look up a name";
    k->users = 2;
    if (!begin_thread(&thread, ask_server, k)) {
        k->users = 1;
        return "there is no thread to look up a name";
    }
    pthread_detach(thread);
    while (!k->is_done)
        if (line_wait(l, k->bell, POLLIN, LOOKUP_MS) < 0) return "no server of names answers";
    return NULL;
}

const char *look_up(struct line *l, const char *where, struct addrinfo **found)
{
    struct lookup *k = calloc(1, sizeof *k);
    const char *why;

    if (k == NULL) return "there is no memory to look up a name";
    k->bell = -1;
    k->users = 1;
    why = split(where, k);
    if (why == NULL) ask(k, AI_NUMERICHOST);
    if (why == NULL && k->error == EAI_NONAME) why = await_server(l, k);
    if (why == NULL && k->error != 0) why = gai_strerror(k->error);
    if (why == NULL) {
        *found = k->found;
        k->found = NULL;
    }
    leave(k);
    return why;
}
