/* A client of a storage server by the NBD protocol, of one connection, with simple replies: requests go out, and come back in any order. */
#ifndef NBD_H
#define NBD_H

#include <errno.h>
#include <poll.h>
#include <stdint.h>
#include <string.h>
#include <sys/socket.h>
#include <sys/un.h>
#include <unistd.h>

enum { NBD_READ = 0, NBD_WRITE = 1, NBD_FLUSH = 3, NBD_ZERO = 6, NBD_FUA = 1 };
enum { HAS_FLUSH = 1 << 2, HAS_FUA = 1 << 3, HAS_ZERO = 1 << 6, NO_ZEROES = 2, FIXED = 1, EXPORT_NAME = 1 };
enum { NBD_PATH = sizeof ((struct sockaddr_un *)0)->sun_path };
#define NBD_REQUEST UINT32_C(0x25609513)
#define NBD_REPLY UINT32_C(0x67446698)

/* Numbers on the wire have their highest byte first. */
static inline void put_number(uint8_t *at, uint64_t number, int width)
{
    for (int i = 0; i < width; i++) at[i] = (uint8_t)(number >> (8 * (width - 1 - i)));
}

static inline uint64_t get_number(const uint8_t *at, int width)
{
    uint64_t number = 0;

    for (int i = 0; i < width; i++) number = number << 8 | at[i];
    return number;
}

/* False where the connection is broken. */
static inline int send_bytes(int socket, const uint8_t *bytes, size_t length)
{
    while (length > 0) {
        ssize_t sent = send(socket, bytes, length, MSG_NOSIGNAL);

        if (sent < 0 && errno == EINTR) continue;
        if (sent <= 0) return 0;
        bytes += sent;
        length -= (size_t)sent;
    }
    return 1;
}

static inline int receive_bytes(int socket, uint8_t *bytes, size_t length)
{
    while (length > 0) {
        ssize_t got = recv(socket, bytes, length, 0);

        if (got < 0 && errno == EINTR) continue;
        if (got <= 0) return 0;
        bytes += got;
        length -= (size_t)got;
    }
    return 1;
}

/* The greeting of the server, the choice of its only export, and what it can do. */
static inline int greet(int socket)
{
    uint8_t greeting[18], choice[20], export[10];
    uint16_t wanted = HAS_FLUSH | HAS_FUA | HAS_ZERO;

    if (!receive_bytes(socket, greeting, sizeof greeting) || memcmp(greeting, "NBDMAGICIHAVEOPT", 16) != 0) return 0;
    put_number(choice, FIXED | NO_ZEROES, 4);
    memcpy(choice + 4, "IHAVEOPT", 8);
    put_number(choice + 12, EXPORT_NAME, 4);
    put_number(choice + 16, 0, 4);
    if (!send_bytes(socket, choice, sizeof choice) || !receive_bytes(socket, export, sizeof export)) return 0;
    return (get_number(export + 8, 2) & wanted) == wanted;
}

/* A connection to the server at this path, or -1. */
static inline int nbd_connect(const char path[NBD_PATH])
{
    struct sockaddr_un address = {.sun_family = AF_UNIX};
    int connection = socket(AF_UNIX, SOCK_STREAM, 0);

    memcpy(address.sun_path, path, NBD_PATH);
    if (connection >= 0 && connect(connection, (struct sockaddr *)&address, sizeof address) == 0 && greet(connection)) return connection;
    if (connection >= 0) close(connection);
    return -1;
}

static inline int nbd_send(int connection, uint16_t type, uint16_t flags, uint64_t handle, uint64_t at, uint32_t length, const uint8_t *bytes)
{
    uint8_t head[28];

    put_number(head, NBD_REQUEST, 4);
    put_number(head + 4, flags, 2);
    put_number(head + 6, type, 2);
    put_number(head + 8, handle, 8);
    put_number(head + 16, at, 8);
    put_number(head + 24, length, 4);
    return send_bytes(connection, head, sizeof head) && (type != NBD_WRITE || send_bytes(connection, bytes, length));
}

/* The head of the next reply. What a read gives comes after it. */
static inline int nbd_receive(int connection, uint64_t *handle, uint32_t *error)
{
    uint8_t head[16];

    if (!receive_bytes(connection, head, sizeof head) || get_number(head, 4) != NBD_REPLY) return 0;
    *error = (uint32_t)get_number(head + 4, 4);
    *handle = get_number(head + 8, 8);
    return 1;
}

static inline int nbd_has_come(int connection, int milliseconds)
{
    struct pollfd poll_of = {.fd = connection, .events = POLLIN};

    return poll(&poll_of, 1, milliseconds) > 0;
}

#endif
