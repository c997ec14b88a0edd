/* A line that breaks: `cut PORT WHERE` accepts one connection at a free port of 127.0.0.1, which it prints, connects
 * it to PORT there, and hands on what comes, frame by frame. WHERE is the type of the frame before which it breaks,
 * or `bytes=N`: after N bytes of the source. Both ends are closed then. Or the line stays whole, and WHERE is one of
 * these:
 * - `turn=TYPE:N`: bit N of each frame of this type, its head first, is another one.
 * - `spoil=TYPE:N`: byte N of each frame of this type, behind its head, is changed, and END's digest is made right.
 * - `lose`: END says that the first disk is lost, and its digest is made right.
 * - `slow`: each frame of the source waits for some time.
 * - `hold=TYPE`: nothing is handed on from a frame of this type on.
 * - `byte`: the source gets one byte more of the target after its first frame. */
#define _DEFAULT_SOURCE
#include <arpa/inet.h>
#include <poll.h>
#include <stdint.h>
#include <stdio.h>
#include <stdlib.h>
#include <string.h>
#include <sys/socket.h>
#include <unistd.h>
#include "../line.h"

/* The names of the frames, in the order of their types. */
static const char *const NAMES[] = {"",      "hello", "welcome", "stream",  "state", "end",
                                    "ready", "go",    "runs",    "refused", "ended"};

static char *where;
static const char *spoils = "", *turns = "", *holds = "";
static unsigned long bytes_left = (unsigned long)-1, spoiled, turned;
static int is_lost;
static vmig_digest digest; /* of what the target said, and what it heard */

enum { WAIT_US = 5000, FIRST_DISK = 2 };

static struct sockaddr_in address_of(int port)
{
    struct sockaddr_in a = {.sin_family = AF_INET, .sin_port = htons((uint16_t)port)};

    a.sin_addr.s_addr = htonl(INADDR_LOOPBACK);
    return a;
}

static int accept_one(void)
{
    struct sockaddr_in own = address_of(0);
    socklen_t length = sizeof own;
    int listener = socket(AF_INET, SOCK_STREAM, 0), one;

    if (bind(listener, (struct sockaddr *)&own, sizeof own) != 0 || listen(listener, 1) != 0) exit(1);
    getsockname(listener, (struct sockaddr *)&own, &length);
    printf("%d\n", ntohs(own.sin_port));
    fflush(stdout);
    one = accept(listener, NULL, NULL);
    close(listener);
    return one;
}

/* Reads `length` bytes, or ends the program, and both lines with it. */
static void read_all(int from, uint8_t *bytes, size_t length)
{
    while (length > 0) {
        ssize_t got = read(from, bytes, length);

        if (got <= 0) exit(0);
        bytes += got;
        length -= (size_t)got;
    }
}

static void write_all(int to, const uint8_t *bytes, size_t length)
{
    while (length > 0) {
        ssize_t put = write(to, bytes, length);

        if (put <= 0) exit(0);
        bytes += put;
        length -= (size_t)put;
    }
}

/* Changes what is to be changed of a frame, whose body has this length. */
static void change(uint8_t *frame, size_t length)
{
    const char *name = NAMES[frame[0]];

    if (strcmp(name, spoils) == 0 && spoiled < length) frame[FRAME_HEAD + spoiled] ^= 0x80;
    if (frame[0] == END && is_lost) frame[FRAME_HEAD] |= 1 << FIRST_DISK;
    if (strcmp(name, turns) == 0 && turned / 8 < FRAME_HEAD + length) frame[turned / 8] ^= (uint8_t)(1 << turned % 8);
}

/* Adds a frame to the digest, as line.c does. An END gets what the target will find. */
static void add(uint8_t *frame, size_t length)
{
    if (frame[0] == END) length = LOST_LENGTH;
    vmig_digest_add(&digest, frame, frame[0] == STREAM ? FRAME_HEAD : FRAME_HEAD + length);
    if (frame[0] == END) vmig_digest_end(&digest, frame + FRAME_HEAD + LOST_LENGTH);
}

/* Changes a frame on its way. Who changes it on purpose keeps the digest right. */
static void change_or_add(uint8_t *frame, size_t length, int is_source)
{
    int keeps_digest = is_lost || spoils[0] != '\0';

    if (is_source) change(frame, length);
    if (keeps_digest) add(frame, length);
    if (!is_source) change(frame, length);
}

/* Hands one frame on, or breaks the line. */
static void hand_on(int from, int to, int is_source)
{
    static uint8_t frame[FRAME_HEAD + BODY_MAX];
    size_t length;
    int is_welcome;

    read_all(from, frame, FRAME_HEAD);
    length = frame[4] | (size_t)frame[5] << 8 | (size_t)frame[6] << 16;
    if (frame[0] >= sizeof NAMES / sizeof *NAMES || length > BODY_MAX) exit(1);
    if (strcmp(NAMES[frame[0]], where) == 0) exit(0);
    if (strcmp(NAMES[frame[0]], holds) == 0) fprintf(stderr, "cut: the line is silent from here on\n");
    while (strcmp(NAMES[frame[0]], holds) == 0) pause();
    is_welcome = frame[0] == WELCOME;
    read_all(from, frame + FRAME_HEAD, length);
    change_or_add(frame, length, is_source);
    length += FRAME_HEAD;
    if (is_source && strcmp(where, "slow") == 0) usleep(WAIT_US);
    if (is_source && length > bytes_left) {
        write_all(to, frame, bytes_left);
        exit(0);
    }
    if (is_source) bytes_left -= length;
    write_all(to, frame, length);
    if (is_welcome && strcmp(where, "byte") == 0) write_all(to, frame, 1);
}

/* TYPE:N, behind this word and `=`, if it is WHERE. */
static void name_part(const char *word, const char **type, unsigned long *number)
{
    size_t length = strlen(word);
    char *end;

    if (strncmp(where, word, length) != 0 || where[length] != '=' || (end = strchr(where, ':')) == NULL) return;
    *end = '\0';
    *type = where + length + 1;
    *number = strtoul(end + 1, NULL, 10);
}

int main(int count, char **words)
{
    struct sockaddr_in target;
    int source, other;

    if (count != 3) return 2;
    where = words[2];
    vmig_digest_begin(&digest);
    is_lost = strcmp(where, "lose") == 0;
    name_part("spoil", &spoils, &spoiled);
    name_part("turn", &turns, &turned);
    if (strncmp(where, "hold=", 5) == 0) holds = where + 5;
    if (strncmp(where, "bytes=", 6) == 0) bytes_left = strtoul(where + 6, NULL, 10);
    target = address_of(atoi(words[1]));
    source = accept_one();
    other = socket(AF_INET, SOCK_STREAM, 0);
    if (connect(other, (struct sockaddr *)&target, sizeof target) != 0) return 1;
    for (;;) {
        struct pollfd ends[] = {{.fd = source, .events = POLLIN}, {.fd = other, .events = POLLIN}};

        poll(ends, 2, -1);
        if (ends[0].revents != 0) hand_on(source, other, 1);
        if (ends[1].revents != 0) hand_on(other, source, 0);
    }
}
