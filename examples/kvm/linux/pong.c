/* The other end of a guest's wire: `pong OWN,PEER` is 10.0.0.1. It answers ARP and pings. */
#include <poll.h>
#include <stdarg.h>
#include <stdint.h>
#include <stdio.h>
#include <stdlib.h>
#include <string.h>
#include "network.h"
#include "say.h"

/* Where things are in a frame. */
enum {
    TO = 0, FROM = 6, KIND = 12, OPERATION = 20, SENDER = 22, SENDER_IP = 28, TARGET = 32, PROTOCOL = 23,
    SOURCE_IP = 26, TARGET_IP = 30
};
enum { ICMP = 34, CHECKSUM = 36, ECHO = 8, REQUEST = 1, ANSWER = 2 };

static const uint8_t OWN[6] = {2, 0, 0, 0, 0, 1};

void fail(const char *format, ...)
{
    va_list values;

    va_start(values, format);
    vfprintf(stderr, format, values);
    va_end(values);
    exit(1);
}

/* Who has this address? This one. */
static int answers_arp(uint8_t *f)
{
    uint8_t asked[4];

    if (f[KIND] != 8 || f[KIND + 1] != 6 || f[OPERATION + 1] != REQUEST) return 0;
    f[OPERATION + 1] = ANSWER;
    memcpy(asked, f + 38, 4);
    memcpy(f + TARGET, f + SENDER, 10);
    memcpy(f + SENDER, OWN, 6);
    memcpy(f + SENDER_IP, asked, 4);
    return 1;
}

/* An echo request has the type 8, and its answer 0: the checksum grows by as much. */
static int answers_ping(uint8_t *f)
{
    uint8_t from[4];
    uint32_t sum = (uint32_t)(f[CHECKSUM] << 8 | f[CHECKSUM + 1]) + (ECHO << 8);

    if (f[KIND] != 8 || f[KIND + 1] != 0 || f[PROTOCOL] != 1 || f[ICMP] != ECHO) return 0;
    memcpy(from, f + SOURCE_IP, 4);
    memcpy(f + SOURCE_IP, f + TARGET_IP, 4);
    memcpy(f + TARGET_IP, from, 4);
    f[ICMP] = 0;
    sum = (sum & 0xffff) + (sum >> 16);
    f[CHECKSUM] = (uint8_t)(sum >> 8);
    f[CHECKSUM + 1] = (uint8_t)sum;
    return 1;
}

int main(int count, char **words)
{
    static uint8_t f[FRAME_MAX];
    struct pollfd wire = {.events = POLLIN};

    if (count != 2) return 2;
    wire.fd = network_open(words[1]);
    for (;;) {
        size_t length = network_receive(wire.fd, f, FRAME_MAX);

        if (length == 0) poll(&wire, 1, -1);
        if (length < 42 || !(answers_arp(f) || answers_ping(f))) continue;
        memcpy(f + TO, f + FROM, 6);
        memcpy(f + FROM, OWN, 6);
        network_send(wire.fd, f, length);
    }
}
