/* The other end of a guest's wire: `echo OWN,PEER` answers each frame with the same frame, each byte of its payload
 * one more. It prints the address of each card that announces itself, which it does not answer. */
#include <stdint.h>
#include "../network.h"
#include "../say.h"
#include <poll.h>
#include <stdarg.h>
#include <stdio.h>
#include <stdlib.h>

enum { SOURCE = 6, KIND = 12, PAYLOAD = 22 };

void fail(const char *format, ...)
{
    va_list values;

    va_start(values, format);
    vfprintf(stderr, format, values);
    va_end(values);
    exit(1);
}

static void print_address(const uint8_t *at)
{
    for (int i = 0; i < 6; i++) printf("%02x", at[i]);
    printf("\n");
    fflush(stdout);
}

int main(int count, char **words)
{
    static uint8_t frame[FRAME_MAX];
    struct pollfd wire = {.events = POLLIN};

    if (count != 2) return 2;
    wire.fd = network_open(words[1]);
    for (;;) {
        size_t length = network_receive(wire.fd, frame, FRAME_MAX);

        if (length > KIND + 1 && frame[KIND] == 0x80 && frame[KIND + 1] == 0x35) {
            print_address(frame + SOURCE);
            continue;
        }
        for (size_t i = PAYLOAD; i < length; i++) frame[i]++;
        if (length > 0) network_send(wire.fd, frame, length);
        else poll(&wire, 1, -1);
    }
}
