/* What the guest touches or asks of the board that needs no virtio device. */
#include "host.h"
#include "memory.h"
#include "output.h"

static void print(uint64_t byte)
{
    uint8_t bytes[] = {(uint8_t)byte};

    output_write(bytes, 1);
}

static uint32_t read_device(struct host *h, uint64_t address, unsigned width)
{
    if (lies_in(address, UART_AT, UART_SIZE)) return uart_read(&h->uart, &h->typed, address - UART_AT);
    if (lies_in(address, PLIC_AT, PLIC_SIZE) && width == 4)
        return interrupts_read(&h->guest.interrupts, address - PLIC_AT);
    return 0;
}

static void power_off(struct host *h, uint64_t outcome)
{
    h->has_ended = 1;
    h->outcome = outcome;
}

static void write_device(struct host *h, uint64_t address, unsigned width, uint32_t value)
{
    if (lies_in(address, UART_AT, UART_SIZE)) {
        int sent = uart_write(&h->uart, address - UART_AT, value);

        if (sent >= 0) print((uint64_t)sent);
    } else if (lies_in(address, PLIC_AT, PLIC_SIZE)) {
        if (width == 4) interrupts_write(&h->guest.interrupts, address - PLIC_AT, value);
    } else if (address == POWER_AT) {
        uint32_t word = value & 0xffff;

        if (word == POWER_OFF) power_off(h, 0);
        if (word == POWER_RESET) h->reboots = 1;
        if (word == POWER_FAIL) power_off(h, value >> 16);
    }
}

int board_answers(struct host *h)
{
    struct guest_exit *exit = &h->guest.processor.exit;

    if ((exit->kind == EXIT_READ || exit->kind == EXIT_WRITE) &&
        lies_in(exit->address, WINDOWS_AT, WINDOWS * WINDOW_SIZE)) {
        h->touched =
            (struct touched){exit->address - WINDOWS_AT, (uint32_t)exit->value, exit->width, exit->kind == EXIT_WRITE};
        return 0;
    }
    switch (exit->kind) {
    case EXIT_READ: processor_loads(&h->guest.processor, read_device(h, exit->address, exit->width)); break;
    case EXIT_WRITE: write_device(h, exit->address, exit->width, (uint32_t)exit->value); break;
    case EXIT_PRINT: print(exit->value); break;
    case EXIT_TYPED: processor_loads(&h->guest.processor, (uint64_t)(int64_t)typed_take(&h->typed)); break;
    case EXIT_OFF: power_off(h, exit->value); break;
    case EXIT_REBOOT: h->reboots = 1; break;
    default: return 1;
    }
    set_lines(h);
    return 1;
}

void board_reset(struct host *h)
{
    h->guest.interrupts = (struct interrupts){0};
    h->uart = (struct uart){0};
}
