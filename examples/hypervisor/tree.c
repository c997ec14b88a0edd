/* The device tree as a blob: a header, no reservations, the structure, and the names of the properties. Numbers have
 * their highest byte first. */
#include <stdio.h>
#include <string.h>
#include "board.h"
#include "tree.h"

#define MAGIC UINT32_C(0xd00dfeed)
enum { BEGIN_NODE = 1, END_NODE = 2, PROPERTY = 3, END = 9, HEADER = 40, RESERVATIONS = 16 };
enum { NAMES_MAX = 512, STRUCTURE_AT = HEADER + RESERVATIONS };

/* The handles by which nodes name the processor's and the board's interrupt controllers, and the word that powers
 * off. */
enum { PROCESSOR_INTERRUPTS = 1, BOARD_INTERRUPTS = 2, POWER_WORD = 3 };

struct tree {
    uint8_t *blob;
    size_t length, names_length;
    char names[NAMES_MAX];
    int is_full;
};

static void put_bytes(struct tree *t, const void *bytes, size_t length)
{
    size_t padded = (length + 3) / 4 * 4;

    if (padded > TREE_MAX - t->length) {
        t->is_full = 1;
        return;
    }
    memset(t->blob + t->length, 0, padded);
    memcpy(t->blob + t->length, bytes, length);
    t->length += padded;
}

static void put_word(struct tree *t, uint32_t word)
{
    uint8_t bytes[] = {(uint8_t)(word >> 24), (uint8_t)(word >> 16), (uint8_t)(word >> 8), (uint8_t)word};

    put_bytes(t, bytes, 4);
}

/* Where the name of a property is among the names. */
static uint32_t name_at(struct tree *t, const char *name)
{
    size_t at = 0, length = strlen(name) + 1;

    while (at < t->names_length && strcmp(t->names + at, name) != 0) at += strlen(t->names + at) + 1;
    if (at == t->names_length && length <= NAMES_MAX - at) {
        memcpy(t->names + at, name, length);
        t->names_length += length;
    } else if (at == t->names_length) {
        t->is_full = 1;
    }
    return (uint32_t)at;
}

static void begin(struct tree *t, const char *name)
{
    put_word(t, BEGIN_NODE);
    put_bytes(t, name, strlen(name) + 1);
}

static void begin_at(struct tree *t, const char *name, uint64_t address)
{
    char whole[64];

    snprintf(whole, sizeof whole, "%s@%llx", name, (unsigned long long)address);
    begin(t, whole);
}

static void end(struct tree *t)
{
    put_word(t, END_NODE);
}

static void property(struct tree *t, const char *name, const void *bytes, size_t length)
{
    put_word(t, PROPERTY);
    put_word(t, (uint32_t)length);
    put_word(t, name_at(t, name));
    put_bytes(t, bytes, length);
}

static void text(struct tree *t, const char *name, const char *value)
{
    property(t, name, value, strlen(value) + 1);
}

static void mark(struct tree *t, const char *name)
{
    property(t, name, "", 0);
}

static void word(struct tree *t, const char *name, uint32_t value)
{
    put_word(t, PROPERTY);
    put_word(t, 4);
    put_word(t, name_at(t, name));
    put_word(t, value);
}

/* Two numbers of 64 bits, such as an address and a size. */
static void pair(struct tree *t, const char *name, uint64_t first, uint64_t second)
{
    put_word(t, PROPERTY);
    put_word(t, 16);
    put_word(t, name_at(t, name));
    put_word(t, (uint32_t)(first >> 32));
    put_word(t, (uint32_t)first);
    put_word(t, (uint32_t)(second >> 32));
    put_word(t, (uint32_t)second);
}

static void cells(struct tree *t, uint32_t address, uint32_t size)
{
    word(t, "#address-cells", address);
    word(t, "#size-cells", size);
}

static void put_chosen(struct tree *t, const struct tree_facts *facts)
{
    begin(t, "chosen");
    text(t, "bootargs", facts->arguments);
    text(t, "stdout-path", "/soc/serial@10000000");
    if (facts->initrd != facts->initrd_end) {
        word(t, "linux,initrd-start", (uint32_t)facts->initrd);
        word(t, "linux,initrd-end", (uint32_t)facts->initrd_end);
    }
    end(t);
}

static void put_memory(struct tree *t, uint64_t length)
{
    begin_at(t, "memory", RAM_BASE);
    text(t, "device_type", "memory");
    pair(t, "reg", RAM_BASE, length);
    end(t);
}

static void put_processor(struct tree *t)
{
    begin(t, "cpus");
    cells(t, 1, 0);
    word(t, "timebase-frequency", (uint32_t)TICKS_A_SECOND);
    begin(t, "cpu@0");
    text(t, "device_type", "cpu");
    text(t, "compatible", "riscv");
    word(t, "reg", 0);
    text(t, "status", "okay");
    text(t, "riscv,isa", "rv64imac");
    text(t, "mmu-type", "riscv,sv39");
    begin(t, "interrupt-controller");
    text(t, "compatible", "riscv,cpu-intc");
    word(t, "#interrupt-cells", 1);
    mark(t, "interrupt-controller");
    word(t, "phandle", PROCESSOR_INTERRUPTS);
    end(t);
    end(t);
    end(t);
}

/* The board's interrupt controller: its one context interrupts the processor as 9, the external interrupt of
 * supervisor mode. */
static void put_controller(struct tree *t)
{
    static const uint8_t EXTENDED[] = {0, 0, 0, PROCESSOR_INTERRUPTS, 0, 0, 0, 9};

    begin_at(t, "plic", PLIC_AT);
    text(t, "compatible", "sifive,plic-1.0.0");
    pair(t, "reg", PLIC_AT, PLIC_SIZE);
    word(t, "#interrupt-cells", 1);
    word(t, "#address-cells", 0);
    mark(t, "interrupt-controller");
    property(t, "interrupts-extended", EXTENDED, sizeof EXTENDED);
    word(t, "riscv,ndev", 15);
    word(t, "phandle", BOARD_INTERRUPTS);
    end(t);
}

static void put_uart(struct tree *t)
{
    begin_at(t, "serial", UART_AT);
    text(t, "compatible", "ns16550a");
    pair(t, "reg", UART_AT, UART_SIZE);
    word(t, "clock-frequency", 3686400);
    word(t, "interrupts", UART_INTERRUPT);
    word(t, "interrupt-parent", BOARD_INTERRUPTS);
    end(t);
}

static void put_device(struct tree *t, unsigned device)
{
    uint64_t at = WINDOWS_AT + device * WINDOW_SIZE;

    begin_at(t, "virtio_mmio", at);
    text(t, "compatible", "virtio,mmio");
    pair(t, "reg", at, WINDOW_SIZE);
    word(t, "interrupts", FIRST_INTERRUPT + device);
    word(t, "interrupt-parent", BOARD_INTERRUPTS);
    end(t);
}

static void put_power(struct tree *t)
{
    static const char TEST[] = "sifive,test1\0sifive,test0\0syscon";

    begin_at(t, "test", POWER_AT);
    property(t, "compatible", TEST, sizeof TEST);
    pair(t, "reg", POWER_AT, POWER_SIZE);
    word(t, "phandle", POWER_WORD);
    end(t);
    begin(t, "poweroff");
    text(t, "compatible", "syscon-poweroff");
    word(t, "regmap", POWER_WORD);
    word(t, "offset", 0);
    word(t, "value", POWER_OFF);
    end(t);
}

static void put_structure(struct tree *t, const struct tree_facts *facts)
{
    begin(t, "");
    cells(t, 2, 2);
    text(t, "compatible", "riscv-virtio");
    text(t, "model", "riscv-virtio,vmig");
    put_chosen(t, facts);
    put_memory(t, facts->ram_length);
    put_processor(t);
    begin(t, "soc");
    cells(t, 2, 2);
    text(t, "compatible", "simple-bus");
    mark(t, "ranges");
    put_controller(t);
    put_uart(t);
    for (unsigned device = 0; device < facts->devices; device++) put_device(t, device);
    put_power(t);
    end(t);
    end(t);
    put_word(t, END);
}

size_t tree_write(uint8_t blob[TREE_MAX], const struct tree_facts *facts)
{
    struct tree t = {.blob = blob, .length = STRUCTURE_AT};
    size_t structure_end, whole;

    memset(blob, 0, TREE_MAX);
    put_structure(&t, facts);
    structure_end = t.length;
    put_bytes(&t, t.names, t.names_length);
    whole = t.length;
    t.length = 0;
    put_word(&t, MAGIC);
    put_word(&t, (uint32_t)whole);
    put_word(&t, STRUCTURE_AT);
    put_word(&t, (uint32_t)structure_end);
    put_word(&t, HEADER);
    put_word(&t, 17);
    put_word(&t, 16);
    put_word(&t, 0);
    put_word(&t, (uint32_t)t.names_length);
    put_word(&t, (uint32_t)(structure_end - STRUCTURE_AT));
    return t.is_full ? 0 : whole;
}
