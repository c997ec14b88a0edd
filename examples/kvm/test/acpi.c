/* Walks the tables of ACPI as a kernel does, from the RSDP on, for a board with COUNT devices: `acpi COUNT`. Checks
 * their sums, and leaves each table in a file of its name. */
#include <stdio.h>
#include <stdlib.h>
#include <string.h>
#include "../boot.h"

enum { HEAD = 36 };

static uint8_t ram[HIGH];

static uint64_t number(uint64_t at, unsigned size)
{
    uint64_t value = 0;

    for (unsigned i = size; i > 0; i--) value = value << 8 | ram[at + i - 1];
    return value;
}

static void expect(int is_right, const char *what)
{
    if (is_right) return;
    fprintf(stderr, "acpi: %s\n", what);
    exit(1);
}

static void expect_sum(uint64_t at, uint64_t length)
{
    uint8_t sum = 0;

    expect(at >= ACPI_AT && length <= ACPI_END - at, "a table is not where tables are");
    for (uint64_t i = 0; i < length; i++) sum = (uint8_t)(sum + ram[at + i]);
    expect(sum == 0, "the bytes of a table do not add up to 0");
}

/* Leaves a table in NAME.aml. Returns where it ends. */
static uint64_t take(uint64_t at, const char *name)
{
    uint64_t length = number(at + 4, 4);
    char file_name[16];
    FILE *file;

    expect(memcmp(ram + at, name, 4) == 0, "a table has another name");
    expect_sum(at, length);
    snprintf(file_name, sizeof file_name, "%s.aml", name);
    file = fopen(file_name, "wb");
    expect(file != NULL && fwrite(ram + at, 1, length, file) == length, "a file cannot be written");
    expect(fclose(file) == 0, "a file cannot be written");
    return at + length;
}

int main(int count, char **words)
{
    uint64_t rsdp, xsdt, fadt;

    expect(count == 2, "usage: acpi COUNT");
    rsdp = acpi_write(ram, (unsigned)atoi(words[1]));
    expect(rsdp % 16 == 0 && memcmp(ram + rsdp, "RSD PTR ", 8) == 0, "there is no RSDP");
    expect_sum(rsdp, 20);
    expect_sum(rsdp, 36);
    xsdt = number(rsdp + 24, 8);
    expect(take(xsdt, "XSDT") == xsdt + HEAD + 2 * 8, "the XSDT does not name two tables");
    fadt = number(xsdt + HEAD, 8);
    take(fadt, "FACP");
    take(number(xsdt + HEAD + 8, 8), "APIC");
    take(number(fadt + 140, 8), "DSDT");
    return 0;
}
