/* RAM and images of the caller are left as they lie: by vmig_free in each state of a machine, by vmig_release, and by an arrival that is refused
 * before a header for them is whole, or is ended there. */
#include <stdlib.h>
#include <string.h>
#include "driver.h"

enum { PAGES = 4, PAGE = 4096, RAM = PAGES * PAGE, SECTORS = 9, SECTOR = 512, LENGTH = SECTORS * SECTOR, STREAM = 1 << 17 };

static const vmig_shape SHAPES[] = {{.kind = VMIG_BLOCK, .sectors = SECTORS}, {.kind = VMIG_ENTROPY}};

/* Memory of the caller, and what it has to hold. */
static _Alignas(PAGE) uint8_t ram[RAM];
static uint8_t image[LENGTH], ram_held[RAM], image_held[LENGTH], stream[STREAM];

static void fill(void)
{
    for (int i = 0; i < RAM; i++) ram[i] = (uint8_t)(i * 7 + i / PAGE + 1);
    for (int i = 0; i < LENGTH; i++) image[i] = (uint8_t)(i * 5 + i / SECTOR + 3);
    memcpy(ram_held, ram, RAM);
    memcpy(image_held, image, LENGTH);
}

static void both_hold(const char *after)
{
    if (memcmp(ram, ram_held, RAM) != 0) expect(after, 1, 0);
    if (memcmp(image, image_held, LENGTH) != 0) expect(after, 2, 0);
}

static vmig_machine made(void)
{
    vmig_machine m = VMIG_NONE;
    vmig_ram ours = {ram, RAM};
    vmig_image disk = {image, SECTORS};

    fill();
    expect("make", make_over(&ours, SHAPES, 2, &disk, 1, &m), VMIG_OK);
    return m;
}

static vmig_machine arriving(uint64_t sectors, uint64_t bytes)
{
    vmig_machine m = VMIG_NONE;
    vmig_ram ours = {ram, bytes};
    vmig_image disk = {image, sectors};

    fill();
    expect("arrive", arrive_over(&ours, &disk, 1, &m), VMIG_OK);
    return m;
}

static void free_made(void)
{
    vmig_machine m = made();
    vmig_ram back = VMIG_NO_RAM;

    vmig_free(&m);
    both_hold("freed while it is idle");
    m = made();
    expect("lend", vmig_lend(&m, &back), VMIG_OK);
    vmig_free(&m);
    both_hold("freed while its RAM is lent");
    m = made();
    expect("begin", vmig_send_begin(&m), VMIG_OK);
    expect("some", vmig_send_some(&m, 3), VMIG_OK);
    vmig_free(&m);
    both_hold("freed while it is sent");
}

static void release_made(void)
{
    vmig_machine m = made();
    vmig_image back = VMIG_NO_IMAGE;
    uint64_t pages = 0, sectors = 0;

    expect("release", vmig_release(&m, &back, 1), VMIG_OK);
    both_hold("released while it is idle");
    m = made();
    back = (vmig_image)VMIG_NO_IMAGE;
    expect("begin", vmig_send_begin(&m), VMIG_OK);
    expect("stop", vmig_send_stop(&m, &pages, &sectors), VMIG_OK);
    expect("release", vmig_release(&m, &back, 1), VMIG_OK);
    both_hold("released after a stop");
}

/* The stream of a machine of zeros, of these sizes. Returns how many bytes it has. */
static size_t stream_of(uint32_t pages, uint64_t sectors)
{
    vmig_shape shapes[] = {{.kind = VMIG_BLOCK, .sectors = sectors}, {.kind = VMIG_ENTROPY}};
    vmig_machine m = VMIG_NONE;
    size_t length = 0;

    expect("make", make_new(pages, shapes, 2, &m), VMIG_OK);
    expect("save", vmig_save(&m, stream, sizeof stream, &length), VMIG_OK);
    vmig_free(&m);
    return length;
}

/* The first `length` bytes of a stream, in pieces of `piece`, until one is refused. Returns the last status. */
static vmig_status feed(vmig_machine *m, size_t length, size_t piece)
{
    vmig_status status = VMIG_OK;

    for (size_t at = 0; at < length && !vmig_refused(status); at += piece) {
        size_t rest = length - at;

        status = vmig_feed(m, stream + at, rest < piece ? rest : piece);
    }
    return status;
}

/* The headers of other machines, of another count of pages or sectors, are refused. The stream comes in pieces of this length. */
static void arrivals(size_t piece)
{
    static const uint32_t OTHERS[][2] = {{PAGES, SECTORS - 1}, {PAGES, SECTORS + 1}, {PAGES - 1, SECTORS}, {PAGES + 1, SECTORS}};

    for (size_t i = 0; i < sizeof OTHERS / sizeof OTHERS[0]; i++) {
        size_t length = stream_of(OTHERS[i][0], OTHERS[i][1]);
        vmig_image back = VMIG_NO_IMAGE;
        vmig_machine m = arriving(SECTORS, RAM);

        expect("a machine of other sizes", feed(&m, length, piece), VMIG_STREAM_MISMATCH);
        both_hold("refused by its header");
        expect("more of it", vmig_feed(&m, stream, 40), VMIG_STREAM_FAILED);
        both_hold("refused again");
        expect("release", vmig_release(&m, &back, 1), VMIG_OK);
        both_hold("released after a refusal");
    }
}

/* Arrivals that end within the header, or by it. */
static void arrivals_ended(void)
{
    size_t length = stream_of(PAGES, SECTORS);
    vmig_machine m = arriving(SECTORS, RAM);
    vmig_image back = VMIG_NO_IMAGE;

    expect("the first bytes", feed(&m, 40, 7), VMIG_OK);
    vmig_free(&m);
    both_hold("freed within the header");
    m = arriving(SECTORS, RAM);
    expect("the first bytes", feed(&m, 40, 40), VMIG_OK);
    expect("release", vmig_release(&m, &back, 1), VMIG_OK);
    both_hold("released within the header");
    m = arriving(SECTORS, RAM);
    stream[0] ^= 1;
    expect("a spoiled one", feed(&m, length, length), VMIG_STREAM_BAD_MAGIC);
    both_hold("refused by its first byte");
    vmig_free(&m);
    both_hold("freed after a refusal");
}

int main(void)
{
    free_made();
    release_made();
    arrivals(1);
    arrivals(STREAM);
    arrivals_ended();
    return ended("freed");
}
