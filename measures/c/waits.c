/* What a guest waits for outside: the copies of a machine that is sent, and the turns of its devices. `waits CASE` does these, and prints how many
 * pages, sectors or turns they were; `count` counts the instructions of the calls. `waits times` prints the nanoseconds of processor time
 * of each. Without words it goes through all cases, and checks what each did. It asserts nothing of time: `count` tells by instructions
 * that a copy digests nothing. Measure with `CFLAGS=-O2`. */
#define _DEFAULT_SOURCE
#include <time.h>
#include "driver.h"

enum { PAGE = 4096, PAGES = 256, SECTORS = 4096, A_CALL = 16, STEPS = 10, TURNS = 6, FILLS = 16, LENGTH = 16 };

/* What the calls of a case took, and how many items there were. */
typedef struct {
    uint64_t took, items;
} times;

static uint64_t now(void)
{
    struct timespec t;
    clock_gettime(CLOCK_PROCESS_CPUTIME_ID, &t);
    return (uint64_t)t.tv_sec * 1000000000u + (uint64_t)t.tv_nsec;
}

/* Takes what waits, as a host does between two copies. */
static void take_all(vmig_machine *m)
{
    static uint8_t piece[A_CALL * (PAGE + 5)];
    size_t got = 0;

    do expect("take", vmig_send_take(m, piece, sizeof piece, &got), VMIG_OK);
    while (got > 0);
}

/* A machine of these pages and sectors, of which one or the other are many, is copied. A page that is full has a byte that is not 0. */
static times copies(uint32_t pages, uint64_t sectors, int is_full)
{
    vmig_shape shape = {.kind = VMIG_BLOCK, .sectors = sectors};
    vmig_machine m = VMIG_NONE;
    vmig_status status;
    times t = {.items = pages > 1 ? pages : sectors};

    expect("make", make_new(pages, &shape, 1, &m), VMIG_OK);
    for (uint64_t page = 0; is_full && page < pages; page++)
        expect("write", vmig_ram_write(&m, page * PAGE + PAGE - 1, (const uint8_t *)"!", 1), VMIG_OK);
    expect("begin", vmig_send_begin(&m), VMIG_OK);
    take_all(&m);
    do {
        uint64_t begun = now();
        status = vmig_send_some(&m, A_CALL);
        t.took += now() - begun;
        take_all(&m);
    } while (status == VMIG_OK);
    expect("all is copied", status, VMIG_ROUND_DONE);
    vmig_free(&m);
    return t;
}

static times full_pages(void) { return copies(PAGES, 1, 1); }
static times zero_pages(void) { return copies(PAGES, 1, 0); }
static times sectors(void) { return copies(1, SECTORS, 0); }

static void turn_in_one_call(vmig_machine *m, vmig_turn *turn)
{
    static uint8_t buf[VMIG_SENT_MAX];

    turn->left = STEPS;
    expect("a turn", vmig_work(m, turn, buf, sizeof buf), VMIG_WORK);
    expect("its steps", turn->left, 0);
}

static void turn_singly(vmig_machine *m, vmig_turn *turn)
{
    static uint8_t buf[VMIG_SENT_MAX];

    for (int i = 0; i < STEPS; i++) {
        expect("work", vmig_next(m, &turn->dev, &turn->pick), VMIG_WORK);
        expect("a step", vmig_step(m, turn->dev, turn->pick, buf, sizeof buf, &turn->len), VMIG_COMPLETED);
    }
}

/* The driver of a console gives it buffers, and text fills them: a buffer a step. There is more text than buffers, so each turn leaves work.
 * Beside it are a disk and an entropy device. */
static times turns(void (*make_turn)(vmig_machine *, vmig_turn *))
{
    static const vmig_shape shapes[] = {{.kind = VMIG_CONSOLE}, {.kind = VMIG_ENTROPY}, {.kind = VMIG_BLOCK, .sectors = 8}};
    static const uint8_t text[STEPS * TURNS * LENGTH + 1];
    vmig_machine m = VMIG_NONE;
    vmig_turn turn = VMIG_TURN;
    uint32_t count = 0;
    size_t kept = 0;
    times t = {.items = TURNS * FILLS};

    expect("make", make_new(16, shapes, 3, &m), VMIG_OK);
    set_up(&m, 2);
    for (uint32_t i = 0; i < STEPS * TURNS; i++) describe(&m, 0, i, DATA + LENGTH * i, LENGTH, WRITABLE, 0);
    for (int fill = 0; fill < FILLS; fill++) {
        for (uint32_t i = 0; i < STEPS * TURNS; i++) make_available(&m, 0, ++count, i);
        write_reg(&m, 0x050, 0);
        expect("input", vmig_input(&m, 0, text, sizeof text, &kept), VMIG_OK);
        for (int i = 0; i < TURNS; i++) {
            uint64_t begun = now();
            make_turn(&m, &turn);
            t.took += now() - begun;
        }
    }
    expect("all filled", get(&m, USED + 2, 2), count);
    vmig_free(&m);
    return t;
}

static times in_one_call(void) { return turns(turn_in_one_call); }
static times singly(void) { return turns(turn_singly); }

static const struct {
    const char *name, *what;
    times (*run)(void);
} CASES[] = {{"page", "copy of a page", full_pages},
             {"zero-page", "copy of a page of zeros", zero_pages},
             {"sector", "copy of a sector", sectors},
             {"turn", "turn of ten steps, in one call", in_one_call},
             {"singly", "turn of ten steps, by two calls each", singly}};

int main(int argc, char **argv)
{
    int tells = argc > 1 && strcmp(argv[1], "times") == 0;

    for (size_t i = 0; i < sizeof CASES / sizeof *CASES; i++) {
        if (argc > 1 && !tells && strcmp(argv[1], CASES[i].name) != 0) continue;
        times t = CASES[i].run();
        if (tells) printf("%s: %llu ns\n", CASES[i].what, (unsigned long long)(t.took / t.items));
        else if (argc > 1) printf("%llu\n", (unsigned long long)t.items);
    }
    if (argc > 1) return failures != 0;
    return ended("waits");
}
