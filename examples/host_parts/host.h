/* The host of a guest: its machine of the library, what is around it, and moves. Nothing here knows a processor.
 * What each hypervisor has of its own is a `struct guest`, in its guest.h, its board.h, and the functions under 'the
 * seam'. */
#ifndef HOST_H
#define HOST_H

#include <pthread.h>
#include <stdatomic.h>
#include "devices.h"
#include "digest.h"
#include "guest.h"
#include "line.h"
#include "network.h"
#include "options.h"
#include "pool.h"
#include "storage.h"
#include "uart.h"

/* The rounds of a move, one after another, that leave hardly less than one before, until the guest is paused. */
enum { STALLS_MAX = 3 };

/* The random bytes that wait for the guest. */
enum { POOL = 64 };

/* An access of the guest to the window of a device, for which it came out. */
struct touched {
    uint64_t at;    /* from the first window on */
    uint32_t value; /* that is written */
    uint8_t width;
    int is_write;
};

/* A move that is on its way. */
struct move {
    struct line line;            /* of the carrier alone, as long as it is there */
    pthread_t carrier;
    int bell;                    /* an eventfd, or -1: the carrier has something to take, or is to end */
    int has_carrier, has_met;    /* it is there; it has met the target */
    atomic_int is_carried;       /* it has met it, and has nothing to take */
    atomic_int is_broken;        /* it has ended: `why` says why */
    const char *why;
    int is_on, is_sending;       /* a move is on; vmig_send_begin_as was called */
    struct digester digester;    /* of what was taken of the stream, unless --digest own is given */
    int is_stopped;              /* vmig_send_stop was called */
    int rounds_are_over;         /* the guest is to be paused */
    const char *failed;          /* why nothing can be copied, or NULL */
    uint64_t *pending;           /* bit n of word k: page 64 k + n was written since its copy began (rounds.c) */
    uint64_t fetched;            /* the pages below it were looked up in the guest's log in this round */
    unsigned pauses;             /* how often the guest was paused */
    uint64_t paused_at, until;   /* when, or 0; and when the pause has to be over */
    double stopped;              /* the milliseconds of all pauses */
    uint64_t outside, entered;   /* nanoseconds for which its thread did something for the move; since when it does */
    atomic_uint held;            /* the milliseconds of each ten for which the guest is held back */
    uint64_t runs_until;         /* and when it is held back next */
    uint32_t round;
    uint64_t pages, sectors;     /* that the round sends */
    _Atomic uint64_t sent;       /* bytes of the stream that were put on the line */
    uint64_t sent_before, round_began, renewed;  /* as the round began; when it did; and when progress was said last */
    uint64_t least;              /* the least that a round left */
    int stalls;                  /* how many rounds left hardly less than that, one after another */
    uint64_t lefts[STALLS_MAX];  /* what the last rounds left */
};

struct statistics {
    uint64_t began, accesses, loans, steps, calls, waited, in_library, entered;
};

struct host {
    struct options options;
    uint8_t word[WORD_LENGTH];   /* by which both ends of a move know each other */
    struct devices devices;
    struct pool pool;            /* of the disks that are not mapped, if there are any */
    int has_pool;
    pthread_mutex_t next, library;   /* who calls the library has the second one, and who waits for it the first */
    vmig_machine machine;
    uint8_t *memory;             /* that is RAM, lent or not */
    uint64_t memory_length;
    vmig_ram ram;                /* RAM, while it is lent */
    struct guest guest;
    struct touched touched;
    struct uart uart;
    struct typed typed;
    vmig_turn work;              /* the devices' turn */
    uint32_t lines;              /* of the devices, as they were read last */
    int steps_wait; /* perhaps a step has something to do: after a write, an input and a turn that did not do all */
    int input_waits;
    int console_is_held;         /* a message of the console waits in the guest's queue for room in standard output */
    int wire;                    /* of the network device, or -1 */
    uint8_t frame[FRAME_MAX];
    size_t frame_length;         /* a frame that the device did not take yet */
    int has_ended, is_gone;      /* the guest powered off; it was moved away */
    int reboots;                 /* the guest asked for a reboot */
    uint64_t outcome;            /* what it said when it powered off: 0 if all is well */
    struct move move;
    struct statistics statistics;
};

/* ---- The seam: what each hypervisor has of its own ---- */

/* Before anything else. It ends the program where no guest can run. */
void prepare_guests(struct host *h);
/* This memory becomes the RAM of a guest that begins or arrives. Returns why it cannot, or NULL. */
const char *give_ram(struct host *h, uint8_t *ram, uint64_t length);
/* Puts what the guest boots from into RAM, and its processor to the beginning: at first, and for a reboot, while RAM
 * is lent. */
void load_guest(struct host *h);
/* The guest is gone, and what was taken for it is given back. RAM is not lent. */
void end_guest(struct host *h);

/* The guest runs until it comes out. Whether that is done with; else it came out for h->touched. */
int run_guest(struct host *h);
/* The access was a read, and gives this. */
void finish_read(struct host *h, uint32_t value);
/* Whether the guest came out of itself, or as it was called: no access is half done, and a move may read its
 * registers. */
int is_between_slices(const struct host *h);
/* The guest comes out soon, if it does not so of itself. Any thread may call this. */
void call_out(struct host *h);
/* How long look_around may wait for bytes. */
int milliseconds_to_wait(const struct host *h);

/* The lines of the UART, and of the devices as they were read last, reach the interrupt controller. */
void set_lines(struct host *h);
/* All of the board but the machine becomes as it is when it is switched on. */
void board_reset(struct host *h);

/* From here on each page that the guest, or load_guest, writes is in the log. Returns why there is none, or NULL. */
const char *log_begins(struct host *h);
void log_ends(struct host *h);
/* Sets the bits of the pages that the log has, of `count` from `first` on, and the log forgets these pages. Others may
 * be set too, and are forgotten then. Where COPIES_BESIDE is 1 the guest may run. */
void log_fetch(struct host *h, uint64_t *bits, uint64_t first, uint64_t count);

/* The guest's clock stops, and continues from where it stopped. */
void stop_clock(struct host *h);
void start_clock(struct host *h);

/* What the first frame of a move says of this hypervisor, behind what each says: the length. And what is wrong where
 * it came, or NULL. */
enum { FACTS_MAX = BODY_MAX - HELLO_LENGTH };
size_t facts_write(struct host *h, uint8_t bytes[FACTS_MAX]);
const char *facts_check(struct host *h, const uint8_t *bytes, size_t length);

/* The processor and the board as bytes. The first one is called while a move begins, for what takes time. All return
 * what is wrong, or NULL. For state_read, and before state_write is called, RAM is lent: setting registers may write
 * there, as the guest does. */
const char *state_prepare(struct host *h);
const char *state_write(struct host *h, uint8_t bytes[BODY_MAX], size_t *length);
const char *state_read(struct host *h, const uint8_t *bytes, size_t length);

void print_guest_statistics(const struct host *h, double seconds);

/* ---- What the files of this folder have ---- */

/* loop.c: the guest runs, from here on, until it powers off, is moved away, or the operator ends the program. */
void host_run(struct host *h);
/* RAM is taken back, if it is lent: for steps, for what a move reads of RAM, and at the end. All processors of the
 * guest are outside from then on, until RAM is lent anew. No page is named. */
void take_ram(struct host *h);
/* RAM is lent, if it is not. */
void lend_ram(struct host *h);

/* around.c: looks at the terminal and the wire, and waits for them if the guest waits. */
void look_around(struct host *h);
/* The files on which bytes can come that are wanted now, or -1: the terminal, the wire, and the bells of the disks
 * and of standard output. */
enum { SOURCES_OF_INPUT = 4 };
void list_files(const struct host *h, int files[SOURCES_OF_INPUT]);
/* Opens the wire of the network device, if there is one, which has no name yet. Returns why it cannot, or NULL. */
const char *open_wire(struct host *h);
/* The wire takes its name from whoever has it, and frames come to it. Returns why it cannot, or NULL. */
const char *name_wire(struct host *h);
/* Another host may take the name from here on, and this one takes it again by name_wire. Returns why it could not,
 * or NULL. */
const char *lend_wire_name(struct host *h);
/* Hands in what came. */
void take_input(struct host *h);
/* What the guest took from the entropy device's pool is put in anew. It is never empty, since a request would wait
 * there, and it holds few bytes: a machine that is saved and continued twice gives both guests the same. */
void fill_pool(struct host *h);
/* Tells the network where the guest's card is now. */
void announce(struct host *h);
/* A message that a device sent. */
void hand_on(struct host *h, unsigned device, const uint8_t *bytes, size_t length);
/* Asks the operator this, and waits for the word to continue. False where the program is to end. */
int ask_operator(const char *question);

/* source.c: a part of a move, which takes RAM back where it needs to. False where the guest does not run here any
 * more. */
int move_further(struct host *h);
/* Whether a part of a move may be made now, or a move is asked for. */
int move_is_due(const struct host *h);
/* Ends the move, if there is one: the thread of its line ends, and the other end is told why. */
void leave_line(struct host *h, const char *why);

/* carrier.c: begins the thread of the line. Returns why there is none, or NULL. */
const char *begin_carrier(struct host *h);
/* Begins the frame of bytes that were taken of the stream. They are handed to the thread that digests, without the lock. */
void begin_piece(struct host *h, const uint8_t *bytes, size_t length);
/* It has something to take. */
void wake_carrier(struct host *h);
/* It ends, and the line belongs to who calls this. A frame may be sent in part. */
void end_carrier(struct host *h);
/* What came on the line while nothing is awaited, without waiting: why the move is over, or NULL. */
const char *line_says(struct line *l);

/* rounds.c, all of it with the lock: the first round begins, and the log; the next one does, while what is due of this
 * one is still due; and some of what is due is copied, while RAM is lent, a round ends, or the rounds are over
 * (rounds_are_over). All return why the move is over, or NULL. */
const char *begin_rounds(struct host *h);
const char *next_round(struct host *h);
const char *copy_some(struct host *h);
/* Names all that was written since it was copied. Returns why it cannot, or NULL: the move is over then. */
const char *name_pages(struct host *h);

/* throttle.c: the share for which the guest is held back grows. False where it does not, or no longer. */
int hold_back_more(struct host *h);
/* The guest's thread waits, where it is held back and has run for its share of the time. */
void hold_back(struct host *h);
/* How long the guest may run until then, or -1. */
int milliseconds_until_held(const struct host *h);

/* progress.c: a round begins; and how far it is, now and then. */
void begin_progress(struct host *h);
void say_progress(struct host *h);

/* target.c: waits for a guest that is moved here, or takes one that was saved, and returns when it is to run. */
void host_receive(struct host *h);

/* The machine takes one call at a time: a thread that calls has the lock. One that waits for it comes next, so none
 * that calls again and again keeps the others out. */
static inline void lock_library(struct host *h)
{
    pthread_mutex_lock(&h->next);
    pthread_mutex_lock(&h->library);
    pthread_mutex_unlock(&h->next);
}

static inline void unlock_library(struct host *h)
{
    pthread_mutex_unlock(&h->library);
}

/* statistics.c: the lock, and the time in the library of the guest's thread; and all numbers at the end. */
void begin_statistics(struct host *h);
void enter_library(struct host *h);
void leave_library(struct host *h);
void print_statistics(const struct host *h);

#endif
