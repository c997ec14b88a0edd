/* What firmware does for a guest in supervisor mode (SBI): the base extension, the timer, the reset, and the console
 * of the legacy extensions. a7 names the extension and a6 the function; a0 has the error, and a1 the value. */
#include "processor.h"

enum extension {
    OLD_TIMER = 0, OLD_PRINT = 1, OLD_TYPED = 2, OLD_OFF = 8, BASE = 0x10, TIMER = 0x54494d45, RESET = 0x53525354
};
enum { A0 = 10, A1 = 11, A6 = 16, A7 = 17 };

#define NOT_SUPPORTED (UINT64_MAX - 1)
#define SPECIFICATION UINT64_C(0x01000000)  /* version 1.0 */

static void set_timer(struct processor *p, uint64_t time)
{
    p->timer = time;
    p->attention = 1;
}

static int has_extension(uint64_t extension)
{
    return extension <= OLD_TYPED || extension == OLD_OFF || extension == BASE || extension == TIMER ||
           extension == RESET;
}

/* The functions of the base extension: versions, what there is, and who made it. */
static uint64_t answer_base(uint64_t function, uint64_t argument, uint64_t *error)
{
    switch (function) {
    case 0: return SPECIFICATION;
    case 3: return (uint64_t)has_extension(argument);
    case 1: case 2: case 4: case 5: case 6: return 0;
    default: *error = NOT_SUPPORTED; return 0;
    }
}

static void leave_with(struct processor *p, enum exit_kind kind, uint64_t value)
{
    p->exit.value = value;
    p->exit.to = A0;
    p->exit.width = 8;
    processor_leave(p, kind);
}

/* The legacy extensions have no function, and answer in a0 alone. False where it is none of them. */
static int call_old(struct processor *p, uint64_t extension)
{
    uint64_t argument = p->x[A0];

    if (extension > OLD_TYPED && extension != OLD_OFF) return 0;
    p->x[A0] = 0;
    switch (extension) {
    case OLD_TIMER: set_timer(p, argument); break;
    case OLD_PRINT: leave_with(p, EXIT_PRINT, argument & 0xff); break;
    case OLD_TYPED: leave_with(p, EXIT_TYPED, 0); break;
    default: leave_with(p, EXIT_OFF, 0); break;
    }
    return 1;
}

void call_firmware(struct processor *p)
{
    uint64_t extension = p->x[A7], function = p->x[A6], argument = p->x[A0], reason = p->x[A1], error = 0, value = 0;

    if (call_old(p, extension)) return;
    if (extension == BASE) value = answer_base(function, argument, &error);
    else if (extension == TIMER && function == 0) set_timer(p, argument);
    else if (extension == RESET && function == 0) leave_with(p, argument == 0 ? EXIT_OFF : EXIT_REBOOT, reason);
    else error = NOT_SUPPORTED;
    p->x[A0] = error;
    p->x[A1] = value;
}
