#define _DEFAULT_SOURCE
#include <errno.h>
#include <stdarg.h>
#include <stdatomic.h>
#include <stdio.h>
#include <stdlib.h>
#include <sys/eventfd.h>
#include <sys/ioctl.h>
#include <termios.h>
#include <unistd.h>
#include "say.h"
#include "terminal.h"

enum { PREFIX = 'A' - '@' };

struct operator_words operator_words;
int operator_bell = -1;
void (*operator_speaks)(void);

static struct termios before;
static volatile sig_atomic_t is_raw;
static int has_prefix, has_ended;

/* It may run in a signal's handler. */
static void set_back(void)
{
    if (is_raw) tcsetattr(STDIN_FILENO, TCSADRAIN, &before);
    is_raw = 0;
}

static void take_word(int signal_number)
{
    uint64_t one = 1;
    int error = errno;

    switch (signal_number) {
    case SIGUSR1: operator_words.moves = 1; break;
    case SIGUSR2: operator_words.continues = 1; break;
    case SIGWINCH: operator_words.has_new_size = 1; break;
    default: operator_words.ends = 1; break;
    }
    if (write(operator_bell, &one, sizeof one) < 0) errno = error;
    if (operator_speaks != NULL) operator_speaks();
}

/* The program is about to be killed, as where a disk's file was cut off. */
static void die(int signal_number)
{
    set_back();
    raise(signal_number);
}

static void handle(int signal_number, void (*handler)(int), int flags)
{
    struct sigaction action = {.sa_handler = handler, .sa_flags = flags};

    sigemptyset(&action.sa_mask);
    sigaction(signal_number, &action, NULL);
}

void terminal_begin(void)
{
    static const int WORDS[] = {SIGUSR1, SIGUSR2, SIGINT, SIGTERM, SIGHUP, SIGWINCH};
    static const int DEATHS[] = {SIGBUS, SIGSEGV, SIGABRT, SIGFPE, SIGILL, SIGQUIT};

    operator_bell = eventfd(0, EFD_CLOEXEC | EFD_NONBLOCK);
    if (operator_bell < 0) fail("there is no bell for signals");
    for (size_t i = 0; i < sizeof WORDS / sizeof *WORDS; i++) handle(WORDS[i], take_word, 0);
    for (size_t i = 0; i < sizeof DEATHS / sizeof *DEATHS; i++) handle(DEATHS[i], die, (int)SA_RESETHAND);
    handle(SIGPIPE, SIG_IGN, 0);
    /* A file that would be longer than a limit allows is an error of its write. */
    handle(SIGXFSZ, SIG_IGN, 0);
}

int begin_thread(pthread_t *thread, void *(*does)(void *), void *of)
{
    sigset_t all, before_it;
    int error;

    sigfillset(&all);
    pthread_sigmask(SIG_SETMASK, &all, &before_it);
    error = pthread_create(thread, NULL, does, of);
    pthread_sigmask(SIG_SETMASK, &before_it, NULL);
    return error == 0;
}

void terminal_take(void)
{
    struct termios raw;

    operator_words.has_new_size = 1;
    if (is_raw || !isatty(STDIN_FILENO) || tcgetattr(STDIN_FILENO, &before) != 0) return;
    atexit(set_back);
    raw = before;
    raw.c_iflag &= ~(tcflag_t)(BRKINT | ICRNL | INLCR | ISTRIP | IXON);
    raw.c_lflag &= ~(tcflag_t)(ECHO | ICANON | IEXTEN | ISIG);
    is_raw = 1;
    tcsetattr(STDIN_FILENO, TCSADRAIN, &raw);
}

/* A byte after Ctrl-A. False where it is for the guest. */
static int take_letter(uint8_t byte)
{
    switch (byte) {
    case 'm': operator_words.moves = 1; return 1;
    case 'c': operator_words.continues = 1; return 1;
    case 'x': operator_words.ends = 1; return 1;
    default: return byte != 'a' && byte != PREFIX;
    }
}

static size_t without_prefixes(uint8_t *bytes, size_t count)
{
    size_t kept = 0;

    for (size_t i = 0; i < count; i++) {
        if (has_prefix) {
            has_prefix = 0;
            if (!take_letter(bytes[i])) bytes[kept++] = PREFIX;
        } else if (bytes[i] == PREFIX) {
            has_prefix = 1;
        } else {
            bytes[kept++] = bytes[i];
        }
    }
    return kept;
}

size_t terminal_read(uint8_t *bytes, size_t size)
{
    ssize_t got = read(STDIN_FILENO, bytes, size);

    if (got < 0 && (errno == EINTR || errno == EAGAIN)) return 0;
    if (got <= 0) {
        has_ended = 1;
        return 0;
    }
    return is_raw ? without_prefixes(bytes, (size_t)got) : (size_t)got;
}

int terminal_is_taken(void)
{
    return is_raw;
}

int terminal_has_ended(void)
{
    return has_ended;
}

int terminal_size(uint16_t *columns, uint16_t *rows)
{
    struct winsize size;

    if (ioctl(STDOUT_FILENO, TIOCGWINSZ, &size) != 0 || size.ws_col == 0) return 0;
    *columns = size.ws_col;
    *rows = size.ws_row;
    return 1;
}

/* What was said is still in the line of the cursor: the next words take its place. */
static atomic_int is_renewed;

/* `renews` leaves the cursor in the line. */
static void say_line(const char *format, va_list values, int renews)
{
    char line[512];
    int length = vsnprintf(line, sizeof line, format, values), was = atomic_exchange(&is_renewed, renews);

    if (length >= 0) fprintf(stderr, "%shypervisor: %s%s", was ? "\r\033[K" : "", line, renews ? "" : "\n");
}

void say(const char *format, ...)
{
    va_list values;

    va_start(values, format);
    say_line(format, values, 0);
    va_end(values);
}

void say_again(const char *format, ...)
{
    va_list values;

    va_start(values, format);
    say_line(format, values, 1);
    va_end(values);
}

void say_no_more(void)
{
    if (atomic_exchange(&is_renewed, 0)) fputs("\r\033[K", stderr);
}

void fail(const char *format, ...)
{
    va_list values;

    va_start(values, format);
    say_line(format, values, 0);
    va_end(values);
    exit(1);
}
