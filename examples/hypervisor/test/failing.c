/* Linked into a program, or loaded before one, it fails calls of the system. SYNC_FAILS=n: the n-th that brings a
 * file to the storage, by fdatasync or msync; all others succeed, as they do on Linux after one that failed.
 * FSYNC_FAILS=n: the n-th fsync. SYNC_FAILS_ONCE=FILE: the first one once this file says that all is here.
 * WRITE_FAILS=n: the n-th pwrite, since nothing is left. HANGS=FILE: as long as this file is there each pwrite waits,
 * and says so; with HANGS_AT=OTHER each one to the file OTHER alone. THREAD_FAILS=n: the n-th thread and each later
 * one does not begin. NAME_HANGS=FILE: as long as this file is there no server of names answers. At the end it writes
 * how many syncs there were to descriptor 9, where that is open and there were any. */
#define _GNU_SOURCE
#include <dlfcn.h>
#include <errno.h>
#include <netdb.h>
#include <pthread.h>
#include <stdatomic.h>
#include <stdio.h>
#include <stdlib.h>
#include <string.h>
#include <sys/mman.h>
#include <sys/stat.h>
#include <sys/syscall.h>
#include <unistd.h>

static atomic_ulong syncs, fsyncs, writes, failures, threads;

static int is_number(const char *name, unsigned long number)
{
    const char *text = getenv(name);

    return text != NULL && strtoul(text, NULL, 10) == number;
}

/* Whether the other end of a move has all. */
static int is_all_here(void)
{
    const char *name = getenv("SYNC_FAILS_ONCE");
    FILE *file = name == NULL ? NULL : fopen(name, "r");
    char line[512];
    int found = 0;

    if (file == NULL) return 0;
    while (!found && fgets(line, sizeof line, file) != NULL) found = strstr(line, "all is here") != NULL;
    fclose(file);
    return found;
}

static int sync_fails(void)
{
    if (!is_number("SYNC_FAILS", ++syncs) && (!is_all_here() || failures++ > 0)) return 0;
    errno = EIO;
    return 1;
}

int fdatasync(int file)
{
    return sync_fails() ? -1 : (int)syscall(SYS_fdatasync, file);
}

int fsync(int file)
{
    if (!is_number("FSYNC_FAILS", ++fsyncs)) return (int)syscall(SYS_fsync, file);
    errno = EIO;
    return -1;
}

int msync(void *at, size_t length, int flags)
{
    return sync_fails() ? -1 : (int)syscall(SYS_msync, at, length, flags);
}

static void hang(const char *option, const char *what)
{
    const char *name = getenv(option);

    if (name == NULL || access(name, F_OK) != 0) return;
    fprintf(stderr, "%s hangs\n", what);
    while (access(name, F_OK) == 0) usleep(10000);
}

/* Whether this is the file that hangs. */
static int may_hang(int file)
{
    const char *name = getenv("HANGS_AT");
    struct stat one, other;

    if (name == NULL) return 1;
    if (stat(name, &one) != 0 || fstat(file, &other) != 0) return 0;
    return one.st_dev == other.st_dev && one.st_ino == other.st_ino;
}

ssize_t pwrite(int file, const void *bytes, size_t length, off_t at)
{
    if (may_hang(file)) hang("HANGS", "a write");
    if (!is_number("WRITE_FAILS", ++writes)) return syscall(SYS_pwrite64, file, bytes, length, at);
    errno = ENOSPC;
    return -1;
}

int pthread_create(pthread_t *thread, const pthread_attr_t *attributes, void *(*does)(void *), void *of)
{
    int (*begins)(pthread_t *, const pthread_attr_t *, void *(*)(void *), void *);
    const char *from = getenv("THREAD_FAILS");

    if (from != NULL && ++threads >= strtoul(from, NULL, 10)) return EAGAIN;
    *(void **)&begins = dlsym(RTLD_NEXT, "pthread_create");
    return begins(thread, attributes, does, of);
}

int getaddrinfo(const char *host, const char *port, const struct addrinfo *hints, struct addrinfo **found)
{
    int (*asks)(const char *, const char *, const struct addrinfo *, struct addrinfo **);

    if ((hints->ai_flags & AI_NUMERICHOST) == 0) hang("NAME_HANGS", "a name");
    *(void **)&asks = dlsym(RTLD_NEXT, "getaddrinfo");
    return asks(host, port, hints, found);
}

__attribute__((destructor)) static void tell(void)
{
    char text[32];
    int length = snprintf(text, sizeof text, "%lu\n", (unsigned long)syncs);

    if (syncs == 0 || write(9, text, (size_t)length) < 0) return;
}
