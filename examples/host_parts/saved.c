#define _DEFAULT_SOURCE
#include <errno.h>
#include <fcntl.h>
#include <limits.h>
#include <stdio.h>
#include <stdlib.h>
#include <string.h>
#include <sys/stat.h>
#include <unistd.h>
#include "disk.h"
#include "saved.h"
#include "say.h"
#include "terminal.h"

/* The other name: the file's own, a point and the number of the process. */
static char other[PATH_MAX];

void saved_drop(void)
{
    if (other[0] != '\0') unlink(other);
    other[0] = '\0';
}

/* It has the guest's memory, so it is its owner's alone. */
const char *saved_create(struct line *l, const char *name)
{
    static int is_dropped_at_exit;

    if (!is_dropped_at_exit && atexit(saved_drop) != 0) return "there is no way to drop it later";
    is_dropped_at_exit = 1;
    if (snprintf(other, sizeof other, "%s.%d", name, (int)getpid()) >= (int)sizeof other) {
        other[0] = '\0';
        return strerror(ENAMETOOLONG);
    }
    unlink(other);
    l->socket = open(other, O_WRONLY | O_CREAT | O_EXCL | O_CLOEXEC, S_IRUSR | S_IWUSR);
    if (l->socket >= 0) return NULL;
    other[0] = '\0';
    return strerror(errno);
}

const char *saved_close(struct line *l)
{
    return fsync(l->socket) == 0 ? NULL : strerror(errno);
}

const char *saved_keep(const char *name)
{
    const char *why;

    if (rename(other, name) != 0) return strerror(errno);
    other[0] = '\0';
    if (bring_folder(name) == 0) return NULL;
    why = strerror(errno);
    unlink(name);
    return why;
}

const char *saved_remove(const char *name)
{
    if (unlink(name) != 0) return strerror(errno);
    if (bring_folder(name) != 0) say("%s: it is removed, which its storage may forget: %s", name, strerror(errno));
    return NULL;
}

/* All frames have to be there, as the digest of the last one has them, and nothing is behind it. Returns what is wrong,
 * or NULL. */
static const char *look_at_all(struct line *l)
{
    static const char SPOILED[] = "it is cut or changed, or has no guest";
    uint32_t lost;
    uint8_t more;

    do {
        if (operator_words.ends) return "its operator ends the program";
        if (line_collect(l) <= 0) return SPOILED;
    } while (l->type != END);
    return line_is_whole(l, &lost) && read(l->socket, &more, 1) == 0 ? NULL : SPOILED;
}

const char *saved_open(struct line *l, const char *name)
{
    struct stat facts;
    const char *why;

    l->is_file = 1;
    l->socket = open(name, O_RDONLY | O_CLOEXEC | O_NONBLOCK);
    if (l->socket < 0 || fstat(l->socket, &facts) != 0) return strerror(errno);
    if (!S_ISREG(facts.st_mode)) return "it is no file";
    why = look_at_all(l);
    l->in_at = 0;
    vmig_digest_begin(&l->digest);
    if (why == NULL && lseek(l->socket, 0, SEEK_SET) != 0) why = strerror(errno);
    return why;
}
