#include <stdio.h>
#include <stdlib.h>
#include <string.h>
#include "network.h"
#include "options.h"
#include "say.h"

__attribute__((noreturn)) static void misused(const char *what, const char *word)
{
    fprintf(stderr, "hypervisor: %s%s%s; --help says more\n", word, *word ? ": " : "", what);
    exit(2);
}

static unsigned number_of(const char *option, const char *word, unsigned least, unsigned most)
{
    char *end, range[64];
    unsigned long number = strtoul(word, &end, 10);

    if (*word >= '0' && *word <= '9' && *end == '\0' && number >= least && number <= most) return (unsigned)number;
    snprintf(range, sizeof range, "it is not a number from %u to %u", least, most);
    misused(range, option);
}

static void add_disk(struct options *o, const char *option, const char *word)
{
    if (o->count_disks == DISKS_MAX) misused("there are more than five disks", option);
    o->disks[o->count_disks++] = (struct disk_option){word, strcmp(option, "--mapped") == 0};
}

static int is_own(const char *option, const char *word)
{
    if (strcmp(word, "own") != 0 && strcmp(word, "beside") != 0) misused("it is own or beside", option);
    return strcmp(word, "own") == 0;
}

static int is_to_stop(const char *option, const char *word)
{
    if (strcmp(word, "stop") != 0 && strcmp(word, "tell") != 0) misused("it is stop or tell", option);
    return strcmp(word, "stop") == 0;
}

/* An option without a word. NULL where it is none of them. */
static int *flag_of(struct options *o, const char *option)
{
    if (strcmp(option, "--stats") == 0) return &o->stats;
    if (strcmp(option, "--no-reboot") == 0) return &o->no_reboot;
    if (strcmp(option, "--throttle") == 0) return &o->throttle;
    return strcmp(option, "--shared") == 0 ? &o->is_shared : NULL;
}

/* An option that has a word of text. NULL where it is none of them. */
static const char **text_of(struct options *o, const char *option)
{
    if (strcmp(option, "--kernel") == 0) return &o->kernel;
    if (strcmp(option, "--initrd") == 0) return &o->initrd;
    if (strcmp(option, "--append") == 0) return &o->append;
    if (strcmp(option, "--listen") == 0) return &o->listen;
    if (strcmp(option, "--connect") == 0) return &o->connect;
    if (strcmp(option, "--save") == 0) return &o->save;
    if (strcmp(option, "--restore") == 0) return &o->restore;
    if (strcmp(option, "--word") == 0) return &o->word;
    return strcmp(option, "--net") == 0 ? &o->net : NULL;
}

static void take_word(struct options *o, const char *option, const char *word)
{
    const char **text = text_of(o, option);

    if (text != NULL && *text != NULL) misused("it is given twice", option);
    if (text != NULL) *text = word;
    else if (strcmp(option, "--disk") == 0 || strcmp(option, "--mapped") == 0) add_disk(o, option, word);
    else if (strcmp(option, "--disk-errors") == 0) o->stops_on_error = is_to_stop(option, word);
    else if (strcmp(option, "--digest") == 0) o->digest_is_own = is_own(option, word);
    else if (strcmp(option, "--mem") == 0) o->mib = number_of(option, word, 1, RAM_MIB_MAX);
    else if (strcmp(option, "--mtu") == 0) o->mtu = number_of(option, word, MTU_MIN, MTU_MAX);
    else if (strcmp(option, "--rounds") == 0) o->rounds = number_of(option, word, 1, 1000000);
    else if (strcmp(option, "--few") == 0) o->few = number_of(option, word, 0, 1000000);
    else if (strcmp(option, "--pause-ms") == 0) o->pause_ms = number_of(option, word, 1, 1000000);
    else if (strcmp(option, "--max-tries") == 0) o->max_tries = number_of(option, word, 1, 1000000);
    else misused("there is no such option", option);
}

static void compare(const struct options *o)
{
    int arrives = guest_arrives(o);

    if (o->listen != NULL && o->restore != NULL) misused("a guest that was saved is not moved here", "--restore");
    if (o->connect != NULL && o->save != NULL) misused("a guest is either moved or saved", "--save");
    if (o->kernel == NULL && !arrives) misused("either --kernel or --listen or --restore is needed", "");
    if (o->kernel == NULL && (o->initrd != NULL || o->append != NULL))
        misused("--initrd and --append belong to --kernel", o->listen != NULL ? "--listen" : "--restore");
    if (o->net != NULL && strchr(o->net, ',') == NULL) misused("it is OWN,PEER: two sockets", "--net");
    if (o->net == NULL && o->mtu != 0) misused("it belongs to --net", "--mtu");
    for (unsigned i = 0; i < o->count_disks; i++)
        if (o->is_shared && o->disks[i].is_mapped)
            misused("a disk that is mapped moves in the stream, and cannot be shared", "--mapped");
}

void options_read(struct options *o, int count, char **words)
{
    *o = (struct options){.mib = RAM_MIB, .rounds = 30, .few = 256, .pause_ms = 500, .max_tries = 3};
    for (int i = 1; i < count; i++) {
        if (strcmp(words[i], "--help") == 0) {
            fputs(HELP, stdout);
            exit(0);
        }
        if (flag_of(o, words[i]) != NULL) {
            *flag_of(o, words[i]) = 1;
            continue;
        }
        if (strncmp(words[i], "--", 2) != 0) misused("this is no option", words[i]);
        if (i + 1 == count) misused("there is no such option, or it lacks its word", words[i]);
        take_word(o, words[i], words[i + 1]);
        i++;
    }
    compare(o);
}
