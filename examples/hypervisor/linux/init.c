/* The only program of the small Linux: it mounts what there is, and reads words from the console. It is made with the
 * kernel's own nolibc, for a processor without floating point. */
#include <linux/fs.h>

enum { PIECE = 4096, KIB = 1024, LINE = 256, WORDS = 8, ECHO_PORT = 7, FRAME = 1000, WORK_FILES = 32 };
enum { FAMILY_INTERNET = 2, DATAGRAMS = 2, SOCKET_LEVEL = 1, RECEIVE_TIMEOUT = 20, DO_NOT_NEED = 4 };
enum { SET_ADDRESS = 0x8916, SET_MASK = 0x891c, SET_FLAGS = 0x8914, IS_UP = 1, GET_BYTES = 0x80081272 };

struct address {
    unsigned short family, port;
    unsigned char host[4], zeros[8];
};

struct interface {
    char name[16];
    union {
        struct address address;
        short flags;
        char room[24];
    } what;
};

struct file_system {
    long type, block, blocks, free, available, files, files_free, id, name, fragment, flags, spare[4];
};

static unsigned char bytes[PIECE], others[PIECE];

static unsigned number_of(const char *word)
{
    return word == NULL ? 0 : (unsigned)atoi(word);
}

/* A check of bytes: FNV-1a over words of 64 bits. */
static unsigned long sum_up(unsigned long sum, const unsigned char *from, size_t length)
{
    for (size_t i = 0; i < length; i++) sum = (sum ^ from[i]) * 1099511628211ul;
    return sum;
}

/* Bytes that look random, and are those of this seed. */
static void draw(unsigned char *to, unsigned seed)
{
    unsigned long state = 88172645463325252ul + seed * 2654435761ul;

    for (size_t i = 0; i < PIECE; i += 8) {
        state ^= state << 13;
        state ^= state >> 7;
        state ^= state << 17;
        memcpy(to + i, &state, 8);
    }
}

static long milliseconds(void)
{
    struct timeval now;

    gettimeofday(&now, NULL);
    return now.tv_sec * 1000 + now.tv_usec / 1000;
}

static void list(const char *name)
{
    static char entries[PIECE];
    int directory = open(name, O_RDONLY | O_DIRECTORY, 0), got;

    if (directory < 0) printf("ls: there is no folder %s\n", name);
    while (directory >= 0 && (got = getdents64(directory, (struct linux_dirent64 *)entries, sizeof entries)) > 0)
        for (int at = 0; at < got; at += ((struct linux_dirent64 *)(entries + at))->d_reclen)
            printf("%s  ", ((struct linux_dirent64 *)(entries + at))->d_name);
    printf("\n");
    if (directory >= 0) close(directory);
}

static void show(const char *name)
{
    int file = open(name, O_RDONLY, 0);
    long got;

    if (file < 0) printf("cat: there is no file %s\n", name);
    while (file >= 0 && (got = read(file, bytes, PIECE)) > 0) write(1, bytes, got);
    if (file >= 0) close(file);
}

static void sum_of_file(const char *name)
{
    int file = open(name, O_RDONLY, 0);
    unsigned long sum = 14695981039346656037ul, length = 0;
    long got;

    while (file >= 0 && (got = read(file, bytes, PIECE)) > 0) {
        sum = sum_up(sum, bytes, got);
        length += got;
    }
    if (file < 0) printf("sum: there is no file %s\n", name);
    else printf("%lx %lu %s\n", sum, length, name);
    if (file >= 0) close(file);
}

/* Copies `kib` KiB from one file to another, and says how fast that was. */
static void copy(const char *from, const char *to, unsigned kib)
{
    int in = open(from, O_RDONLY, 0), out = open(to, O_WRONLY | O_CREAT, 0644);
    long began = milliseconds(), got = 0, all = 0;

    while (in >= 0 && out >= 0 && all < (long)kib * KIB && (got = read(in, bytes, PIECE)) > 0) {
        write(out, bytes, got);
        all += got;
    }
    if (out >= 0) my_syscall1(__NR_fsync, out);
    printf("dd: %lu KiB in %lu ms\n", all / KIB, milliseconds() - began);
    if (in >= 0) close(in);
    if (out >= 0) close(out);
}

static void show_space(void)
{
    struct file_system facts;

    if (my_syscall2(__NR_statfs, "/disk", &facts) < 0) return;
    printf("/disk: %lu KiB, of which %lu are free\n", facts.blocks * facts.block / KIB, facts.free * facts.block / KIB);
}

/* Writes a MiB of this seed. Returns how many of its 256 pieces the file did not take. */
static unsigned write_mib(int file, unsigned seed)
{
    unsigned lost = 0;

    for (unsigned i = 0; i < 256; i++) {
        draw(bytes, seed * 256 + i);
        if (write(file, bytes, PIECE) != PIECE) lost++;
    }
    return lost;
}

/* Reads it. Returns how many of its pieces are not as they were written. */
static unsigned compare_mib(int file, unsigned seed)
{
    unsigned wrong = 0;

    for (unsigned i = 0; i < 256; i++) {
        draw(others, seed * 256 + i);
        if (read(file, bytes, PIECE) != PIECE || memcmp(bytes, others, PIECE) != 0) wrong++;
    }
    return wrong;
}

/* Writes a file of this many MiB, of seeds from one on, to the disk itself. Returns how many pieces it did not take,
 * and one more where the disk failed. */
static unsigned fill(const char *name, unsigned seed, unsigned mib)
{
    int file = open(name, O_WRONLY | O_CREAT, 0644);
    unsigned lost = 0;

    for (unsigned i = 0; i < mib; i++) lost += write_mib(file, seed + i);
    if (my_syscall1(__NR_fsync, file) < 0) lost++;
    my_syscall4(__NR_fadvise64, file, 0, 0, DO_NOT_NEED);
    close(file);
    return lost;
}

/* Reads it from the disk. Returns how many pieces are not as they were written. */
static unsigned compare(const char *name, unsigned seed, unsigned mib)
{
    int file = open(name, O_RDONLY, 0);
    unsigned wrong = 0;

    for (unsigned i = 0; i < mib; i++) wrong += compare_mib(file, seed + i);
    close(file);
    return wrong;
}

/* A file of this many MiB is written, and read. */
static void fill_and_compare(const char *name, unsigned mib)
{
    long began = milliseconds(), written;
    unsigned lost = fill(name, 0, mib), wrong;

    written = milliseconds();
    wrong = compare(name, 0, mib);
    printf("fill: %u MiB, %u pieces lost in %lu ms, %u wrong in %lu ms\n", mib, lost, written - began, wrong,
           milliseconds() - written);
}

static unsigned read_random(unsigned count)
{
    int file = open("/dev/hwrng", O_RDONLY, 0);
    long got = file < 0 ? 0 : read(file, bytes, count);

    if (file >= 0) close(file);
    return got > 0 ? (unsigned)got : 0;
}

static struct address address_of(const char *host, unsigned port)
{
    struct address a = {.family = FAMILY_INTERNET, .port = (unsigned short)(port << 8 | port >> 8)};

    for (int i = 0; i < 4 && host != NULL; i++) {
        a.host[i] = (unsigned char)atoi(host);
        while (*host >= '0' && *host <= '9') host++;
        if (*host == '.') host++;
    }
    return a;
}

/* Gives the network card an address, and takes it up. */
static void set_network(const char *host)
{
    struct interface interface = {.name = "eth0"};
    int sock = my_syscall3(__NR_socket, FAMILY_INTERNET, DATAGRAMS, 0);

    interface.what.address = address_of(host, 0);
    my_syscall3(__NR_ioctl, sock, SET_ADDRESS, &interface);
    interface.what.address = address_of("255.255.255.0", 0);
    my_syscall3(__NR_ioctl, sock, SET_MASK, &interface);
    interface.what.flags = IS_UP;
    printf("net: %s\n", my_syscall3(__NR_ioctl, sock, SET_FLAGS, &interface) < 0 ? "there is no eth0" : host);
    close(sock);
}

/* Sends each datagram back to whoever sent it. */
static void serve(void)
{
    struct address own = address_of(NULL, ECHO_PORT), from;
    int sock = my_syscall3(__NR_socket, FAMILY_INTERNET, DATAGRAMS, 0), length;
    long got;

    my_syscall3(__NR_bind, sock, &own, sizeof own);
    for (;;) {
        length = sizeof from;
        got = my_syscall6(__NR_recvfrom, sock, bytes, PIECE, 0, &from, &length);
        if (got >= 0) my_syscall6(__NR_sendto, sock, bytes, got, 0, &from, length);
    }
}

/* Sends datagrams to a server and counts those that come back as they went, each within a fifth of a second. */
static unsigned talk(const char *host, unsigned count)
{
    struct address to = address_of(host, ECHO_PORT);
    long timeout[2] = {0, 200000};
    int sock = my_syscall3(__NR_socket, FAMILY_INTERNET, DATAGRAMS, 0);
    unsigned back = 0;

    my_syscall5(__NR_setsockopt, sock, SOCKET_LEVEL, RECEIVE_TIMEOUT, timeout, sizeof timeout);
    for (unsigned i = 0; i < count; i++) {
        draw(others, i);
        my_syscall6(__NR_sendto, sock, others, FRAME, 0, &to, sizeof to);
        if (my_syscall6(__NR_recvfrom, sock, bytes, PIECE, 0, NULL, NULL) == FRAME && memcmp(bytes, others, FRAME) == 0)
            back++;
    }
    close(sock);
    return back;
}

/* Rounds of all that there is: a file is written and read, random bytes are read, and datagrams go to the host and
 * back. */
static void work(unsigned rounds, const char *host)
{
    static char name[] = "/disk/work00";
    unsigned wrong = 0;

    for (unsigned i = 0; i < rounds; i++) {
        unsigned bad, back = host == NULL ? 0 : talk(host, 16), random = read_random(64);

        name[10] = (char)('0' + i % WORK_FILES / 10);
        name[11] = (char)('0' + i % WORK_FILES % 10);
        fill(name, i, 1);
        bad = compare(name, i, 1);
        wrong += bad;
        printf("work %u: %u pieces of 256 wrong, %u random bytes, %u of 16 datagrams\n", i, bad, random, back);
    }
    printf("work: %u rounds, %u pieces wrong\n", rounds, wrong);
}

/* Reads the files of the last rounds once more. */
static void check(unsigned rounds)
{
    static char name[] = "/disk/work00";
    unsigned wrong = 0, first = rounds > WORK_FILES ? rounds - WORK_FILES : 0;

    for (unsigned i = first; i < rounds; i++) {
        name[10] = (char)('0' + i % WORK_FILES / 10);
        name[11] = (char)('0' + i % WORK_FILES % 10);
        wrong += compare(name, i, 1);
    }
    printf("check: %u files, %u pieces wrong\n", rounds - first, wrong);
}

static void show_random(unsigned count)
{
    unsigned got = read_random(count > PIECE ? PIECE : count);

    for (unsigned i = 0; i < got; i++) printf("%x%x", bytes[i] >> 4, bytes[i] & 15);
    printf("\n");
}

/* The disk is let go, and the board is powered off or begins anew. */
static void leave(int how)
{
    umount2("/disk", 0);
    my_syscall0(__NR_sync);
    reboot(how);
}

static void help(void)
{
    printf("ls FOLDER, cat FILE, sum FILE, dd FROM TO KIB, fill FILE MIB, df, random BYTES, net ADDRESS, serve,\n"
           "talk ADDRESS COUNT, work ROUNDS [ADDRESS], check ROUNDS, reboot, off; with & at the end a word is done "
           "beside the others\n");
}

static void do_words(char **words)
{
    const char *word = words[0];

    if (strcmp(word, "ls") == 0) list(words[1] ? words[1] : "/");
    else if (strcmp(word, "cat") == 0 && words[1]) show(words[1]);
    else if (strcmp(word, "sum") == 0 && words[1]) sum_of_file(words[1]);
    else if (strcmp(word, "dd") == 0 && words[2]) copy(words[1], words[2], number_of(words[3]));
    else if (strcmp(word, "fill") == 0 && words[2]) fill_and_compare(words[1], number_of(words[2]));
    else if (strcmp(word, "df") == 0) show_space();
    else if (strcmp(word, "random") == 0) show_random(number_of(words[1]));
    else if (strcmp(word, "net") == 0 && words[1]) set_network(words[1]);
    else if (strcmp(word, "serve") == 0) serve();
    else if (strcmp(word, "talk") == 0 && words[1]) printf("talk: %u came back\n", talk(words[1], number_of(words[2])));
    else if (strcmp(word, "work") == 0) work(number_of(words[1]), words[2]);
    else if (strcmp(word, "check") == 0) check(number_of(words[1]));
    else if (strcmp(word, "reboot") == 0) leave((int)LINUX_REBOOT_CMD_RESTART);
    else if (strcmp(word, "off") == 0) leave((int)LINUX_REBOOT_CMD_POWER_OFF);
    else help();
}

/* The words of a line. Whether it ends with & is returned. */
static int take_apart(char *line, char **words)
{
    int count = 0, is_beside = 0;

    for (char *at = line; *at != '\0' && count < WORDS - 1;) {
        while (*at == ' ' || *at == '\n') *at++ = '\0';
        if (*at == '\0') break;
        words[count++] = at;
        while (*at != ' ' && *at != '\n' && *at != '\0') at++;
    }
    for (int i = 0; i < count; i++)
        if (words[i][0] == '&') {
            is_beside = 1;
            words[i] = NULL;
        }
    words[count] = NULL;
    return is_beside;
}

static void set_up(void)
{
    mount("none", "/dev", "devtmpfs", 0, NULL);
    mount("none", "/proc", "proc", 0, NULL);
    mount("none", "/sys", "sysfs", 0, NULL);
    for (int i = 0; i < 3; i++) close(i);
    open("/dev/console", O_RDWR, 0);
    dup(0);
    dup(0);
    printf("\ninit: the kernel is up after ");
    show("/proc/uptime");
    printf("init: %s\n",
           mount("/dev/vda", "/disk", "ext2", 0, NULL) == 0 ? "the disk is at /disk" : "there is no disk with ext2");
}

int main(void)
{
    static char line[LINE];
    char *words[WORDS];

    set_up();
    for (;;) {
        long got;

        write(1, "# ", 2);
        got = read(0, line, LINE - 1);
        while (waitpid(-1, NULL, WNOHANG) > 0) continue;
        if (got <= 0) continue;
        line[got] = '\0';
        int is_beside = take_apart(line, words);
        if (words[0] == NULL) continue;
        if (is_beside && fork() != 0) continue;
        do_words(words);
        if (is_beside) exit(0);
    }
}
