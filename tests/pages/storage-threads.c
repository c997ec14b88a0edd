/* The code of docs/hosts/storage-threads.md as it stands there: a disk on request in a file, which four threads read and write while the guest runs; a
 * driver that resets its device meanwhile; and storage that fails. */
#define _XOPEN_SOURCE 700
#include <pthread.h>
#include <stdint.h>
#include <string.h>
#include <unistd.h>
#include "vmig.h"

enum { SECTOR = 512, SECTORS = 4096, BUFFER = 65536, THREADS = 4, STEPS_A_TURN = 1000 };
enum { SLOTS = 8 };                                     /* as many calls of a device may be out */
enum why { ENDED, CALLED_OUT, TOUCHED };
enum state { FREE, SUBMITTED, IN_WORK, DONE };

/* An access of the guest to a register: off bytes from the beginning of the window of device dev on. */
struct access {
    uint8_t dev, width;
    int is_write;
    uint32_t off, value;
};

/* What your hypervisor has beside this. */
enum why run_guest(uint8_t *ram, struct access *access);        /* until a vCPU touches a register, its time is over, or wake_guest */
void wake_guest(void);                                          /* from any thread: run_guest returns CALLED_OUT, now or at its next call */
void finish_read(uint32_t value);
void stop_vcpus(void);                                          /* all come out, until run_guest */
void set_lines(uint32_t lines);                                 /* bit d is the level of the line of device d */

/* A call with its bytes, and how many of its sectors were done. */
struct slot {
    enum state state;
    vmig_call call;
    uint32_t count;
    uint8_t bytes[BUFFER];
};

struct host {
    vmig_machine machine;
    vmig_ram ram;                                       /* RAM, while it is lent */
    vmig_turn turn;
    int file, is_lost, is_told, ends;                   /* is_lost: a sync failed, which is for good */
    pthread_mutex_t lock, syncing;                      /* of states, is_lost and ends; of the sync that is made */
    pthread_cond_t is_submitted, is_done;
    struct slot slots[SLOTS];
    pthread_t threads[THREADS];
};

static struct slot *slot_in(struct host *h, enum state state)
{
    for (int i = 0; i < SLOTS; i++)
        if (h->slots[i].state == state) return &h->slots[i];
    return NULL;
}

/* One sync at a time: of two that are out together one may answer 0 for bytes that are gone. */
static int sync_file(struct host *h)
{
    int is_done;

    pthread_mutex_lock(&h->syncing);
    is_done = !h->is_lost && fdatasync(h->file) == 0;
    pthread_mutex_lock(&h->lock);
    if (!is_done) h->is_lost = 1;
    pthread_mutex_unlock(&h->lock);
    pthread_mutex_unlock(&h->syncing);
    return is_done;
}

/* Reads or writes, and returns how many sectors were done, from the first one on. */
static uint32_t transfer(int file, const vmig_call *call, uint8_t *bytes)
{
    size_t length = (size_t)call->count * SECTOR, done = 0;
    off_t at = (off_t)(call->first * SECTOR);

    if (call->what == VMIG_DISK_CLEAR) memset(bytes, 0, length);
    while (done < length) {
        ssize_t part = call->what == VMIG_DISK_READ ? pread(file, bytes + done, length - done, at + (off_t)done)
                                                    : pwrite(file, bytes + done, length - done, at + (off_t)done);
        if (part <= 0) break;
        done += (size_t)part;
    }
    return (uint32_t)(done / SECTOR);
}

static void do_call(struct host *h, struct slot *s)
{
    int is_flush = s->call.what == VMIG_DISK_FLUSH;

    s->count = is_flush ? 0 : transfer(h->file, &s->call, s->bytes);
    if (is_flush || s->call.durable) sync_file(h);
}

static void *work(void *at)
{
    struct host *h = at;
    struct slot *s;

    pthread_mutex_lock(&h->lock);
    while (!h->ends) {
        if ((s = slot_in(h, SUBMITTED)) == NULL) {
            pthread_cond_wait(&h->is_submitted, &h->lock);
            continue;
        }
        s->state = IN_WORK;
        pthread_mutex_unlock(&h->lock);
        do_call(h, s);
        pthread_mutex_lock(&h->lock);
        s->state = DONE;
        pthread_cond_signal(&h->is_done);
        wake_guest();
    }
    pthread_mutex_unlock(&h->lock);
    return NULL;
}

static int start_threads(struct host *h)
{
    pthread_mutex_init(&h->lock, NULL), pthread_mutex_init(&h->syncing, NULL);
    pthread_cond_init(&h->is_submitted, NULL), pthread_cond_init(&h->is_done, NULL);
    for (int i = 0; i < THREADS; i++)
        if (pthread_create(&h->threads[i], NULL, work, h) != 0) return 0;
    return 1;
}

/* The number of a machine's first call. Where threads make machines the counter is atomic. */
static uint64_t own_numbers(void)
{
    static uint64_t machines;

    return machines++ << 40;
}

static vmig_status make(struct host *h, vmig_ram ram, int file)
{
    static const vmig_shape shapes[] = {{.kind = VMIG_BLOCK_OUTSIDE, .sectors = SECTORS}};
    vmig_setup setup = VMIG_SETUP;

    memset(h, 0, sizeof *h);
    h->turn = (vmig_turn)VMIG_TURN, h->file = file;
    setup.ram = ram, setup.shapes = shapes, setup.count = 1, setup.calls_from = own_numbers();
    return vmig_make(&setup, &h->machine);
}

static vmig_status take_ram(struct host *h)
{
    static const vmig_pages none = VMIG_NO_PAGES;

    if (h->ram.at == NULL) return VMIG_OK;
    stop_vcpus();
    return vmig_give_back(&h->machine, &h->ram, &none);
}

/* The answer of a call that is done. The bytes of a read go into RAM, which is taken back for them, and for no other answer. */
static vmig_status answer(struct host *h, const struct slot *s, int is_dropped)
{
    int is_read = s->call.what == VMIG_DISK_READ, is_flush = s->call.what == VMIG_DISK_FLUSH;
    vmig_status status = VMIG_OK;

    if (is_dropped || (!is_flush && s->count == 0)) return vmig_disk_failed(&h->machine, s->call.number);
    if (is_read) status = take_ram(h);
    if (status != VMIG_OK) return status;
    return vmig_disk_done(&h->machine, s->call.number, s->count, s->bytes, is_read ? (size_t)s->count * SECTOR : 0);
}

/* What came back, with *count calls. Where a sync failed the library is told before any answer. Of a device that its driver resets a read is
 * failed: nobody waits for its bytes. */
static vmig_status answer_done(struct host *h, int is_reset, int *count)
{
    vmig_status status = VMIG_OK;
    struct slot *s;

    *count = 0;
    pthread_mutex_lock(&h->lock);
    if (h->is_lost && !h->is_told) h->is_told = 1, status = vmig_sync_failed(&h->machine, 0);
    while (status == VMIG_OK && (s = slot_in(h, DONE)) != NULL) {
        status = answer(h, s, is_reset && s->call.what == VMIG_DISK_READ);
        s->state = FREE, *count += 1;
    }
    pthread_mutex_unlock(&h->lock);
    return status;
}

/* Waits until a call is done, and answers it. Before a stop, a save and vmig_reset: until none is out. */
static vmig_status await(struct host *h, int is_reset)
{
    int count;

    pthread_mutex_lock(&h->lock);
    while (slot_in(h, DONE) == NULL) pthread_cond_wait(&h->is_done, &h->lock);
    pthread_mutex_unlock(&h->lock);
    return answer_done(h, is_reset, &count);
}

static vmig_status drain(struct host *h)
{
    vmig_description found;
    vmig_status status = VMIG_OK;

    for (vmig_describe(&h->machine, &found); found.calls_out > 0 && status == VMIG_OK; vmig_describe(&h->machine, &found))
        status = await(h, 0);
    return status;
}

/* Asks what the disk is to do. */
static vmig_status ask_disk(struct host *h)
{
    vmig_status status = VMIG_CALL;
    struct slot *s;

    pthread_mutex_lock(&h->lock);
    while (status == VMIG_CALL && (s = slot_in(h, FREE)) != NULL) {
        status = vmig_disk_call(&h->machine, &s->call, s->bytes, BUFFER);
        if (status == VMIG_CALL) s->state = SUBMITTED;
    }
    pthread_cond_broadcast(&h->is_submitted);
    pthread_mutex_unlock(&h->lock);
    return status;
}

/* The devices' turn, with RAM taken back: it ends what was answered, and takes requests, for which the disk is asked. */
static vmig_status take_a_turn(struct host *h)
{
    vmig_turn *t = &h->turn;
    vmig_status status = take_ram(h);

    t->left = STEPS_A_TURN;
    while (status != VMIG_IDLE && status != VMIG_WORK && !vmig_refused(status)) status = vmig_work(&h->machine, t, NULL, 0);
    if (status == VMIG_NO_MEMORY) status = vmig_next(&h->machine, &t->dev, &t->pick);
    return vmig_refused(status) ? status : ask_disk(h);
}

/* A driver that resets its device waits in its access until what is out is answered. */
static vmig_status make_access(struct host *h, const struct access *a)
{
    uint32_t value = 0, byte;
    vmig_status status;

    if (!a->is_write) {
        status = vmig_reg_read(&h->machine, a->dev, a->off, a->width, &value);
        finish_read(value);
        return status == VMIG_NO_DEVICE ? VMIG_OK : status;
    }
    do status = vmig_reg_write(&h->machine, a->dev, a->off, a->width, a->value, &byte);
    while (status == VMIG_CALLS_OUT && await(h, 1) == VMIG_OK);
    return status == VMIG_NO_DEVICE ? VMIG_OK : status;
}

static int has_work(const struct host *h)
{
    uint8_t dev = h->turn.dev, pick = h->turn.pick;

    return vmig_next(&h->machine, &dev, &pick) != VMIG_IDLE;
}

/* Until the guest ends. Calls may be out then. */
static vmig_status run(struct host *h)
{
    struct access access;
    vmig_status status = VMIG_OK;
    int count;

    for (;;) {
        if (h->ram.at == NULL) status = vmig_lend(&h->machine, &h->ram);
        if (vmig_refused(status)) return status;
        switch (run_guest(h->ram.at, &access)) {
        case ENDED: return VMIG_OK;
        case TOUCHED: status = make_access(h, &access); break;
        case CALLED_OUT: break;
        }
        if (!vmig_refused(status)) status = answer_done(h, 0, &count);
        if (!vmig_refused(status) && has_work(h)) status = take_a_turn(h);
        set_lines(vmig_lines(&h->machine));
    }
}

/* No thread is left. What is out, if any, is answered before by drain. */
static void end_threads(struct host *h)
{
    pthread_mutex_lock(&h->lock);
    h->ends = 1;
    pthread_cond_broadcast(&h->is_submitted);
    pthread_mutex_unlock(&h->lock);
    for (int i = 0; i < THREADS; i++) pthread_join(h->threads[i], NULL);
}

/* ---- the hypervisor's own parts, and the guest ---- */
#include <stdlib.h>
#include "driver.h"

enum { PAGES = 16, MOST = 6, HEADERS = 0x7000, BUFFERS = 0x8000, READ = 0, WRITE = 1, FLUSH = 4 };

static uint8_t room[PAGES * 4096];
static pthread_mutex_t bell = PTHREAD_MUTEX_INITIALIZER;
static pthread_cond_t rings = PTHREAD_COND_INITIALIZER;
static int is_woken, lent_answers;
static uint32_t lines, read_value, offered;

/* What the guest does next: kicks of its requests, or a write of a register; and which requests it waits for. */
static struct access script[16];
static int count_script, at_script, waits_for;

void wake_guest(void)
{
    pthread_mutex_lock(&bell);
    is_woken = 1;
    pthread_cond_signal(&rings);
    pthread_mutex_unlock(&bell);
}

void finish_read(uint32_t value)
{
    read_value = value;
}

void stop_vcpus(void)
{
}

void set_lines(uint32_t level)
{
    lines = level;
}

static void store(uint8_t *ram, uint32_t at, uint64_t value, int width)
{
    for (int i = 0; i < width; i++) ram[at + (uint32_t)i] = (uint8_t)(value >> (8 * i));
}

/* Whether a request that it waits for has not ended. */
static int is_open(const uint8_t *ram)
{
    for (int i = 0; i < waits_for; i++)
        if (ram[HEADERS + 32 * i + 16] == 0xff) return 1;
    return 0;
}

/* Each guest ends once its script is done and its requests are. */
enum why run_guest(uint8_t *ram, struct access *access)
{
    if (at_script < count_script) {
        *access = script[at_script++];
        return TOUCHED;
    }
    if (!is_open(ram)) return ENDED;
    pthread_mutex_lock(&bell);
    while (!is_woken) pthread_cond_wait(&rings, &bell);
    is_woken = 0;
    pthread_mutex_unlock(&bell);
    lent_answers++;
    return CALLED_OUT;
}

/* The guest's part of a request, the number-th of those that are out together. */
static void prepare(uint32_t number, uint32_t type, uint64_t sector)
{
    uint32_t header = HEADERS + 32 * number, first = 3 * number, at = DESC + 16 * first, buffer = BUFFERS + 512 * number;
    const uint32_t parts[3][3] = {{header, 16, HAS_NEXT}, {buffer, 512, HAS_NEXT | (type == READ ? WRITABLE : 0)}, {header + 16, 1, WRITABLE}};

    store(room, header, type, 8);
    store(room, header + 8, sector, 8);
    store(room, header + 16, 0xff, 1);
    for (uint32_t i = 0; i < 3; i++) {
        store(room, at + 16 * i, parts[i][0], 8);
        store(room, at + 16 * i + 8, parts[i][1], 4);
        store(room, at + 16 * i + 12, parts[i][2], 2);
        store(room, at + 16 * i + 14, type == FLUSH && i == 0 ? first + 2 : first + i + 1, 2);
    }
    store(room, AVAIL + 4 + 2 * (offered % SIZE), first, 2);
    store(room, AVAIL + 2, ++offered, 2);
}

/* RAM is the guest's: the requests of one kind go out together, and it runs until they have ended. */
static void ask_for(struct host *h, uint32_t type, int count)
{
    if (h->ram.at == NULL) expect("lend", vmig_lend(&h->machine, &h->ram), VMIG_OK);
    for (int i = 0; i < count; i++) prepare((uint32_t)i, type, 10u * (uint32_t)i);
    script[0] = (struct access){0, 4, 1, 0x050, 0}, count_script = 1, at_script = 0, waits_for = count;
    expect("run", run(h), VMIG_OK);
}

static void outcomes_are(const char *what, int count, uint8_t wanted)
{
    for (int i = 0; i < count; i++) expect(what, room[HEADERS + 32 * i + 16], wanted);
}

static void bring_up(struct host *h, uint32_t features)
{
    expect("back", take_ram(h), VMIG_OK);
    memset(room, 0, 0x7000);
    set_up_with(&h->machine, 1, features);
    offered = 0;
}

static void writes_and_reads(struct host *h)
{
    uint8_t got[512];

    for (int i = 0; i < MOST; i++) memset(room + BUFFERS + 512 * i, 0x40 + i, 512);
    ask_for(h, WRITE, MOST);
    outcomes_are("a write", MOST, 0);
    for (int i = 0; i < MOST; i++) {
        expect("the file", (uint64_t)pread(h->file, got, 512, 512 * 10 * i), 512);
        expect("its bytes", got[0] + 256u * got[511], (0x40u + (uint32_t)i) * 257);
    }
    memset(room + BUFFERS, 0, 512 * MOST);
    ask_for(h, READ, MOST);
    outcomes_are("a read", MOST, 0);
    for (int i = 0; i < MOST; i++) expect("what was read", room[BUFFERS + 512 * i + 511], 0x40u + (uint32_t)i);
    expect("the line", lines, 1);
}

/* The driver resets its device right after its kick, so its calls are out. */
static void resets(struct host *h)
{
    if (h->ram.at == NULL) expect("lend", vmig_lend(&h->machine, &h->ram), VMIG_OK);
    for (int i = 0; i < MOST; i++) prepare((uint32_t)i, i % 2 ? READ : WRITE, 10u * (uint32_t)i);
    script[0] = (struct access){0, 4, 1, 0x050, 0}, script[1] = (struct access){0, 4, 1, 0x070, 0}, script[2] = (struct access){0, 4, 0, 0x070, 0};
    count_script = 3, at_script = 0, waits_for = 0, read_value = 77;
    expect("run", run(h), VMIG_OK);
    expect("it was reset", read_value, 0);
    expect("nothing is out", description_of(&h->machine).calls_out, 0);
}

/* A file that cannot be synced: a pipe. Calls are out no more, so no thread looks at the file. */
static void loses(struct host *h)
{
    int ends[2], file = h->file;

    if (pipe(ends) != 0) return;
    h->file = ends[0];
    ask_for(h, FLUSH, 1);
    outcomes_are("a flush fails", 1, 1);
    h->file = file;
    ask_for(h, FLUSH, 1);
    outcomes_are("and each later one", 1, 1);
    expect("it is lost", description_of(&h->machine).lost, 1);
    ask_for(h, READ, MOST);
    outcomes_are("a read", MOST, 0);
    close(ends[0]), close(ends[1]);
}

int main(void)
{
    char name[] = "/tmp/vmig-pages-threads-XXXXXX";
    int file = mkstemp(name);
    static struct host h;

    if (file < 0 || unlink(name) != 0 || ftruncate(file, SECTORS * SECTOR) != 0) {
        puts("pages/storage-threads: there is no file to be had");
        return 0;
    }
    expect("make", make(&h, (vmig_ram){room, sizeof room}, file), VMIG_OK);
    expect("threads", (uint64_t)start_threads(&h), 1);
    bring_up(&h, 0);
    writes_and_reads(&h);
    bring_up(&h, 1 << 9);
    writes_and_reads(&h);
    ask_for(&h, FLUSH, 1);
    outcomes_are("a flush", 1, 0);
    expect("it was called out", lent_answers > 0, 1);
    resets(&h);
    bring_up(&h, 1 << 9);
    loses(&h);
    expect("drained", drain(&h), VMIG_OK);
    end_threads(&h);
    vmig_free(&h.machine);
    close(file);
    return ended("pages/storage-threads");
}
