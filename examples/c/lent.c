/* A guest that writes its RAM itself, as under hardware virtualization: RAM is memory of this program, which is lent while the
 * guest runs. Its accesses to registers, and what the host puts in, are done while RAM is lent; it is given back for the devices'
 * work and for what a move reads of it. The pages that the guest wrote are named before a round ends and before the stop: in half of
 * the moves by vmig_mark alone, in the others as RAM is given back, and in some in both ways. It moves live a hundred times, in ways
 * that a seeded generator draws, into other memory of this program. Its twin never moves, has RAM in the library, and is handed each
 * page that the guest wrote. Both answer alike all the time, and after each move RAM and disk are the same. In every fifth move one
 * page that the guest wrote is left out of the log, after it was sent: then this page, and no other, is not the same. */
#include <string.h>
#include "driver.h"

enum { PAGES = 32, PAGE = 4096, RAM = PAGES * PAGE, SECTORS = 12, SECTOR = 512, DISK = SECTORS * SECTOR, MOVES = 100 };

/* The devices, and the queues of their drivers, in the order in which they lie. What the chains of a queue name has a page. */
enum { ENTROPY, CONSOLE, BLOCK, DEVICES };
enum { POOL, TYPED, PRINTED, REQUESTS, QUEUES };
enum { BUFFERS = 0xa000, AT_OUTCOME = 0x40, AT_SECTOR = 0x200 };

/* The guest's other pages, from this one on. The last one it writes once in each move, after it was sent. */
enum { HEAP = 16, LATE = PAGES - 1 };

/* Where the second of two memory slots begins, each of which has a log of its own. */
enum { SLOT = 13 };

/* More than what can wait. */
enum { ALL = 1 << 20 };

/* How the pages of the log are named. */
enum { AT_RETURNS, BY_MARK, IN_BOTH_WAYS };

static const vmig_shape SHAPES[DEVICES] = {
    {.kind = VMIG_ENTROPY}, {.kind = VMIG_CONSOLE}, {.kind = VMIG_BLOCK, .sectors = SECTORS}};
static const uint8_t DEVICE_OF[QUEUES] = {ENTROPY, CONSOLE, CONSOLE, BLOCK}, NUMBER_OF[QUEUES] = {0, 0, 1, 0};

/* Memory for RAM and for disks. The machine has one of each, and what arrives another. */
static uint8_t rooms[3][RAM], disks[2][DISK], twin_disk[DISK];

/* A host, with its guest and its guest's twin. */
struct host {
    vmig_machine machine, twin;
    vmig_ram ram;            /* RAM while it is lent */
    int room, disk;          /* where RAM and the disk lie */
    uint8_t written[PAGES];  /* the pages that the guest wrote since RAM was lent */
    uint8_t dirty[PAGES];    /* and since they were last named */
    uint16_t made[QUEUES];   /* how many chains the guest made available */
    int kicks[QUEUES];       /* whether it kicks once it is outside */
    int names;               /* how pages are named in this move */
    int leaves_out;          /* whether the log lacks the page LATE */
};

static uint32_t draw(uint32_t below)
{
    static uint32_t state = 2463534242;
    state ^= state << 13;
    state ^= state >> 17;
    state ^= state << 5;
    return state % below;
}

/* The guest writes a number into its RAM, the lowest byte first. The host's hardware notes the page. */
static void store(struct host *h, uint32_t addr, uint64_t value, size_t width)
{
    for (size_t i = 0; i < width; i++) {
        ((uint8_t *)h->ram.at)[addr + i] = (uint8_t)(value >> (8 * i));
        h->dirty[(addr + i) / PAGE] = h->written[(addr + i) / PAGE] = 1;
    }
}

static void store_random(struct host *h, uint32_t addr, uint32_t len)
{
    for (uint32_t i = 0; i < len; i++) store(h, addr + i, draw(256), 1);
}

static void describe_in(struct host *h, uint32_t queue, uint32_t number, uint32_t addr, uint32_t len, uint32_t flags)
{
    uint32_t at = DESC + queue * NEXT_QUEUE + 16 * number;
    store(h, at, addr, 8);
    store(h, at + 8, len, 4);
    store(h, at + 12, flags, 2);
    store(h, at + 14, number + 1, 2);
}

/* A request that reads or writes one sector. */
static void request(struct host *h, uint32_t buffer)
{
    uint32_t type = draw(2);

    store(h, buffer, type, 8);
    store(h, buffer + 8, draw(SECTORS), 8);
    store(h, buffer + AT_OUTCOME, 0xff, 1);
    if (type == 1) store_random(h, buffer + AT_SECTOR, SECTOR);
    describe_in(h, REQUESTS, 0, buffer, 16, HAS_NEXT);
    describe_in(h, REQUESTS, 1, buffer + AT_SECTOR, SECTOR, HAS_NEXT | (type == 0 ? WRITABLE : 0));
    describe_in(h, REQUESTS, 2, buffer + AT_OUTCOME, 1, WRITABLE);
}

/* The guest makes a chain available, if the devices gave the last one of the queue back: it reads its used ring. */
static void offer_in(struct host *h, uint32_t queue)
{
    uint32_t at = AVAIL + queue * NEXT_QUEUE, buffer = BUFFERS + queue * PAGE, len = 1 + draw(200);
    const uint8_t *used = (const uint8_t *)h->ram.at + USED + queue * NEXT_QUEUE;

    if ((used[2] | used[3] << 8) != h->made[queue]) return;
    if (queue == PRINTED) store_random(h, buffer, len);
    if (queue == REQUESTS) request(h, buffer);
    else describe_in(h, queue, 0, buffer, len, queue == PRINTED ? 0 : WRITABLE);
    store(h, at + 4 + 2 * (h->made[queue]++ % SIZE), 0, 2);
    store(h, at + 2, h->made[queue], 2);
    h->kicks[queue] = 1;
}

/* The guest does a piece of its work: a chain, some bytes of a page of its own, or a page of zeros. */
static void act(struct host *h)
{
    uint32_t choice = draw(QUEUES + 4), page = draw(16) == 0 ? 0 : (HEAP + draw(LATE - HEAP)) * PAGE;

    if (choice < QUEUES) offer_in(h, choice);
    else if (choice > QUEUES) store_random(h, page + draw(PAGE - 200), 1 + draw(200));
    else for (uint32_t i = 0; i < PAGE; i++) store(h, page + i, 0, 1);
}

/* The pages of the log from the first of a slot on, as a host hands them in: a list, from the last page on, which names one twice; or a
 * bitmap with bits past the slot. They are in the log no more. */
static vmig_pages pages_of(struct host *h, uint32_t first, uint32_t count)
{
    static uint64_t words[2];
    static uint32_t list[PAGES + 1];
    vmig_pages marked = vmig_bitmap(words, 1 + draw(2));
    size_t listed = 0;

    marked.first = first, marked.span = count;
    words[0] = ~(uint64_t)0 << count, words[1] = ~(uint64_t)0;
    for (uint32_t page = count; page-- > 0;) {
        words[0] |= (uint64_t)h->dirty[first + page] << page;
        if (h->dirty[first + page]) list[listed++] = first + page;
    }
    if (listed > 0) list[listed++] = list[0];
    memset(h->dirty + first, 0, count);
    return draw(2) == 0 ? marked : vmig_list(list, listed);
}

/* The whole log, or where none is left out also all pages. */
static vmig_pages pages_of_all(struct host *h)
{
    vmig_pages pages = pages_of(h, 0, PAGES), all = VMIG_ALL_PAGES;

    return !h->leaves_out && draw(8) == 0 ? all : pages;
}

/* What is named as RAM is given back: nothing, the pages of one slot, or all of the log. */
static vmig_pages pages_at_return(struct host *h)
{
    vmig_pages none = VMIG_NO_PAGES;

    if (h->names == BY_MARK || draw(4) == 0) return none;
    if (h->names == IN_BOTH_WAYS && draw(2) == 0) return pages_of(h, 0, SLOT);
    return pages_of_all(h);
}

/* RAM is given back with these pages, if it is lent, and the twin is handed what the guest wrote. */
static void give_back_with(struct host *h, vmig_pages named)
{
    for (uint32_t page = 0; page < PAGES; page++)
        if (h->written[page])
            expect("handed", vmig_ram_write(&h->twin, page * PAGE, rooms[h->room] + page * PAGE, PAGE), VMIG_OK);
    memset(h->written, 0, sizeof h->written);
    expect("give back", vmig_give_back(&h->machine, &h->ram, &named), VMIG_OK);
    expect("no RAM is out", h->ram.at == NULL && h->ram.len == 0, 1);
}

static void give_back(struct host *h)
{
    if (h->ram.at == NULL) return;
    if (h->leaves_out) h->dirty[LATE] = 0;
    give_back_with(h, pages_at_return(h));
}

/* The guest runs on RAM that is lent to it. */
static void lend(struct host *h)
{
    uint32_t lines = vmig_lines(&h->machine);

    if (h->ram.at != NULL) return;
    expect("lend", vmig_lend(&h->machine, &h->ram), VMIG_OK);
    expect("RAM", h->ram.at == rooms[h->room] && h->ram.len == RAM, 1);
    expect("lines while it is lent", vmig_lines(&h->machine), lines);
}

static void mark(struct host *h, vmig_pages named)
{
    expect("mark", vmig_mark(&h->machine, &named), VMIG_OK);
}

/* All that is left in the log is named, so that a round can end: by marks, of one slot after the other or of RAM as a whole, or as RAM is
 * given back once more. */
static void name_all(struct host *h)
{
    give_back(h);
    if (h->names == AT_RETURNS) {
        lend(h);
        give_back_with(h, pages_of_all(h));
    } else if (draw(2) == 0) {
        mark(h, pages_of(h, SLOT, PAGES - SLOT));
        mark(h, pages_of(h, 0, SLOT));
    } else mark(h, pages_of_all(h));
}

/* RAM moves while it is lent: it lies in another room from then on. */
static void move_ram(struct host *h)
{
    int from = h->room;

    h->room = (from + 1) % 3;
    memcpy(rooms[h->room], rooms[from], RAM);
    memset(rooms[from], 0x99, RAM);
    h->ram.at = rooms[h->room];
}

/* A driver writes a register, and reads one, of both. */
static void write_both(struct host *h, uint8_t dev, uint32_t off, uint32_t value)
{
    uint32_t byte = 77, read = 77, twin_read = 77, other = 4 * draw(80);

    expect("register write", vmig_reg_write(&h->machine, dev, off, 4, value, &byte), VMIG_OK);
    expect("register write", vmig_reg_write(&h->twin, dev, off, 4, value, &byte), VMIG_OK);
    expect("register read", vmig_reg_read(&h->machine, dev, other, 4, &read), VMIG_OK);
    expect("register read", vmig_reg_read(&h->twin, dev, other, 4, &twin_read), VMIG_OK);
    expect("the same value", twin_read, read);
}

static void input_both(struct host *h, uint8_t dev)
{
    uint8_t bytes[100];
    uint32_t len = draw(sizeof bytes);
    size_t kept = 77, twin_kept = 77;

    for (uint32_t i = 0; i < len; i++) bytes[i] = (uint8_t)draw(256);
    expect("input", vmig_input(&h->machine, dev, bytes, len, &kept), VMIG_OK);
    expect("input", vmig_input(&h->twin, dev, bytes, len, &twin_kept), VMIG_OK);
    expect("as many kept", twin_kept, kept);
}

/* The host resizes the console, or empties a device's input, and asks how much the devices still take. */
static void change_both(struct host *h)
{
    uint16_t columns = (uint16_t)draw(3);
    uint8_t dev = (uint8_t)draw(BLOCK);
    size_t room = 77, twin_room = 77;

    if (draw(4) == 0) {
        expect("drop", vmig_drop(&h->machine, dev), VMIG_OK);
        expect("drop", vmig_drop(&h->twin, dev), VMIG_OK);
    }
    expect("resize", vmig_resize(&h->machine, CONSOLE, columns, 25), VMIG_OK);
    expect("resize", vmig_resize(&h->twin, CONSOLE, columns, 25), VMIG_OK);
    expect("room", vmig_room(&h->machine, dev, &room), VMIG_OK);
    expect("room", vmig_room(&h->twin, dev, &twin_room), VMIG_OK);
    expect("the same room", twin_room, room);
}

/* What happens to both while RAM is lent. */
static void touch_both(struct host *h)
{
    for (int queue = 0; queue < QUEUES; queue++)
        if (h->kicks[queue]) write_both(h, DEVICE_OF[queue], 0x050, NUMBER_OF[queue]);
    memset(h->kicks, 0, sizeof h->kicks);
    if (draw(3) == 0) input_both(h, ENTROPY);
    if (draw(3) == 0) input_both(h, CONSOLE);
    if (draw(6) == 0) change_both(h);
    if (draw(2) == 0) write_both(h, (uint8_t)draw(DEVICES), 0x064, 3);
    expect("lines while it is lent", vmig_lines(&h->twin), vmig_lines(&h->machine));
}

/* Whether a step has something to do. */
static int has_work(const vmig_machine *m)
{
    uint8_t dev = 0, pick = 0;

    return vmig_next(m, &dev, &pick) != VMIG_IDLE;
}

/* A turn of the devices, of both. */
static void serve_both(struct host *h)
{
    static uint8_t sent[VMIG_SENT_MAX], twin_sent[VMIG_SENT_MAX];
    vmig_turn turn = VMIG_TURN, twin_turn = VMIG_TURN;
    vmig_status status;

    turn.left = twin_turn.left = 1000;
    do {
        status = vmig_work(&h->machine, &turn, sent, sizeof sent);
        expect("ends alike", vmig_work(&h->twin, &twin_turn, twin_sent, sizeof twin_sent), status);
        expect("the same steps", (uint64_t)memcmp(&turn, &twin_turn, sizeof turn), 0);
        if (status == VMIG_SENT) expect("a message", (uint64_t)memcmp(sent, twin_sent, turn.len), 0);
        if (status == VMIG_SYNC) {
            status = vmig_step(&h->machine, turn.dev, turn.pick, sent, sizeof sent, &turn.len);
            expect("answers alike", vmig_step(&h->twin, turn.dev, turn.pick, sent, sizeof sent, &twin_turn.len), status);
        }
        expect("lines", vmig_lines(&h->twin), vmig_lines(&h->machine));
    } while (status != VMIG_IDLE && status != VMIG_WORK && !vmig_refused(status));
    expect("no work is left", status, VMIG_IDLE);
}

/* Takes so many of the bytes that wait, and feeds them to the machine that arrives. Returns whether there were any. */
static int hand_over(struct host *h, vmig_machine *target, size_t size)
{
    static uint8_t piece[ALL];
    size_t got = 0;

    expect("take", vmig_send_take(&h->machine, piece, size, &got), VMIG_OK);
    expect("feed", (uint64_t)vmig_refused(vmig_feed(target, piece, got)), 0);
    return got > 0;
}

/* At a random moment: none of them, one, about a page, or all. */
static void hand_over_some(struct host *h, vmig_machine *target)
{
    static const size_t sizes[] = {0, 1, 4100, ALL};

    hand_over(h, target, sizes[draw(4)]);
}

/* The guest runs, and comes out again and again. RAM is given back where its devices have work to do, and now and then besides. If the
 * machine is being sent, target is the one that arrives. */
static void turn(struct host *h, vmig_machine *target, int is_late)
{
    lend(h);
    for (uint32_t acts = draw(6); acts > 0; acts--) {
        act(h);
        if (draw(3) == 0) touch_both(h);
    }
    if (is_late) store_random(h, LATE * PAGE, PAGE);
    if (target != NULL && draw(4) == 0) hand_over_some(h, target);
    if (target == NULL && draw(8) == 0) move_ram(h);
    touch_both(h);
    if (!has_work(&h->machine) && draw(2) == 0) return;
    give_back(h);
    serve_both(h);
    write_both(h, (uint8_t)draw(DEVICES), 0x064, 3);
}

/* Sends what is due in this round, some items at a time, while the guest runs. Some of what waits is handed over. */
static void send_round(struct host *h, vmig_machine *target)
{
    vmig_status status;

    do {
        turn(h, target, 0);
        give_back(h);
        if (h->names != AT_RETURNS && draw(4) == 0) mark(h, pages_of(h, 0, 1 + draw(PAGES)));
        for (uint32_t times = draw(8); (status = vmig_send_some(&h->machine, draw(12))) != VMIG_ROUND_DONE && times > 0; times--) {
            expect("copied", status, VMIG_OK);
            if (draw(3) == 0) hand_over_some(h, target);
        }
    } while (status != VMIG_ROUND_DONE);
}

/* Which pages are not those of the twin, a bit for each. */
static uint32_t differing(struct host *h, const uint8_t *bytes)
{
    uint8_t page[PAGE];
    uint32_t found = 0;

    for (uint32_t n = 0; n < PAGES; n++) {
        expect("page of the twin", vmig_ram_read(&h->twin, n * PAGE, page, PAGE), VMIG_OK);
        if (memcmp(page, bytes + n * PAGE, PAGE) != 0) found |= (uint32_t)1 << n;
    }
    return found;
}

/* RAM but for these pages, the disk and the lines are those of the twin. */
static void is_twin(struct host *h, uint32_t but)
{
    give_back(h);
    lend(h);
    expect("pages that are not the twin's", differing(h, h->ram.at), but);
    give_back(h);
    expect("the same disk", (uint64_t)memcmp(disks[h->disk], twin_disk, DISK), 0);
    expect("the same lines", vmig_lines(&h->twin), vmig_lines(&h->machine));
}

/* The machine is what arrived, in this room. The memory of what was sent is this program's again, as the guest left it. */
static void go_on_with(struct host *h, vmig_machine target, int room)
{
    vmig_image image = VMIG_NO_IMAGE;

    expect("release", vmig_release(&h->machine, &image, 1), VMIG_OK);
    expect("its image", image.at == disks[h->disk] && image.sectors == SECTORS, 1);
    expect("RAM as it was", differing(h, rooms[h->room]), 0);
    memset(rooms[h->room], 0x11, RAM);
    memset(disks[h->disk], 0x22, DISK);
    h->machine = target;
    h->room = room;
    h->disk = 1 - h->disk;
}

/* Moves the machine while its guest runs, or gives up on the way. Returns whether it moved. */
static int move(struct host *h)
{
    int room = (h->room + 1 + (int)draw(2)) % 3;
    vmig_machine target = VMIG_NONE;
    vmig_ram ram = {rooms[room], RAM};
    vmig_image image = {disks[1 - h->disk], SECTORS};
    uint64_t pages = 77, sectors = 77;

    give_back(h);
    expect("arrive", arrive_over(&ram, &image, 1, &target), VMIG_OK);
    expect("all is taken", ram.at == NULL && ram.len == 0 && image.sectors == 0, 1);
    expect("begin", vmig_send_begin(&h->machine), VMIG_OK);
    memset(h->dirty, 0, sizeof h->dirty);
    send_round(h, &target);
    turn(h, &target, 1);
    for (uint32_t rounds = draw(4); rounds > 0; rounds--) {
        name_all(h);
        expect("end of the round", vmig_send_round(&h->machine), VMIG_OK);
        send_round(h, &target);
    }
    if (!h->leaves_out && draw(8) == 0) {
        give_back(h);
        expect("abort", vmig_send_abort(&h->machine), VMIG_OK);
        vmig_free(&target);
        return 0;
    }
    turn(h, &target, 0);
    name_all(h);
    expect("stop", vmig_send_stop(&h->machine, &pages, &sectors), VMIG_OK);
    while (hand_over(h, &target, 1 + draw(9000))) continue;
    expect("finish", vmig_finish(&target), VMIG_OK);
    go_on_with(h, target, room);
    return 1;
}

static void set_up_all(vmig_machine *m)
{
    set_up_device(m, ENTROPY, POOL, 1, 0);
    set_up_device(m, CONSOLE, TYPED, 2, 0);
    set_up_device(m, BLOCK, REQUESTS, 1, 0);
}

/* The machine is made over a room that has bytes already, and the twin of the same bytes. */
static void make(struct host *h)
{
    vmig_ram ram = {rooms[0], RAM};
    vmig_image image = {disks[0], SECTORS}, twin_image = {twin_disk, SECTORS};

    for (size_t i = HEAP * PAGE; i < RAM; i++) rooms[0][i] = (uint8_t)draw(256);
    for (size_t i = 0; i < DISK; i++) disks[0][i] = twin_disk[i] = (uint8_t)draw(256);
    expect("make the twin", make_mapped(PAGES, SHAPES, DEVICES, &twin_image, 1, &h->twin), VMIG_OK);
    for (uint32_t at = 0; at < RAM; at += PAGE) expect("handed", vmig_ram_write(&h->twin, at, rooms[0] + at, PAGE), VMIG_OK);
    expect("make", make_over(&ram, SHAPES, DEVICES, &image, 1, &h->machine), VMIG_OK);
    expect("all is taken", ram.at == NULL && ram.len == 0 && image.sectors == 0, 1);
    set_up_all(&h->machine);
    set_up_all(&h->twin);
}

int main(void)
{
    static struct host h;

    make(&h);
    for (int moves = 0; moves < MOVES;) {
        h.names = moves % 2 == 0 ? BY_MARK : draw(3) == 0 ? IN_BOTH_WAYS : AT_RETURNS;
        h.leaves_out = moves % 5 == 4;
        for (uint32_t turns = draw(6); turns > 0; turns--) turn(&h, NULL, 0);
        if (!move(&h)) continue;
        is_twin(&h, h.leaves_out ? (uint32_t)1 << LATE : 0);
        h.leaves_out = 0;
        turn(&h, NULL, 1);
        is_twin(&h, 0);
        moves++;
    }
    lend(&h);
    vmig_free(&h.machine);
    expect("RAM of a machine that was freed while it was lent", differing(&h, rooms[h.room]), 0);
    vmig_free(&h.twin);
    return ended("lent");
}
