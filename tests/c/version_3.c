/* Version 3 of the stream, which a machine with a network device for long frames is written in: what is written, byte for byte, and what is
 * refused, at which byte. This program has a reader of its own, by the rules of docs/stream-format.md, for machines of one page without a
 * disk, and what the library answers is compared with it, for a stream that is cut at each byte, and that is changed at each byte to each
 * other value. Digests were computed by another program. */
#include "driver.h"

enum { RAM = 4096, LONGEST = 9018, USUAL = 1514, DIGEST = 32, MOST_BYTES = 1024 };

/* ---- streams that this program writes ------------------------------------------------------------------------------------------- */

struct stream {
    uint8_t bytes[MOST_BYTES];
    size_t len;
};

static void number(struct stream *s, uint64_t value, size_t width)
{
    for (size_t i = 0; i < width; i++) s->bytes[s->len++] = (uint8_t)(value >> (8 * i));
}

static void bytes(struct stream *s, const void *from, size_t len)
{
    memcpy(s->bytes + s->len, from, len);
    s->len += len;
}

static void head(struct stream *s, uint32_t version, uint32_t devices)
{
    bytes(s, "VMIG", 4);
    number(s, version, 4);
    number(s, 1, 4);
    number(s, devices, 4);
}

static const uint8_t ADDRESS[] = {2, 0, 0, 0, 0, 9};

static void network_row(struct stream *s, uint32_t longest)
{
    number(s, longest == USUAL ? 1 : 129, 1);
    bytes(s, ADDRESS, 6);
    if (longest != USUAL) number(s, longest, 2);
}

static void device_head(struct stream *s, uint8_t dev, uint32_t len)
{
    number(s, 4, 1);
    number(s, dev, 1);
    number(s, len, 4);
}

static void common(struct stream *s, uint8_t status, uint64_t features, uint32_t selected)
{
    number(s, status, 1);
    number(s, 0, 1 + 4);
    number(s, features != 0, 4);
    number(s, features, 8);
    number(s, selected, 4);
    number(s, 0, 4);
}

static void queue(struct stream *s, uint32_t at, int is_ready)
{
    number(s, is_ready ? 8 : 0, 4);
    number(s, at, 8);
    number(s, is_ready ? at + 0x100 : 0, 8);
    number(s, is_ready ? at + 0x180 : 0, 8);
    number(s, (uint64_t)is_ready, 2);
    number(s, 0, 2);
    number(s, 1, 1);
    number(s, 0, 2);
    number(s, 1, 1);
}

static void frame(struct stream *s, uint8_t first, size_t len)
{
    number(s, len, 2);
    for (size_t i = 0; i < len; i++) number(s, first + i, 1);
}

static const uint64_t FEATURES = UINT64_C(1) << 32 | 1 << 5 | 1 << 3, PACKED = UINT64_C(1) << 34;

/* A machine of a page of zeros: a network device for frames of up to 9,018 bytes, whose driver took it over with MTU, and two frames wait;
 * and an entropy device with three bytes. */
static struct stream long_stream(int is_packed)
{
    static const uint8_t digests[2][DIGEST] = {
        {0x00, 0x0a, 0x5a, 0x55, 0x4e, 0xcc, 0xb6, 0x56, 0x03, 0xa4, 0x32, 0x79, 0xb1, 0x17, 0x95, 0xe4,
         0x07, 0x6c, 0xe1, 0xa5, 0xda, 0x4c, 0x7f, 0x91, 0x7c, 0xee, 0x31, 0xf0, 0x2b, 0x99, 0x96, 0x91},
        {0xf2, 0x2e, 0xb1, 0x69, 0xeb, 0x7e, 0x17, 0x0b, 0x26, 0x62, 0x60, 0xfa, 0xfb, 0x7b, 0xc2, 0xcb,
         0x93, 0xeb, 0xf6, 0x02, 0xe2, 0x2c, 0xcb, 0x65, 0x49, 0x15, 0x23, 0x04, 0x5f, 0xec, 0xe9, 0x8a}};
    struct stream s = {.len = 0};

    head(&s, 3, 2);
    network_row(&s, LONGEST);
    number(&s, VMIG_ENTROPY, 1);
    number(&s, 6, 5);
    device_head(&s, 0, 26 + 2 * 36 + 2 + 16 + 22);
    common(&s, 0xf, FEATURES | (is_packed ? PACKED : 0), 1);
    queue(&s, 0, 1);
    queue(&s, 0x200, 1);
    number(&s, 2, 2);
    frame(&s, 0, 14);
    frame(&s, 100, 20);
    device_head(&s, 1, 26 + 36 + 2 + 3);
    common(&s, 0, 0, 0);
    queue(&s, 0, 0);
    number(&s, 3, 2);
    bytes(&s, "abc", 3);
    number(&s, 5, 1);
    bytes(&s, digests[is_packed], DIGEST);
    return s;
}

/* A machine with a device of each kind, none for long frames. */
static struct stream plain_stream(void)
{
    static const uint8_t digest[DIGEST] = {0xac, 0x0a, 0xa9, 0xfc, 0xe7, 0x39, 0x6d, 0xbc, 0x76, 0x7a, 0xe6, 0xc2, 0x46, 0x5e, 0xee, 0x67,
                                           0x16, 0x56, 0xad, 0xe6, 0xb5, 0xe1, 0xe0, 0x20, 0x0b, 0xa7, 0x39, 0xa8, 0xa0, 0x5b, 0x08, 0xde};
    static const uint32_t own[] = {2 + 16, 1, 2 + 2 + 2, 2}, queues[] = {2, 1, 2, 1};
    struct stream s = {.len = 0};

    head(&s, 2, 4);
    network_row(&s, USUAL);
    number(&s, VMIG_BLOCK, 1);
    number(&s, 1, 8);
    number(&s, 1, 1);
    bytes(&s, "ABCDEFGHIJKLMNOPQRST", 20);
    number(&s, VMIG_CONSOLE, 1);
    number(&s, VMIG_ENTROPY, 1);
    number(&s, 6, 5);
    number(&s, 2 + (1 << 8), 6);
    number(&s, 1, 1);
    for (int i = 0; i < 512; i++) number(&s, 0, 1);
    for (uint8_t dev = 0; dev < 4; dev++) {
        device_head(&s, dev, 26 + 36 * queues[dev] + own[dev]);
        common(&s, 0, 0, 0);
        for (uint32_t q = 0; q < queues[dev]; q++) queue(&s, 0, 0);
        if (dev == 0) number(&s, 1, 2), frame(&s, 0, 14);
        else if (dev == 2) number(&s, 80 + (25 << 16), 6);
        else number(&s, 0, own[dev]);
    }
    number(&s, 5, 1);
    bytes(&s, digest, DIGEST);
    return s;
}

/* ---- a reader of streams of one page without disks -------------------------------------------------------------------------------- */

struct reader {
    const uint8_t *bytes;
    size_t len, at;             /* how many bytes there are, and how many of them were looked at */
    vmig_status fault;          /* what these show, or VMIG_OK */
    uint32_t longest_allowed, version, pages, count, rounds, devices;
    int has_page, is_whole;
    struct {
        uint32_t kind, longest;
        uint64_t sectors;
    } shapes[16];
};

static uint64_t little(const uint8_t *at, size_t width)
{
    uint64_t value = 0;

    while (width-- > 0) value = value << 8 | at[width];
    return value;
}

/* The next bytes; or none, if they have not all come. */
static const uint8_t *next(struct reader *r, size_t count)
{
    const uint8_t *at = r->bytes + r->at;

    if (r->fault != VMIG_OK) return NULL;
    if (r->len - r->at < count) {
        r->at = r->len;
        return NULL;
    }
    r->at += count;
    return at;
}

static void fails(struct reader *r, int does, vmig_status fault)
{
    if (does && r->fault == VMIG_OK) r->fault = fault;
}

static size_t row_length(const struct reader *r, uint8_t number)
{
    switch (number) {
    case 1: return 7;
    case 2: return 30;
    case 3: case 4: return 1;
    case 129: return r->version == 3 ? 9 : 0;
    case 130: return r->version == 3 ? 30 : 0;
    default: return 0;
    }
}

static void read_row(struct reader *r, uint32_t dev)
{
    const uint8_t *row = next(r, 1);

    if (row == NULL) return;
    r->shapes[dev].kind = row[0] == 129 ? VMIG_NETWORK : row[0];
    fails(r, row_length(r, row[0]) == 0, VMIG_STREAM_BAD_SHAPE);
    if (r->fault != VMIG_OK || next(r, row_length(r, row[0]) - 1) == NULL) return;
    if (row[0] == 1) r->shapes[dev].longest = USUAL;
    if (row[0] == 2 || row[0] == 130) {
        uint64_t most = row[0] == 2 ? UINT32_MAX : UINT64_C(1) << 54;
        r->shapes[dev].sectors = little(row + 1, 8);
        fails(r, r->shapes[dev].sectors == 0 || r->shapes[dev].sectors > most || row[9] > 1, VMIG_STREAM_BAD_SHAPE);
    }
    if (row[0] == 129) {
        r->shapes[dev].longest = (uint32_t)little(row + 7, 2);
        fails(r, r->shapes[dev].longest <= USUAL, VMIG_STREAM_BAD_SHAPE);
    }
}

/* What the arrival has to say of a header that is whole. Version 3 is that of machines with a device for long frames, or with a disk outside, of which
 * these arrivals allow none. */
static void is_let_in(struct reader *r)
{
    int is_long = 0, is_large = r->pages > 1;

    for (uint32_t dev = 0; dev < r->count; dev++) {
        is_long |= r->shapes[dev].longest > USUAL || r->shapes[dev].kind == 130;
        is_large |= r->shapes[dev].longest > r->longest_allowed || r->shapes[dev].sectors > 0;
    }
    fails(r, r->version == 3 && !is_long, VMIG_STREAM_BAD_VERSION);
    fails(r, is_large, VMIG_STREAM_TOO_LARGE);
}

static int read_header(struct reader *r)
{
    const uint8_t *at = next(r, 4);

    fails(r, at != NULL && memcmp(at, "VMIG", 4) != 0, VMIG_STREAM_BAD_MAGIC);
    if ((at = next(r, 4)) == NULL) return 0;
    r->version = (uint32_t)little(at, 4);
    fails(r, r->version < 1 || r->version > (r->longest_allowed > USUAL ? 3 : 2), VMIG_STREAM_BAD_VERSION);
    if ((at = next(r, 8)) == NULL) return 0;
    r->pages = (uint32_t)little(at, 4), r->count = (uint32_t)little(at + 4, 4);
    fails(r, r->pages == 0 || r->count == 0 || r->count > 16, VMIG_STREAM_BAD_SHAPE);
    for (uint32_t dev = 0; r->fault == VMIG_OK && dev < r->count; dev++) {
        size_t before = r->at;
        read_row(r, dev);
        if (r->at == before || (r->fault == VMIG_OK && r->at - before < row_length(r, r->bytes[before]))) return 0;
    }
    if (r->fault == VMIG_OK) is_let_in(r);
    return r->fault == VMIG_OK;
}

/* An area of a ready queue. */
static int is_area(const uint8_t *at, uint64_t len, uint64_t align)
{
    uint64_t addr = little(at, 8);

    return addr % align == 0 && addr <= RAM && len <= RAM - addr;
}

static int is_ready_queue(const uint8_t *q, int is_packed)
{
    uint64_t n = little(q, 4);

    if (n < 1 || n > 256) return 0;
    if (!is_area(q + 4, 16 * n, 16)) return 0;
    if (is_packed) return is_area(q + 12, 4, 4) && is_area(q + 20, 4, 4) && little(q + 30, 2) < n && little(q + 33, 2) < n;
    return (n & (n - 1)) == 0 && is_area(q + 12, 6 + 2 * n, 2) && is_area(q + 20, 6 + 8 * n, 4) && q[32] == 1 && q[35] == 1;
}

static int is_queue(const uint8_t *q, int has_features, int is_packed)
{
    if (q[28] > 1 || q[29] > 1 || q[32] > 1 || q[35] > 1 || (q[29] && !q[28])) return 0;
    if (q[28]) return has_features && is_ready_queue(q, is_packed);
    return little(q + 30, 2) == 0 && little(q + 33, 2) == 0 && q[32] == 1 && q[35] == 1;
}

static uint64_t offered(uint32_t kind, uint32_t longest)
{
    uint64_t all = UINT64_C(1) << 28 | UINT64_C(1) << 29 | UINT64_C(1) << 32 | UINT64_C(1) << 34;

    if (kind == VMIG_CONSOLE) return all | 1 << 0 | 1 << 2;
    if (kind == VMIG_NETWORK) return all | 1 << 5 | (longest > USUAL ? 1 << 3 : 0);
    return all;
}

static int are_registers(const uint8_t *b, uint64_t offered)
{
    uint64_t features = little(b + 10, 8);

    if ((b[0] & ~0xcf) != 0 || ((b[0] & 4) && !(b[0] & 8)) || ((b[0] & 64) && !(b[0] & 4)) || b[1] > 3) return 0;
    return !(b[0] & 8) || ((features & ~offered) == 0 && (features >> 32 & 1));
}

/* Frames that wait: as many as may, each of 14 bytes to the longest, and nothing after them. */
static int are_frames(const uint8_t *at, size_t len, uint32_t longest)
{
    uint64_t most = longest > USUAL ? 96896 / longest : 64, count = len < 2 ? UINT64_MAX : little(at, 2);
    size_t read = 2;

    if (count > most) return 0;
    for (; count > 0; count--) {
        uint64_t size = len - read < 2 ? 0 : little(at + read, 2);
        if (size < 14 || size > longest || size > len - read - 2) return 0;
        read += 2 + size;
    }
    return read == len;
}

static int is_body(const struct reader *r, uint32_t dev, const uint8_t *b, size_t len)
{
    uint32_t kind = r->shapes[dev].kind, longest = r->shapes[dev].longest, queues = kind == VMIG_ENTROPY ? 1 : 2;
    size_t own = 26 + 36 * (size_t)queues, held = kind == VMIG_CONSOLE ? own + 4 : own;

    if (len < own || !are_registers(b, offered(kind, longest))) return 0;
    for (uint32_t q = 0; q < queues; q++)
        if (!is_queue(b + 26 + 36 * q, (b[0] & 8) != 0, (int)(little(b + 10, 8) >> 34 & 1))) return 0;
    if (kind == VMIG_NETWORK) return are_frames(b + own, len - own, longest);
    return len >= held + 2 && little(b + held, 2) <= 4096 && len == held + 2 + little(b + held, 2);
}

static void read_device(struct reader *r)
{
    const uint8_t *at = next(r, 5), *body;
    uint64_t len = at == NULL ? 0 : little(at + 1, 4);

    if (at == NULL) return;
    fails(r, at[0] != r->devices || len > 131072, VMIG_STREAM_BAD_DEVICE);
    if ((body = next(r, len)) == NULL) return;
    fails(r, !is_body(r, r->devices, body, len), VMIG_STREAM_BAD_DEVICE);
    r->devices++;
}

/* Of an item, and of the end of a round. There is no sector. */
static void read_item(struct reader *r, uint8_t tag)
{
    const uint8_t *at = next(r, tag == 2 ? 6 : 4), *page;

    if (at == NULL) return;
    fails(r, tag == 2, VMIG_STREAM_BAD_SECTOR);
    fails(r, tag == 3 && little(at, 4) != r->rounds + 1, VMIG_STREAM_BAD_ROUND);
    fails(r, (tag == 1 || tag == 6) && little(at, 4) >= r->pages, VMIG_STREAM_BAD_PAGE);
    r->rounds += tag == 3;
    if (tag == 1) {
        static const uint8_t zeros[4096];
        if ((page = next(r, 4096)) == NULL) return;
        fails(r, r->version > 1 && memcmp(page, zeros, 4096) == 0, VMIG_STREAM_BAD_PAGE);
    }
    r->has_page |= tag == 1 || tag == 6;
}

/* No stream that is tried has its digest but the one that is right, which is told beside it. */
static void read_record(struct reader *r, int is_right)
{
    const uint8_t *tag = next(r, 1);

    if (tag == NULL) return;
    fails(r, r->is_whole, VMIG_STREAM_TRAILING);
    fails(r, tag[0] < 1 || tag[0] > 6 || (tag[0] == 6 && r->version == 1), VMIG_STREAM_BAD_TAG);
    fails(r, r->devices > 0 && tag[0] != 4 && tag[0] != 5, VMIG_STREAM_BAD_TAG);
    fails(r, r->devices == r->count && tag[0] == 4, VMIG_STREAM_BAD_TAG);
    fails(r, !r->has_page && (tag[0] == 4 || tag[0] == 5), VMIG_STREAM_MISSING);
    fails(r, r->devices < r->count && tag[0] == 5, VMIG_STREAM_MISSING);
    if (r->fault != VMIG_OK) return;
    if (tag[0] == 4) read_device(r);
    else if (tag[0] != 5) read_item(r, tag[0]);
    else if (next(r, DIGEST) != NULL) {
        fails(r, !is_right, VMIG_STREAM_BAD_DIGEST);
        r->is_whole = 1;
    }
}

static struct reader read_by_rules(const struct stream *s, uint32_t longest_allowed, int is_right)
{
    struct reader r = {.bytes = s->bytes, .len = s->len, .longest_allowed = longest_allowed};

    if (read_header(&r))
        while (r.fault == VMIG_OK && r.at < r.len) read_record(&r, is_right);
    return r;
}

/* ---- what the library answers ----------------------------------------------------------------------------------------------------- */

/* A machine of one page without a disk may arrive, with frames of so many bytes. */
static vmig_machine waiting(uint32_t longest, uint32_t flags)
{
    vmig_arrival arrival = VMIG_ARRIVAL;
    vmig_machine m = VMIG_NONE;

    arrival.most_pages = 1, arrival.frame = longest, arrival.flags = flags;
    expect("arrive", vmig_arrive(&arrival, &m), VMIG_OK);
    return m;
}

/* The library finds the same fault at the same byte, in two pieces and in one; or none, and then the stream is whole or cut. */
static void is_answered(const char *what, const struct stream *s, uint32_t longest, int is_right)
{
    struct reader r = read_by_rules(s, longest, is_right);
    vmig_status good = r.is_whole ? VMIG_WHOLE : VMIG_OK, wanted = r.fault != VMIG_OK ? r.fault : good;
    vmig_machine m = waiting(longest, VMIG_LARGE);

    expect(what, vmig_feed(&m, s->bytes, s->len), wanted);
    if (r.fault == VMIG_OK) {
        expect("finish", vmig_finish(&m), r.is_whole ? VMIG_OK : VMIG_STREAM_TRUNCATED);
        vmig_free(&m);
        return;
    }
    vmig_free(&m);
    m = waiting(longest, VMIG_LARGE);
    expect("what comes before", vmig_feed(&m, s->bytes, r.at - 1), r.fault == VMIG_STREAM_TRAILING ? VMIG_WHOLE : VMIG_OK);
    expect("the byte that shows it", vmig_feed(&m, s->bytes + r.at - 1, 1), r.fault);
    vmig_free(&m);
}

/* Cut before each byte, with a byte more, and with each byte as each other. */
static void is_read_by_the_rules(const struct stream *from, uint32_t longest)
{
    struct stream s = *from;

    is_answered("the stream", from, longest, 1);
    for (s.len = 0; s.len < from->len; s.len++) is_answered("a stream that is cut", &s, longest, 0);
    s.bytes[s.len++] = 0;
    is_answered("a byte more", &s, longest, 1);
    s.len--;
    for (size_t at = 0; at < s.len; at++) {
        for (int more = 1; more < 256; more++) {
            s.bytes[at] = (uint8_t)(from->bytes[at] + more);
            is_answered("a stream that is changed", &s, longest, 0);
        }
        s.bytes[at] = from->bytes[at];
        if (failures > 20) return;
    }
}

/* ---- what is written ---------------------------------------------------------------------------------------------------------------- */

static void is_written(vmig_machine *m, const struct stream *s)
{
    static uint8_t got[MOST_BYTES];
    size_t len = 77;

    expect("save", vmig_save(m, got, sizeof got, &len), VMIG_OK);
    expect("as long", len, s->len);
    expect("the same bytes", (uint64_t)memcmp(got, s->bytes, s->len), 0);
}

static void take_over(vmig_machine *m, int is_packed)
{
    write_reg(m, 0x070, 3);
    write_reg(m, 0x020, 1 << 5 | 1 << 3);
    write_reg(m, 0x024, 1);
    write_reg(m, 0x020, is_packed ? 5 : 1);
    write_reg(m, 0x070, 0xb);
    for (uint32_t q = 0; q < 2; q++) {
        write_reg(m, 0x030, q);
        write_reg(m, 0x038, 8);
        write_reg(m, 0x080, 0x200 * q);
        write_reg(m, 0x090, 0x200 * q + 0x100);
        write_reg(m, 0x0a0, 0x200 * q + 0x180);
        write_reg(m, 0x044, 1);
    }
    write_reg(m, 0x070, 0xf);
}

/* The machine of long_stream, made by the calls of a host and a guest. */
static void long_is_written(int is_packed)
{
    static const vmig_shape shapes[] = {{.kind = VMIG_NETWORK, .mac = {2, 0, 0, 0, 0, 9}, .frame = LONGEST}, {.kind = VMIG_ENTROPY}};
    struct stream s = long_stream(is_packed), frames = {.len = 0};
    vmig_setup setup = VMIG_SETUP;
    vmig_machine m = VMIG_NONE;
    size_t kept = 0;

    setup.pages = 1, setup.shapes = shapes, setup.count = 2, setup.flags = VMIG_LARGE;
    expect("make", vmig_make(&setup, &m), VMIG_OK);
    take_over(&m, is_packed);
    frame(&frames, 0, 14);
    frame(&frames, 100, 20);
    expect("a frame", vmig_input(&m, 0, frames.bytes + 2, 14, &kept), VMIG_OK);
    expect("another", vmig_input(&m, 0, frames.bytes + 18, 20, &kept), VMIG_OK);
    expect("bytes of a pool", vmig_input(&m, 1, (const uint8_t *)"abc", 3, &kept), VMIG_OK);
    is_written(&m, &s);
    vmig_free(&m);
}

/* A machine without such a device is written as ever, whatever the flags are, and whether its 1,514 bytes are said outright or not. */
static void plain_is_written(uint32_t flags, uint32_t usual)
{
    const vmig_shape shapes[] = {{.kind = VMIG_NETWORK, .mac = {2, 0, 0, 0, 0, 9}, .frame = usual},
                                 {.kind = VMIG_BLOCK, .sectors = 1, .read_only = 1, .id = "ABCDEFGHIJKLMNOPQRST"},
                                 {.kind = VMIG_CONSOLE},
                                 {.kind = VMIG_ENTROPY}};
    struct stream s = plain_stream(), frames = {.len = 0};
    vmig_setup setup = VMIG_SETUP;
    vmig_machine m = VMIG_NONE;
    size_t kept = 0;

    setup.pages = 1, setup.shapes = shapes, setup.count = 4, setup.flags = flags;
    expect("make", vmig_make(&setup, &m), VMIG_OK);
    expect("it is described without it", description_of(&m).shapes[0].frame, 0);
    frame(&frames, 0, 14);
    expect("a frame", vmig_input(&m, 0, frames.bytes + 2, 14, &kept), VMIG_OK);
    is_written(&m, &s);
    vmig_free(&m);
}

/* ---- limits ------------------------------------------------------------------------------------------------------------------------- */

/* An arrival of these flags that names this longest frame refuses these bytes at this one. */
static void is_refused(const struct stream *s, uint32_t longest, uint32_t flags, size_t at, vmig_status wanted)
{
    vmig_machine m = waiting(longest, flags);

    expect("what comes before", vmig_feed(&m, s->bytes, at - 1), VMIG_OK);
    expect("the byte that shows it", vmig_feed(&m, s->bytes + at - 1, 1), wanted);
    expect("why", description_of(&m).fault, wanted);
    expect("how many came before", description_of(&m).fault_at, at - 1);
    vmig_free(&m);
    m = waiting(longest, flags);
    expect("in one piece", vmig_feed(&m, s->bytes, s->len), wanted);
    vmig_free(&m);
}

/* Headers of one network device. */
static struct stream header_of(uint32_t version, uint32_t number_of_row, uint32_t longest)
{
    struct stream s = {.len = 0};

    head(&s, version, 1);
    network_row(&s, number_of_row == 1 ? USUAL : LONGEST);
    if (number_of_row != 1) s.len -= 2, number(&s, longest, 2);
    return s;
}

static void is_announced(const struct stream *s, vmig_status wanted, uint32_t longest)
{
    vmig_description found = {.count = 77};

    for (size_t len = 0; len < s->len; len++)
        if (wanted == VMIG_OK) expect("a cut header", vmig_stream_describe(s->bytes, len, &found), VMIG_MORE);
    expect("a header", vmig_stream_describe(s->bytes, s->len, &found), wanted);
    expect("its devices", found.count, wanted == VMIG_OK ? 1 : 77);
    if (wanted == VMIG_OK) expect("its longest frame", found.shapes[0].frame, longest == USUAL ? 0 : longest);
}

enum { ROW = 17, PLAIN = 16 + 7, LONG = 16 + 9 };

static void headers(void)
{
    struct stream today = header_of(2, 1, USUAL), other = header_of(2, 129, LONGEST), plain = header_of(3, 1, USUAL);

    is_refused(&other, LONGEST, VMIG_LARGE, ROW, VMIG_STREAM_BAD_SHAPE);
    is_refused(&other, USUAL, 0, ROW, VMIG_STREAM_BAD_SHAPE);
    is_refused(&plain, LONGEST, VMIG_LARGE, PLAIN, VMIG_STREAM_BAD_VERSION);
    is_refused(&plain, USUAL, 0, 8, VMIG_STREAM_BAD_VERSION);
    is_refused(&plain, 0, 0, 8, VMIG_STREAM_BAD_VERSION);
    is_announced(&today, VMIG_OK, USUAL);
    is_announced(&other, VMIG_STREAM_BAD_SHAPE, 0);
    is_announced(&plain, VMIG_STREAM_BAD_VERSION, 0);
    other = header_of(4, 129, LONGEST);
    is_refused(&other, LONGEST, VMIG_LARGE, 8, VMIG_STREAM_BAD_VERSION);
    is_announced(&other, VMIG_STREAM_BAD_VERSION, 0);
}

/* A row of each longest frame, where at most this one is allowed. */
static void rows(uint32_t allowed)
{
    static const uint32_t longest[] = {0, 14, 1513, 1514, 1515, 1517, 1518, 9017, 9018, 9019, 65534, 65535};

    for (size_t i = 0; i < sizeof longest / sizeof *longest; i++) {
        struct stream s = header_of(3, 129, longest[i]);
        is_announced(&s, longest[i] <= USUAL ? VMIG_STREAM_BAD_SHAPE : VMIG_OK, longest[i]);
        for (uint32_t flags = 0; flags <= VMIG_LARGE; flags++) {
            is_refused(&s, 0, flags, 8, VMIG_STREAM_BAD_VERSION);
            is_refused(&s, USUAL, flags, 8, VMIG_STREAM_BAD_VERSION);
        }
        if (longest[i] <= USUAL) is_refused(&s, allowed, VMIG_LARGE, LONG, VMIG_STREAM_BAD_SHAPE);
        else if (longest[i] > allowed) is_refused(&s, allowed, VMIG_LARGE, LONG, VMIG_STREAM_TOO_LARGE);
        else is_answered("a frame that is allowed", &s, allowed, 0);
    }
}

/* What an arrival may name, and a shape. */
static void names(void)
{
    static const struct {
        uint32_t frame, flags;
        vmig_status arrives, shapes;
    } cases[] = {{0, 0, VMIG_OK, VMIG_OK}, {1, VMIG_LARGE, VMIG_NOT_KNOWN, VMIG_BAD_SHAPE}, {1513, VMIG_LARGE, VMIG_NOT_KNOWN, VMIG_BAD_SHAPE},
                 {1513, 0, VMIG_NOT_KNOWN, VMIG_BAD_SHAPE}, {1514, 0, VMIG_OK, VMIG_OK}, {1514, VMIG_LOG, VMIG_OK, VMIG_OK},
                 {1514, VMIG_LARGE, VMIG_OK, VMIG_OK}, {1515, VMIG_LARGE, VMIG_OK, VMIG_BAD_SHAPE},
                 {1517, VMIG_LARGE, VMIG_OK, VMIG_BAD_SHAPE}, {1518, VMIG_LARGE, VMIG_OK, VMIG_OK}, {1515, 0, VMIG_NOT_KNOWN, VMIG_BAD_SHAPE},
                 {1515, VMIG_LOG, VMIG_NOT_KNOWN, VMIG_BAD_SHAPE}, {65535, VMIG_LARGE | VMIG_LOG, VMIG_OK, VMIG_OK},
                 {65536, VMIG_LARGE, VMIG_NOT_KNOWN, VMIG_BAD_SHAPE}, {65536 + 1515, VMIG_LARGE, VMIG_NOT_KNOWN, VMIG_BAD_SHAPE},
                 {UINT32_MAX, VMIG_LARGE, VMIG_NOT_KNOWN, VMIG_BAD_SHAPE}};

    for (size_t i = 0; i < sizeof cases / sizeof *cases; i++) {
        vmig_shape shape = {.kind = VMIG_NETWORK, .frame = cases[i].frame}, console = {.kind = VMIG_CONSOLE, .frame = cases[i].frame};
        vmig_arrival arrival = VMIG_ARRIVAL, shaped = VMIG_ARRIVAL;
        vmig_setup setup = VMIG_SETUP;
        vmig_machine m = VMIG_NONE;
        arrival.frame = cases[i].frame, arrival.flags = shaped.flags = setup.flags = cases[i].flags;
        expect("an arrival", vmig_arrive(&arrival, &m), cases[i].arrives);
        vmig_free(&m);
        setup.pages = 1, setup.shapes = &shape, setup.count = 1;
        expect("a shape", vmig_make(&setup, &m), cases[i].shapes);
        vmig_free(&m);
        setup.shapes = &console;
        expect("of a console", vmig_make(&setup, &m), cases[i].frame == 0 ? VMIG_OK : VMIG_BAD_SHAPE);
        vmig_free(&m);
        shaped.shapes = &shape, shaped.count = 1;
        expect("of an arrival that names no frame", vmig_arrive(&shaped, &m), cases[i].shapes);
        vmig_free(&m);
    }
}

/* An arrival of these flags that expects a network device of one longest frame, and allows another, is fed a header. */
static void expects_device(const struct stream *s, uint32_t expected, uint32_t allowed, uint32_t flags, vmig_status wanted)
{
    vmig_shape shape = {.kind = VMIG_NETWORK, .mac = {2, 0, 0, 0, 0, 9}, .frame = expected};
    vmig_arrival arrival = VMIG_ARRIVAL;
    vmig_machine m = VMIG_NONE;

    arrival.most_pages = 1, arrival.flags = flags, arrival.frame = allowed, arrival.shapes = &shape, arrival.count = 1;
    expect("arrive", vmig_arrive(&arrival, &m), VMIG_OK);
    expect("its header", vmig_feed(&m, s->bytes, s->len), wanted);
    vmig_free(&m);
}

/* The devices that are expected: one of another longest frame is another device. As long frames as one of them has are allowed, and as the
 * arrival names: the most of both. */
static void expects(void)
{
    static const uint32_t longest[] = {0, USUAL, 1518, LONGEST - 1, LONGEST, LONGEST + 1, 65535};
    struct stream s = header_of(3, 129, LONGEST), plain = header_of(2, 1, USUAL);

    for (size_t i = 0; i < sizeof longest / sizeof *longest; i++)
        for (size_t k = 0; k < sizeof longest / sizeof *longest; k++) {
            uint32_t most = longest[i] > longest[k] ? longest[i] : longest[k];
            vmig_status other = longest[i] == LONGEST ? VMIG_OK : VMIG_STREAM_MISMATCH, allowed = most < LONGEST ? VMIG_STREAM_TOO_LARGE : other;
            expects_device(&s, longest[i], longest[k], VMIG_LARGE, most <= USUAL ? VMIG_STREAM_BAD_VERSION : allowed);
            expects_device(&plain, longest[i], longest[k], VMIG_LARGE, longest[i] <= USUAL ? VMIG_OK : VMIG_STREAM_MISMATCH);
            if (most <= USUAL) expects_device(&plain, longest[i], longest[k], 0, VMIG_OK);
        }
}

int main(void)
{
    for (int is_packed = 0; is_packed < 2; is_packed++) {
        struct stream s = long_stream(is_packed);
        long_is_written(is_packed);
        is_read_by_the_rules(&s, LONGEST);
    }
    for (uint32_t flags = 0; flags <= VMIG_LARGE; flags++) {
        plain_is_written(flags, 0);
        plain_is_written(flags, USUAL);
    }
    headers();
    rows(9018);
    rows(1515);
    rows(65535);
    names();
    expects();
    return ended("version_3");
}
