/* What is refused of a stream whose digest its host tells, and at which byte: an ordinary arrival beside it is
 * fed the same. The digest that is told is that of what came, unless this program tells a wrong one. A stream is
 * damaged at each byte, and cut at each; other bytes come in the place of the record that closes it; and limits
 * refuse it. `told_damaged all` damages each byte to each other value. */
#include "told_pair.h"

static uint8_t damaged[STREAM_MAX + 64];

/* Fed in pieces until it is refused. What arrives has the same bytes then, and its memory is given back. */
static vmig_status feed_pieces(const struct example *x, const uint8_t *bytes, size_t len, uint32_t most)
{
    vmig_status status = VMIG_OK;
    size_t piece;

    for (size_t at = 0; at < len && !vmig_refused(status); at += piece) {
        piece = 1 + draw(most);
        if (piece > len - at) piece = len - at;
        status = feed_both(bytes + at, piece);
    }
    if (vmig_refused(status)) failed_both(x);
    return status;
}

/* Damage that nothing but the digest shows is told as that, and none is overlooked. */
static void damage(const struct example *x, size_t at, uint8_t value, uint32_t most)
{
    vmig_status status;

    memcpy(damaged, x->stream, x->len);
    damaged[at] = value;
    await_both(x, (int)draw(MEMORIES));
    status = feed_pieces(x, damaged, x->len, most);
    if (!vmig_refused(status)) {
        expect("it is not whole", status, VMIG_OK);
        expect("finish", vmig_finish(&told.machine), VMIG_STREAM_TRUNCATED);
        expect("finish the other", vmig_finish(&plain.machine), VMIG_STREAM_TRUNCATED);
        failed_both(x);
    }
    free_both();
    if (failures != 0) printf("%s, byte %zu is %u, in pieces of up to %u bytes\n", x->name, at, value, (unsigned)most);
}

static void damage_each(const struct example *x, int is_all)
{
    for (size_t at = 0; at < x->len && failures == 0; at++) {
        damage(x, at, (uint8_t)(x->stream[at] ^ 1u << draw(8)), 1);
        damage(x, at, (uint8_t)(x->stream[at] + 1 + draw(255)), 200);
        damage(x, at, COMMIT == x->stream[at] ? 6 : COMMIT, 30);
        for (uint32_t value = 0; is_all && value < 256; value++)
            if (value != x->stream[at]) damage(x, at, (uint8_t)value, STREAM_MAX);
    }
}

static void damage_some(const struct example *x, int times)
{
    static const uint32_t most[] = {1, 60, 5000, STREAM_MAX};

    for (int n = 0; n < times && failures == 0; n++) {
        size_t at = draw(4) == 0 ? draw(300) : draw((uint32_t)x->len);
        damage(x, at, (uint8_t)(x->stream[at] + 1 + draw(255)), most[1 + draw(3)]);
        if (n % 30 == 0) damage(x, at, (uint8_t)(x->stream[at] ^ 0x40), most[0]);
    }
}

/* A byte of the head of each record. */
static void damage_heads(const struct example *x)
{
    for (size_t at = header_length(x); at < x->len && failures == 0; at += record_length(x->stream + at)) {
        size_t byte = at + draw(x->stream[at] == COMMIT ? 1 : 5);
        damage(x, byte, (uint8_t)(x->stream[byte] ^ 1u << draw(8)), STREAM_MAX);
    }
}

/* The stream ends too early, also within its last record. */
static void cut_short(const struct example *x, size_t len)
{
    await_both(x, (int)draw(MEMORIES));
    expect("the front", feed_pieces(x, x->stream, len, 1 + draw(400)), VMIG_OK);
    expect("finish", vmig_finish(&told.machine), VMIG_STREAM_TRUNCATED);
    expect("finish the other", vmig_finish(&plain.machine), VMIG_STREAM_TRUNCATED);
    failed_both(x);
}

/* An arrival is given up, or ended, where its digest is due, where it was told, or within the record. */
static void end_early(const struct example *x, size_t of_record)
{
    int memory = (int)draw(MEMORIES), is_told = of_record > 0 || draw(2) == 0;
    const uint8_t *at = x->stream;
    size_t len = x->len, front = x->len - RECORD + of_record;

    await_both(x, memory);
    expect("due", feed_part(&told, &at, &len), VMIG_DIGEST);
    if (is_told) tell(&told);
    if (of_record > 0) expect("a part of it", feed_part(&told, &at, &of_record), VMIG_OK);
    expect("the other", vmig_feed(&plain.machine, x->stream, plain.taken = front), VMIG_OK);
    described_alike();
    if (draw(2) == 0) {
        release_both(x);
        return;
    }
    expect("finish", vmig_finish(&told.machine), VMIG_STREAM_TRUNCATED);
    expect("finish the other", vmig_finish(&plain.machine), VMIG_STREAM_TRUNCATED);
    failed_both(x);
}

/* Bytes after the end: with the record, after it, and after a piece of no bytes. */
static void trailing(const struct example *x, uint32_t most)
{
    memcpy(damaged, x->stream, x->len);
    damaged[x->len] = (uint8_t)draw(256);
    await_both(x, (int)draw(MEMORIES));
    expect("one byte more", feed_pieces(x, damaged, x->len + 1, most), VMIG_STREAM_TRAILING);
    await_both(x, (int)draw(MEMORIES));
    expect("all of it", feed_pieces(x, damaged, x->len, most), VMIG_WHOLE);
    expect("nothing more", feed_both(damaged, 0), VMIG_WHOLE);
    expect("more", feed_both(damaged + x->len, 1), VMIG_STREAM_TRAILING);
    failed_both(x);
}

/* ---- digests that are wrong ------------------------------------------------------------------------------------ */

/* What was told is not the digest in the stream. It shows where another digest in the stream would: at its last
 * byte. The machine that is sent is as it was, and all of it has come. */
static void tell_wrong(const struct example *x, int memory, size_t wrong, uint32_t most)
{
    const uint8_t *at = x->stream;
    size_t len = x->len, piece;
    uint8_t digest[32];
    vmig_status status, wanted;

    memcpy(damaged, x->stream, x->len);
    damaged[x->len - 32 + wrong] ^= (uint8_t)(1 << draw(8));
    memcpy(digest, damaged + x->len - 32, 32);
    await_both(x, memory);
    expect("due", feed_part(&told, &at, &len), VMIG_DIGEST);
    expect("the other", vmig_feed(&plain.machine, x->stream, x->len - RECORD), VMIG_OK);
    plain.taken = x->len - RECORD;
    expect("tell", vmig_feed_tell(&told.machine, digest), VMIG_OK);
    do {
        piece = 1 + draw(most);
        if (piece > len) piece = len;
        wanted = vmig_feed(&plain.machine, damaged + (at - x->stream), piece);
        plain.taken += vmig_refused(wanted) ? 0 : piece;
        len -= piece;
        status = feed_part(&told, &at, &piece);
        expect("the same status", status, wanted);
    } while (!vmig_refused(status) && len > 0);
    expect("another digest", status, VMIG_STREAM_BAD_DIGEST);
    failed_both(x);
    if (memory & OWN_RAM) expect_equal("RAM has come", told.ram, x->ram, (size_t)x->pages * PAGE);
    if (memory & OWN_DISK) expect_equal("the disk has come", told.image, x->image, x->sectors * SECTOR);
}

/* Zeros, or the digest of what came before: of all but a byte, or of the record's first byte too. */
static void tell_other(const struct example *x, int what)
{
    const uint8_t *at = x->stream;
    size_t len = x->len;
    vmig_digest other;
    uint8_t digest[32] = {0};

    await(&told, x, 1, (int)draw(MEMORIES));
    expect("due", feed_part(&told, &at, &len), VMIG_DIGEST);
    vmig_digest_begin(&other);
    vmig_digest_add(&other, x->stream, x->len - RECORD + (size_t)what - 1);
    if (what != 1) vmig_digest_end(&other, digest);
    expect("tell", vmig_feed_tell(&told.machine, digest), VMIG_OK);
    expect("another digest", feed_part(&told, &at, &len), VMIG_STREAM_BAD_DIGEST);
    expect("finish", vmig_finish(&told.machine), VMIG_STREAM_FAILED);
    vmig_free(&told.machine);
}

/* ---- other bytes than the record ------------------------------------------------------------------------------- */

/* In front of a record the one that closes the stream may seem to come: its digest is asked for. What comes is
 * another one, and it is forgotten. */
static void seems_due(const uint8_t *record, size_t len)
{
    static const uint8_t commit[RECORD] = {COMMIT};
    const uint8_t *at = commit;
    size_t more = 1 + draw(RECORD), rest = len;

    expect("it seems due", feed_part(&told, &at, &more), VMIG_DIGEST);
    expect("nothing was taken", at == commit, 1);
    if (draw(2) == 0) tell(&told);
    if (draw(3) == 0) {
        size_t none = 0;
        expect("nothing", feed_part(&told, &at, &none), VMIG_OK);
    }
    rest = 1 + draw((uint32_t)len);
    len -= rest;
    expect("another record", feed_part(&told, &record, &rest), VMIG_OK);
    expect("it is not due", vmig_feed_tell(&told.machine, commit), VMIG_NOT_ASKED);
    expect("its rest", feed_part(&told, &record, &len), VMIG_OK);
    expect("it is not due", vmig_feed_tell(&told.machine, commit), VMIG_NOT_ASKED);
}

/* So before each record, up to the last, whose digest is told anew. Then the arrival is as any. */
static void other_records(const struct example *x)
{
    const uint8_t *at = x->stream, *end = x->stream + x->len;
    size_t len = header_length(x);

    await(&told, x, 1, (int)draw(MEMORIES));
    expect("the header", feed_part(&told, &at, &len), VMIG_OK);
    for (; *at != COMMIT && failures == 0; at += record_length(at)) seems_due(at, record_length(at));
    expect("the last record", (uint64_t)(end - at), RECORD);
    expect("whole", feed_told(&told, at, RECORD), VMIG_WHOLE);
    expect("finish", vmig_finish(&told.machine), VMIG_OK);
    has_come(&told, x);
    saved_alike(&told, x);
    vmig_free(&told.machine);
}

/* The stream is closed too early, before a record of it, with the right digest: refused as ever, at the tag. */
static void close_early(const struct example *x, size_t front)
{
    vmig_digest digest;
    uint8_t record[RECORD] = {COMMIT};
    size_t piece = 1 + draw(RECORD);

    vmig_digest_begin(&digest);
    vmig_digest_add(&digest, x->stream, front);
    vmig_digest_end(&digest, record + 1);
    await_both(x, (int)draw(MEMORIES));
    expect("the front", feed_pieces(x, x->stream, front, 5000), VMIG_OK);
    expect("too early", feed_both(record, piece), VMIG_STREAM_MISSING);
    failed_both(x);
}

/* ---- limits ---------------------------------------------------------------------------------------------------- */

/* An arrival that allows less than the stream has, or names other devices, refuses both at the same byte. */
static void limit(const struct example *x, int what, uint32_t most)
{
    static const vmig_shape others[] = {{.kind = VMIG_ENTROPY}, {.kind = VMIG_CONSOLE}};
    struct end *const ends[] = {&told, &plain};
    vmig_status status;

    names_shapes = 0;
    for (int i = 0; i < 2; i++) {
        vmig_image image;
        vmig_arrival arrival;
        clear(ends[i], x, ends[i] == &told, what == 4 ? OWN_DISK : what == 5 ? OWN_RAM : 0);
        arrival = arrival_of(ends[i], x, &image);
        if (what == 0) arrival.most_pages = x->pages - 1;
        if (what == 1) arrival.most_sectors = x->sectors - 1;
        if (what == 2) arrival.frame = 1514, arrival.most_outside = 0;
        if (what == 3) arrival.shapes = others, arrival.count = 2;
        if (what == 4) image.sectors--;
        if (what == 5) arrival.ram.len -= PAGE;
        if (what == 6) arrival.most_outside = 39;
        expect("arrive", vmig_arrive(&arrival, &ends[i]->machine), VMIG_OK);
    }
    status = feed_pieces(x, x->stream, x->len, most);
    expect("refused", (uint64_t)vmig_refused(status), 1);
    free_both();
}

static void limits(const struct example *x)
{
    static const uint32_t most[] = {1, 7, 100, STREAM_MAX};

    for (int what = 0; what < 7; what++) {
        int is_small = x->pages == 1, has_limit = what == 2 || what == 6 ? x->most_outside > 0 : what == 3 || !is_small;
        for (int i = 0; has_limit && i < 4; i++) limit(x, what, most[i]);
    }
}

int main(int argc, char **argv)
{
    const struct example *small = &examples[SMALL];

    (void)argv;
    make_examples();
    damage_each(small, argc > 1);
    for (size_t len = 0; len < small->len; len++) cut_short(small, len);
    for (int i = 0; i < EXAMPLES; i++) {
        const struct example *x = &examples[i];
        damage_some(x, 150);
        damage_heads(x);
        for (uint32_t most = 1; most <= STREAM_MAX; most *= 8) trailing(x, most);
        for (size_t wrong = 0; wrong < 32; wrong++) tell_wrong(x, (int)(wrong % MEMORIES), wrong, 1 + draw(RECORD));
        for (int what = 0; what < 3; what++) tell_other(x, what);
        for (size_t of_record = 0; of_record < RECORD; of_record++) end_early(x, of_record);
        for (int times = 0; times < 10; times++) other_records(x);
        for (size_t at = header_length(x); x->stream[at] != COMMIT; at += record_length(x->stream + at))
            close_early(x, at);
        limits(x);
    }
    return ended("told_damaged");
}
