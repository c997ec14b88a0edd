/* A stream arrives whose digest its host tells. An ordinary arrival is fed the same pieces, over the same kinds
 * of memory: both answer alike, piece by piece, and both are the machine that was sent, byte for byte. Where the
 * digest is due is counted here: 33 bytes before the end. `told_arrival N` cuts the streams at random N times;
 * with no word it does so some hundreds of times. */
#include "told_pair.h"

enum { CUTS = 300 };

/* Calls that are refused between two pieces change nothing, and a piece of no bytes neither. */
static void disturb(size_t at)
{
    static const uint8_t any[32] = {1};
    size_t used = 77;

    switch (draw(12)) {
    case 0: expect("told too early", vmig_feed_tell(&told.machine, any), VMIG_NOT_ASKED); break;
    case 1: expect("told of one that digests", vmig_feed_tell(&plain.machine, any), VMIG_NOT_ASKED); break;
    case 2: expect("fed by the other call", vmig_feed(&told.machine, any, draw(33)), VMIG_NOT_ASKED); break;
    case 3: expect("fed nothing by the other call", vmig_feed(&told.machine, NULL, 0), VMIG_NOT_ASKED); break;
    case 4: expect("fed nothing", feed_both(any, 0), VMIG_OK); break;
    case 5: expect("made", arrive_any(&told.machine), VMIG_IN_USE); break;
    case 6: expect("no stream is sent", vmig_send_tell(&told.machine, any), VMIG_NO_MACHINE); break;
    case 7:
        expect("nothing, by this call", vmig_feed_some(&told.machine, NULL, 0, &used), VMIG_OK);
        expect("none is used", used, 0);
        break;
    default: described_alike();
    }
    expect("as many bytes", told.taken, at);
}

/* How long the next piece is: of one byte, of a few, or of more than a page, as the cutting has it. */
static size_t next_piece(uint32_t most, size_t left)
{
    size_t piece = 1 + draw(most);

    return piece < left ? piece : left;
}

/* A stream in pieces of up to `most` bytes. */
static void cut(const struct example *x, int memory, uint32_t most)
{
    vmig_status status = VMIG_OK;
    size_t piece;

    await_both(x, memory);
    for (size_t at = 0; at < x->len && failures == 0; at += piece) {
        expect("not at its end", status, VMIG_OK);
        if (most > 1 || draw(100) == 0) disturb(at);
        piece = next_piece(most, x->len - at);
        status = feed_both(x->stream + at, piece);
    }
    expect("whole", status, VMIG_WHOLE);
    described_alike();
    finish_both(x);
    release_both(x);
    if (failures != 0) printf("%s, in memory %d, in pieces of up to %u bytes\n", x->name, memory, (unsigned)most);
}

static void cut_often(long times)
{
    static const uint32_t most[] = {1, 3, 40, 700, 5000, 30000, STREAM_MAX};

    for (int memory = 0; memory < MEMORIES; memory++)
        for (int i = 0; i < EXAMPLES; i++) cut(&examples[i], memory, 1);
    for (long n = 0; n < times && failures == 0; n++)
        cut(&examples[draw(EXAMPLES)], (int)draw(MEMORIES), most[draw(7)]);
}

/* The stream up to the record that closes it, which comes with the last piece or after it: the digest is asked
 * for in front of it. */
static void comes_to_digest(const struct example *x, size_t beyond)
{
    const uint8_t *at = x->stream;
    size_t len = x->len - RECORD + beyond;

    await(&told, x, 1, (int)draw(MEMORIES));
    expect("up to the record", feed_part(&told, &at, &len), beyond == 0 ? VMIG_OK : VMIG_DIGEST);
    expect("all before it", told.taken, x->len - RECORD);
    expect("the rest is left", len, beyond);
    if (beyond == 0) len = 1;
    expect("due", feed_part(&told, &at, &len), VMIG_DIGEST);
    expect("none is taken", told.taken, x->len - RECORD);
    expect("not finished", description_of(&told.machine).whole, 0);
}

/* The record in two pieces, and pieces of no bytes between them. The digest is asked for no more once it was told. */
static void record_in_two(const struct example *x, size_t front)
{
    static const uint8_t any[32];
    const uint8_t *at = x->stream + x->len - RECORD;
    size_t len = front, none = 0, rest = RECORD - front;

    comes_to_digest(x, draw(RECORD + 1));
    expect("nothing", feed_part(&told, &at, &none), VMIG_OK);
    tell(&told);
    expect("nothing", feed_part(&told, &at, &none), VMIG_OK);
    expect("the first piece", feed_part(&told, &at, &len), front == RECORD ? VMIG_WHOLE : VMIG_OK);
    expect("told in it", vmig_feed_tell(&told.machine, any), VMIG_NOT_ASKED);
    expect("nothing", feed_part(&told, &at, &none), front == RECORD ? VMIG_WHOLE : VMIG_OK);
    expect("the second", feed_part(&told, &at, &rest), VMIG_WHOLE);
    expect("whole", description_of(&told.machine).whole, 1);
    expect("told after it", vmig_feed_tell(&told.machine, any), VMIG_NOT_ASKED);
    expect("finish", vmig_finish(&told.machine), VMIG_OK);
    has_come(&told, x);
    saved_alike(&told, x);
    vmig_free(&told.machine);
}

/* What arrived is sent on, by a host that tells again, and arrives so. The stream is that of the ordinary
 * arrival's machine. */
static void send_on(struct end *e, uint8_t *stream, size_t *len)
{
    uint64_t pages, sectors;
    vmig_digest digest;
    uint8_t out[32];

    expect("begin", vmig_send_begin_as(&e->machine, e->is_told ? VMIG_TOLD : 0), VMIG_OK);
    expect("stop", vmig_send_stop(&e->machine, &pages, &sectors), VMIG_OK);
    take_all(&e->machine, stream, len);
    if (!e->is_told) return;
    vmig_digest_begin(&digest);
    vmig_digest_add(&digest, stream, *len);
    vmig_digest_end(&digest, out);
    expect("tell", vmig_send_tell(&e->machine, out), VMIG_OK);
    take_all(&e->machine, stream, len);
}

static void move_twice(const struct example *x, int memory)
{
    static uint8_t streams[2][STREAM_MAX];
    size_t lens[2] = {0, 0};

    await_both(x, memory);
    expect("whole", feed_both(x->stream, x->len), VMIG_WHOLE);
    finish_both(x);
    send_on(&told, streams[0], &lens[0]);
    send_on(&plain, streams[1], &lens[1]);
    expect("as long", lens[0], lens[1]);
    expect_equal("the same stream", streams[0], streams[1], lens[1]);
    free_both();
    await_both(x, MEMORIES - 1 - memory);
    expect("whole again", feed_both(streams[0], lens[0]), VMIG_WHOLE);
    finish_both(x);
    release_both(x);
}

/* The flags that an arrival may have, each beside what else it says. A machine is not made with this one. */
static void flags(void)
{
    static const uint32_t none[] = {8, 12, 16, 0x80000004, UINT32_MAX};
    vmig_machine m = VMIG_NONE;

    for (uint32_t flags = 0; flags < 8; flags++) {
        vmig_arrival arrival = VMIG_ARRIVAL;
        vmig_setup setup = VMIG_SETUP;
        arrival.most_pages = 1, arrival.flags = flags;
        expect("arrive", vmig_arrive(&arrival, &m), VMIG_OK);
        expect("its flags", description_of(&m).flags, flags);
        vmig_free(&m);
        setup.pages = 1, setup.shapes = SMALL_SHAPES, setup.count = 2, setup.flags = flags;
        expect("make", vmig_make(&setup, &m), flags < 4 ? VMIG_OK : VMIG_NOT_KNOWN);
        vmig_free(&m);
    }
    for (size_t i = 0; i < sizeof none / sizeof *none; i++) {
        vmig_arrival arrival = VMIG_ARRIVAL;
        arrival.most_pages = 1, arrival.flags = none[i];
        expect("an unknown flag", vmig_arrive(&arrival, &m), VMIG_NOT_KNOWN);
        expect("nothing arrives", m.at == NULL, 1);
    }
}

/* An ordinary arrival takes a piece whole by the call for told ones too, and digests it. */
static void fed_as_ever(const struct example *x)
{
    size_t piece, used = 77;
    vmig_status status = VMIG_OK;

    await(&plain, x, 0, (int)draw(MEMORIES));
    for (size_t at = 0; at < x->len; at += piece) {
        piece = next_piece(5000, x->len - at);
        used = 77;
        if (draw(2) == 0) status = vmig_feed(&plain.machine, x->stream + at, used = piece);
        else status = vmig_feed_some(&plain.machine, x->stream + at, piece, &used);
        expect("taken", status, at + piece < x->len ? VMIG_OK : VMIG_WHOLE);
        expect("all of it", used, piece);
    }
    expect("it asks for no digest", vmig_feed_tell(&plain.machine, x->stream), VMIG_NOT_ASKED);
    expect("finish", vmig_finish(&plain.machine), VMIG_OK);
    expect("a machine is not fed", vmig_feed_some(&plain.machine, x->stream, 1, &used), VMIG_IN_USE);
    has_come(&plain, x);
    saved_alike(&plain, x);
    vmig_free(&plain.machine);
}

int main(int argc, char **argv)
{
    make_examples();
    flags();
    for (int i = 0; i < EXAMPLES; i++) {
        for (size_t front = 1; front <= RECORD; front++) record_in_two(&examples[i], front);
        for (int memory = 0; memory < MEMORIES; memory++) move_twice(&examples[i], memory);
        fed_as_ever(&examples[i]);
    }
    cut_often(argc > 1 ? strtol(argv[1], NULL, 10) : CUTS);
    return ended("told_arrival");
}
