/* Digests of the examples that NIST gives for SHA-256 (FIPS 180-4): in one piece, in each two pieces, in random ones,
 * beside each other, copied, and by two threads. */
#include <stdlib.h>
#include <threads.h>
#include "driver.h"

enum { MILLION = 1000000, LARGEST_PIECE = 300 };

struct example {
    const char *message;                /* or `count` bytes of one value */
    uint8_t value;
    size_t count;
    const char *digest;
};

/* Those of one block, of two and of a million bytes, and further messages, of which some end at the edge of a block. */
static const struct example EXAMPLES[] = {
    {"", 0, 0, "e3b0c44298fc1c149afbf4c8996fb92427ae41e4649b934ca495991b7852b855"},
    {"abc", 0, 3, "ba7816bf8f01cfea414140de5dae2223b00361a396177a9cb410ff61f20015ad"},
    {"abcdbcdecdefdefgefghfghighijhijkijkljklmklmnlmnomnopnopq", 0, 56,
     "248d6a61d20638b8e5c026930c3e6039a33ce45964ff2167f6ecedd419db06c1"},
    {"abcdefghbcdefghicdefghijdefghijkefghijklfghijklmghijklmnhijklmnoijklmnopjklmnopqklmnopqrlmnopqrsmnopqrstnopqrstu",
     0, 112, "cf5b16a778af8380036ce59e7b0492370b249b11e8f07a51afac45037afee9d1"},
    {"\xc9\x8c\x8e\x55", 0, 4, "7abc22c0ae5af26ce93dbb94433a0e0b2e119d014f8e7f65bd56c61ccccd9504"},
    {NULL, 0xbd, 1, "68325720aabd7c82f30f554b313d0570c95accbb7dc4b5aae11204c08ffe732b"},
    {NULL, 0, 55, "02779466cdec163811d078815c633f21901413081449002f24aa3e80f0b88ef7"},
    {NULL, 0, 56, "d4817aa5497628e7c77e6b606107042bbba3130888c5f47a375e6179be789fbb"},
    {NULL, 0, 57, "65a16cb7861335d5ace3c60718b5052e44660726da4cd13bb745381b235a1785"},
    {NULL, 0, 64, "f5a5fd42d16a20302798ef6ed309979b43003d2320d9f0e8ea9831a92759fb4b"},
    {NULL, 0, 1000, "541b3e9daa09b20bf85fa273e5cbd3e80185aa4ec298e765db87742b70138a53"},
    {NULL, 'A', 1000, "c2e686823489ced2017f6059b8b239318b6364f6dcd835d0a519105a1eadd6e4"},
    {NULL, 'U', 1005, "f4d62ddec0f3dd90ea1380fa16a5ff8dc4c54b21740650f24afc4120903552b0"},
    {NULL, 'a', MILLION, "cdc76e5c9914fb9281a1c7e284d73e67f1809a48a497200e046d39ccc7112cd0"},
};
enum { COUNT = sizeof EXAMPLES / sizeof EXAMPLES[0] };

static uint8_t messages[COUNT][MILLION];
static uint64_t state = 1;

static uint32_t draw(uint32_t below)
{
    state = state * 6364136223846793005u + 1442695040888963407u;
    return (uint32_t)(state >> 33) % below;
}

static void write_messages(void)
{
    for (int i = 0; i < COUNT; i++) {
        if (EXAMPLES[i].message) memcpy(messages[i], EXAMPLES[i].message, EXAMPLES[i].count);
        else memset(messages[i], EXAMPLES[i].value, EXAMPLES[i].count);
    }
}

static int is_of(const uint8_t out[32], const struct example *example)
{
    char text[65];

    for (int i = 0; i < 32; i++) sprintf(text + 2 * i, "%02x", out[i]);
    return strcmp(text, example->digest) == 0;
}

static int ends_as(vmig_digest *digest, int i)
{
    uint8_t out[32];

    vmig_digest_end(digest, out);
    return is_of(out, &EXAMPLES[i]);
}

/* Each in one piece; the next one by the digest as the end before left it. */
static void whole(void)
{
    vmig_digest digest;

    vmig_digest_begin(&digest);
    for (int i = 0; i < COUNT; i++) {
        vmig_digest_add(&digest, messages[i], EXAMPLES[i].count);
        expect("in one piece", (uint64_t)ends_as(&digest, i), 1);
    }
    vmig_digest_add(&digest, messages[1], 3);
    vmig_digest_begin(&digest);
    expect("begun anew", (uint64_t)ends_as(&digest, 0), 1);
}

static void in_two(void)
{
    vmig_digest digest;

    vmig_digest_begin(&digest);
    for (int i = 0; i < COUNT; i++) {
        if (EXAMPLES[i].count > 1005) continue;
        for (size_t front = 0; front <= EXAMPLES[i].count; front++) {
            vmig_digest_add(&digest, messages[i], front);
            vmig_digest_add(&digest, messages[i] + front, EXAMPLES[i].count - front);
            expect("in two pieces", (uint64_t)ends_as(&digest, i), 1);
        }
    }
}

/* The next piece of a message, of a random length; some have no bytes, and then the pointer may be null. */
static size_t add_some(vmig_digest *digest, int i, size_t at)
{
    size_t left = EXAMPLES[i].count - at, len = draw(LARGEST_PIECE);

    if (len > left) len = left;
    vmig_digest_add(digest, len == 0 ? NULL : messages[i] + at, len);
    return at + len;
}

static void in_random_ones(void)
{
    vmig_digest digest;

    vmig_digest_begin(&digest);
    for (int round = 0; round < 5; round++) {
        for (int i = 0; i < COUNT; i++) {
            size_t at = 0;
            while (at < EXAMPLES[i].count) at = add_some(&digest, i, at);
            expect("in random pieces", (uint64_t)ends_as(&digest, i), 1);
        }
    }
}

/* A copy of a digest that has the front of a message is another one: it takes the rest, and the digest is as it was. */
static void end_a_copy(const vmig_digest *digest, int i, size_t at)
{
    vmig_digest copy = *digest;

    vmig_digest_add(&copy, messages[i] + at, EXAMPLES[i].count - at);
    expect("a copy", (uint64_t)ends_as(&copy, i), 1);
}

/* All of them at once, a piece of any in turn. */
static void beside_each_other(void)
{
    vmig_digest digests[COUNT];
    size_t at[COUNT] = {0}, left = 0;

    for (int i = 0; i < COUNT; i++) vmig_digest_begin(&digests[i]), left += EXAMPLES[i].count;
    while (left > 0) {
        int i = (int)draw(COUNT);
        size_t next = add_some(&digests[i], i, at[i]);
        left -= next - at[i], at[i] = next;
        if (draw(COUNT * 10) == 0) end_a_copy(&digests[i], i, at[i]);
    }
    for (int i = 0; i < COUNT; i++) expect("beside others", (uint64_t)ends_as(&digests[i], i), 1);
}

/* Whatever words lie there, each call ends, and an end begins anew. */
static void over_any_words(void)
{
    vmig_digest digest;

    for (int value = 0; value < 256; value++) {
        uint8_t out[32];
        memset(&digest, value, sizeof digest);
        vmig_digest_add(&digest, messages[COUNT - 1], (size_t)value);
        vmig_digest_end(&digest, out);
        vmig_digest_add(&digest, messages[1], EXAMPLES[1].count);
        expect("after words that are none", (uint64_t)ends_as(&digest, 1), 1);
    }
}

/* A thread's own digest, of the example of this number, over and over. How many were wrong. */
static int thread(void *number)
{
    int i = *(const int *)number, wrong = 0;
    vmig_digest digest;

    vmig_digest_begin(&digest);
    for (int round = 0; round < 200; round++) {
        for (size_t at = 0; at < EXAMPLES[i].count; at++) vmig_digest_add(&digest, messages[i] + at, 1);
        wrong += !ends_as(&digest, i);
    }
    return wrong;
}

static void by_two_threads(void)
{
    int numbers[2] = {3, 12}, wrong[2] = {1, 1};
    thrd_t threads[2];

    for (int i = 0; i < 2; i++)
        if (thrd_create(&threads[i], thread, &numbers[i]) != thrd_success) exit(1);
    for (int i = 0; i < 2; i++)
        if (thrd_join(threads[i], &wrong[i]) != thrd_success) exit(1);
    expect("by two threads", wrong[0] == 0 && wrong[1] == 0, 1);
}

_Static_assert(sizeof(vmig_digest) == 112 && _Alignof(vmig_digest) == 8, "the size for ever");

int main(void)
{
    write_messages();
    whole();
    in_two();
    in_random_ones();
    beside_each_other();
    over_any_words();
    by_two_threads();
    return ended("digest");
}
