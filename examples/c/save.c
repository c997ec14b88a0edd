/* A machine is saved into one allocation of the length that is asked for before, and received into another handle. Both continue
 * with equal replies, and end as equal machines. */
#include <stdlib.h>
#include <string.h>
#include "driver.h"

/* The whole stream of a machine, in memory that fits it, which the caller frees. */
static uint8_t *stream_of(vmig_machine *m, size_t *len)
{
    size_t written = 0;

    expect("length asked for", vmig_save(m, NULL, 0, len), VMIG_MORE);
    uint8_t *stream = malloc(*len);
    if (stream == NULL) exit(2);
    expect("too short by one", vmig_save(m, stream, *len - 1, &written), VMIG_MORE);
    expect("the length wanted", written, *len);
    expect("save", vmig_save(m, stream, *len, &written), VMIG_OK);
    expect("its length", written, *len);
    return stream;
}

static void refuses(uint8_t *stream, size_t len)
{
    vmig_machine m = VMIG_NONE;
    uint32_t rounds = 77;

    stream[len / 2] ^= 1;
    expect("damaged", receive(stream, len, &m, &rounds), VMIG_STREAM_BAD_DIGEST);
    stream[len / 2] ^= 1;
    expect("cut off", receive(stream, len - 1, &m, &rounds), VMIG_STREAM_TRUNCATED);
    expect("no stream", receive(stream + 1, len - 1, &m, &rounds), VMIG_STREAM_BAD_MAGIC);
    expect("its rounds", rounds, 77);
    expect("no machine", vmig_lines(&m) | (m.at != NULL), 0);
}

int main(void)
{
    static const vmig_shape shapes[] = {{.kind = VMIG_ENTROPY}, {.kind = VMIG_BLOCK, .sectors = 2}};
    static const uint8_t entropy[36] = {9, 8, 7, 6, 5, 4, 3, 2, 1};
    vmig_machine source = VMIG_NONE, target = VMIG_NONE;
    uint32_t rounds = 77;
    size_t len = 0, source_len = 0, target_len = 0, kept = 0;

    expect("make", make_new(16, shapes, 2, &source), VMIG_OK);
    set_up(&source, 1);
    expect("input", vmig_input(&source, 0, entropy, sizeof entropy, &kept), VMIG_OK);
    expect("used length", ask(&source, 1), 16);

    uint8_t *stream = stream_of(&source, &len);
    expect("receive", receive(stream, len, &target, &rounds), VMIG_OK);
    expect("rounds", rounds, 0);
    expect("receive over it", receive(stream, len, &target, &rounds), VMIG_IN_USE);
    refuses(stream, len);

    expect("lines", vmig_lines(&target), vmig_lines(&source));
    expect("its driver goes on", ask(&target, 2), ask(&source, 2));
    expect("with what is left", ask(&target, 3), 4);
    expect("in both", ask(&source, 3), 4);

    uint8_t *one = stream_of(&source, &source_len), *other = stream_of(&target, &target_len);
    expect("equal lengths", target_len, source_len);
    expect("equal machines", (uint64_t)memcmp(one, other, source_len), 0);
    free(one);
    free(other);
    free(stream);
    vmig_free(&source);
    vmig_free(&target);
    return ended("save");
}
