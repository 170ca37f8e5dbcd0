/*
 * An example to copy: a received block is checked in three steps, in this order.
 *
 *   1. its tag. Who has not the key cannot go past here, so nothing that an
 *      attacker invents reaches the guard. Asked first, the guard would believe a
 *      forged COUNT: 4294967295 moves the window to the end, and every good block
 *      after it is refused.
 *   2. the guard, with its COUNT. A block that comes twice, or is too old to be
 *      told from one that did, stops here, before anything is done with it.
 *   3. the body, unmasked, and now the caller's to use.
 *
 * A COUNT that has passed the guard is spent, whatever becomes of the body.
 * Bearer and direction are somebody's settings: the strict forms refuse one that does
 * not fit its field, where the others would take its low bits for it.
 * Runs itself on a few blocks; exits with 1 if a step fails.
 */
#include "zuc.h"

#include <stdio.h>
#include <string.h>

/* What both ends share of one direction of one bearer; its link stands in a table. */
struct keys {
    uint8_t ck[16], ik[16];
    uint8_t bearer, direction;
};

struct block {
    uint32_t count, tag;
    uint8_t body[8]; /* masked */
};

enum received { USED, WRONG_TAG, SEEN_OR_OLD, BROKEN };

/* Masks and unmasks: 64 bits. */
static uint32_t mask(const struct keys *keys, uint32_t count, uint8_t body[8])
{
    size_t drawn;

    return eea3_mask_clean_strict(count, keys->bearer, keys->direction, keys->ck, 16,
                                  body, 8, 64, &drawn);
}

static uint32_t tag_of(const struct keys *keys, const struct block *block, uint64_t tag[2])
{
    return eia3_tag_strict(block->count, keys->bearer, keys->direction, keys->ik, 16,
                           block->body, 8, 64, tag);
}

/* Leaves the plain body in `block` if the answer is USED, and else all as it came. */
static enum received receive(const struct keys *keys, struct zuc_link *links,
                             size_t len, size_t at, struct block *block)
{
    uint64_t tag[2];

    if (tag_of(keys, block, tag) != 0)
        return BROKEN;
    if (tag[0] != block->tag)
        return WRONG_TAG;
    if (zuc_guard_accept(links, len, at, block->count) != 0)
        return SEEN_OR_OLD;
    return mask(keys, block->count, block->body) == 0 ? USED : BROKEN;
}

/* The other end, for this example: it masks, then tags what it masked. */
static struct block sent(const struct keys *keys, uint32_t count, const char *text)
{
    struct block block = {0};
    uint64_t tag[2] = {0, 0};

    block.count = count;
    memcpy(block.body, text, 8);
    if (mask(keys, count, block.body) == 0 && tag_of(keys, &block, tag) == 0)
        block.tag = (uint32_t)tag[0];
    return block;
}

static int failures;

static void expect(int holds, const char *what)
{
    if (!holds) {
        failures++;
        fprintf(stderr, "receive.c: not so: %s\n", what);
    }
}

int main(void)
{
    static const struct keys keys = {{1, 2, 3}, {4, 5, 6}, 7, 1};
    struct zuc_link links[2] = {{0, 0}, {0, 0}};
    static const struct keys mistyped = {{1, 2, 3}, {4, 5, 6}, 39, 1};
    struct block good = sent(&keys, 1000, "register"), again = good, late, forged;

    expect(receive(&keys, links, 2, 1, &good) == USED, "a block is used");
    expect(memcmp(good.body, "register", 8) == 0, "it is plain");
    expect(receive(&keys, links, 2, 1, &again) == SEEN_OR_OLD, "and not used twice");

    late = sent(&keys, 999, "reading.");
    forged = late;
    forged.count = 4294967295u;
    expect(receive(&keys, links, 2, 1, &forged) == WRONG_TAG, "a forged COUNT is found by its tag");
    expect(links[1].highest == 1000, "and has not moved the window");
    expect(receive(&keys, links, 2, 1, &late) == USED, "so a late block still passes");

    late = sent(&keys, 1001, "another.");
    expect(receive(&mistyped, links, 2, 1, &late) == BROKEN, "bearer 39 is not taken for 7");

    expect(zuc_guard_rekey(links, 2, 1) == 0, "new keys, a fresh link");
    printf("receive.c: %d failed\n", failures);
    return failures != 0;
}
