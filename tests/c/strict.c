/*
 * Strict forms of 128-EEA3 and 128-EIA3, and 128-EEA3 in one call (request 2026-04):
 * every bearer with every direction through every form, one call against a start and a
 * mask, and key, field, bit length and limit wrong in all combinations. Prints what
 * differs; exits with 1 if anything does.
 */
#include "check.h"
#include "zuc.h"

#include <string.h>

#define COUNT 0x66035492u
#define LIMIT ((size_t)ZUC_WORDS_PER_START)
#define SIZE(list) (sizeof (list) / sizeof *(list))

static const uint8_t key[17] = {
    0x17, 0x3d, 0x14, 0xba, 0x50, 0x03, 0x73, 0x1d,
    0x7a, 0x60, 0x04, 0x94, 0x70, 0xf0, 0x0a, 0x29, 0x00,
};
static const uint8_t plain[11] = {1, 2, 3, 4, 5, 6, 7, 8, 9, 10, 11};
static const uint32_t no_state[ZUC_STATE_WORDS];
static const uint64_t no_tag_state[ZUC_TAG_WORDS];

/* The forms: those that mask in one call, the mask that each is, and whether it is strict. */
static const struct {
    __typeof__(eea3_mask_crate) *once;
    __typeof__(zuc_mask_crate) *mask;
    int clean, strict;
} masks[] = {
    {eea3_mask_crate, zuc_mask_crate, 0, 0},
    {eea3_mask_clean, zuc_mask_clean, 1, 0},
    {eea3_mask_crate_strict, zuc_mask_crate, 0, 1},
    {eea3_mask_clean_strict, zuc_mask_clean, 1, 1},
};

static int fits(unsigned bearer, unsigned direction)
{
    return bearer <= 31 && direction <= 1;
}

/* A strict start is the plain one, or 8 and zeros; a plain one trims. */
static void starts(uint8_t bearer, uint8_t direction)
{
    uint32_t one[ZUC_STATE_WORDS], other[ZUC_STATE_WORDS];
    uint64_t tag[ZUC_TAG_WORDS], tag_other[ZUC_TAG_WORDS];
    int ok = fits(bearer, direction);
    uint32_t expected = ok ? 0 : ZUC_BAD_FIELD;

    memset(other, 7, sizeof other);
    CHECK(eea3_start(one, COUNT, bearer, direction, key, 16) == 0);
    CHECK(eea3_start_strict(other, COUNT, bearer, direction, key, 16) == expected);
    CHECK(memcmp(other, ok ? one : no_state, sizeof other) == 0);
    CHECK(eea3_start_strict(other, COUNT, bearer % 32, direction % 2, key, 16) == 0);
    CHECK(memcmp(other, one, sizeof other) == 0);

    memset(tag_other, 7, sizeof tag_other);
    CHECK(eia3_tag_start(tag, COUNT, bearer, direction, key, 16) == 0);
    CHECK(eia3_tag_start_strict(tag_other, COUNT, bearer, direction, key, 16) == expected);
    CHECK(memcmp(tag_other, ok ? tag : no_tag_state, sizeof tag_other) == 0);
    CHECK(eia3_tag_start_strict(tag_other, COUNT, bearer % 32, direction % 2, key, 16) == 0);
    CHECK(memcmp(tag_other, tag, sizeof tag_other) == 0);
}

static void tags(uint8_t bearer, uint8_t direction)
{
    uint64_t one[2] = {7, 7}, other[2] = {7, 7};
    int ok = fits(bearer, direction);
    uint32_t expected = ok ? 0 : ZUC_BAD_FIELD;

    CHECK(eia3_tag(COUNT, bearer, direction, key, 16, plain, 11, 83, one) == 0);
    CHECK(eia3_tag_strict(COUNT, bearer, direction, key, 16, plain, 11, 83, other) == expected);
    CHECK(other[0] == (ok ? one[0] : 0) && other[1] == 0);
    CHECK(eia3_tag_strict(COUNT, bearer % 32, direction % 2, key, 16, plain, 11, 83, other) == 0);
    CHECK(other[0] == one[0] && other[1] == 0);
}

/* One call is a start and a mask: the same bytes, and the count that the mask says. */
static void one_calls(uint8_t bearer, uint8_t direction)
{
    uint32_t state[ZUC_STATE_WORDS];
    uint8_t one[11], other[11];
    size_t i, count, drawn;

    for (i = 0; i < SIZE(masks); i++) {
        int ok = !masks[i].strict || fits(bearer, direction);

        memcpy(one, plain, sizeof one);
        memcpy(other, plain, sizeof other);
        drawn = 7;
        CHECK(eea3_start(state, COUNT, bearer, direction, key, 16) == 0);
        CHECK(masks[i].mask(state, one, 11, 80, &count) == 0);
        CHECK(masks[i].once(COUNT, bearer, direction, key, 16, other, 11, 80, &drawn)
              == (ok ? 0 : ZUC_BAD_FIELD));
        CHECK(drawn == (ok ? count : 0));
        CHECK(memcmp(other, ok ? one : plain, sizeof other) == 0);
    }
}

static void every_pair(void)
{
    unsigned bearer, direction;

    for (bearer = 0; bearer < 256; bearer++)
        for (direction = 0; direction < 256; direction++) {
            starts((uint8_t)bearer, (uint8_t)direction);
            tags((uint8_t)bearer, (uint8_t)direction);
            one_calls((uint8_t)bearer, (uint8_t)direction);
        }
}

/* Every length of a buffer up to 11 bytes with every bit length of it, and one more. */
static void every_length(void)
{
    uint32_t state[ZUC_STATE_WORDS];
    uint8_t one[11], other[11];
    size_t i, len, bits, count, drawn;

    for (i = 0; i < SIZE(masks); i++)
        for (len = 0; len <= 11; len++)
            for (bits = 0; bits <= 8 * len + 1; bits++) {
                uint32_t refusal = bits <= 8 * len ? 0 : ZUC_BAD_BITS;

                memcpy(one, plain, sizeof one);
                memcpy(other, plain, sizeof other);
                drawn = 7;
                CHECK(eea3_start(state, COUNT, 3, 1, key, 16) == 0);
                CHECK(masks[i].mask(state, one, len, bits, &count) == refusal);
                CHECK(masks[i].once(COUNT, 3, 1, key, 16, other, len, bits, &drawn) == refusal);
                CHECK(drawn == count && memcmp(one, other, sizeof other) == 0);
            }
}

/* The refusal that is checked first. */
static uint32_t first(int strict, size_t key_len, unsigned bearer, unsigned direction,
                      int bad_bits, int spent)
{
    if (key_len != 16)
        return ZUC_BAD_KEY;
    if (strict && !fits(bearer, direction))
        return ZUC_BAD_FIELD;
    if (bad_bits)
        return ZUC_BAD_BITS;
    return spent ? ZUC_SPENT : 0;
}

/*
 * A mask of `len` bytes, of which 11 are there: a call that is refused touches none. The
 * first length and bit length that are too many words are 4 * LIMIT and 32 * LIMIT + 1.
 */
static void mixed_masks(size_t key_len, uint8_t bearer, uint8_t direction, int bad_bits, int spent)
{
    uint8_t buf[11];
    size_t i, drawn;

    for (i = 0; i < SIZE(masks); i++) {
        size_t len = spent ? 4 * LIMIT + 8 : 11;
        size_t bits = spent && masks[i].clean ? 32 * LIMIT + 1 : 88;
        uint32_t expected = first(masks[i].strict, key_len, bearer, direction, bad_bits, spent);

        memcpy(buf, plain, sizeof buf);
        drawn = 7;
        if (bad_bits)
            bits = 8 * len + 1;
        CHECK(masks[i].once(COUNT, bearer, direction, key, key_len, buf, len, bits, &drawn)
              == expected);
        CHECK(expected == 0 || (drawn == 0 && memcmp(buf, plain, sizeof buf) == 0));
    }
}

static void mixed_tags(size_t key_len, uint8_t bearer, uint8_t direction, int bad_bits, int spent)
{
    uint64_t tag[2] = {7, 7};
    size_t len = spent ? ((size_t)1 << 29) + 1 : 11;
    size_t bits = bad_bits ? 8 * len + 1 : spent ? ((size_t)1 << 32) + 1 : 88;
    uint32_t expected = first(0, key_len, bearer, direction, bad_bits, spent);

    CHECK(eia3_tag(COUNT, bearer, direction, key, key_len, plain, len, bits, tag) == expected);
    CHECK(expected == 0 || (tag[0] == 0 && tag[1] == 0));
    expected = first(1, key_len, bearer, direction, bad_bits, spent);
    CHECK(eia3_tag_strict(COUNT, bearer, direction, key, key_len, plain, len, bits, tag)
          == expected);
    CHECK(expected == 0 || (tag[0] == 0 && tag[1] == 0));
}

static void mixed_starts(size_t key_len, uint8_t bearer, uint8_t direction)
{
    uint32_t state[ZUC_STATE_WORDS], expected = first(1, key_len, bearer, direction, 0, 0);
    uint64_t tag_state[ZUC_TAG_WORDS];

    memset(state, 7, sizeof state);
    memset(tag_state, 7, sizeof tag_state);
    CHECK(eea3_start_strict(state, COUNT, bearer, direction, key, key_len) == expected);
    CHECK(expected == 0 || memcmp(state, no_state, sizeof state) == 0);
    CHECK(eia3_tag_start_strict(tag_state, COUNT, bearer, direction, key, key_len) == expected);
    CHECK(expected == 0 || memcmp(tag_state, no_tag_state, sizeof tag_state) == 0);
}

static void every_combination(void)
{
    static const size_t keys[] = {16, 0, 15, 17};
    static const uint8_t fields[][2] = {{31, 1}, {32, 1}, {31, 2}, {33, 3}, {255, 255}};
    size_t k, f;
    int wrong;

    for (k = 0; k < SIZE(keys); k++)
        for (f = 0; f < SIZE(fields); f++) {
            mixed_starts(keys[k], fields[f][0], fields[f][1]);
            for (wrong = 0; wrong < 4; wrong++) {
                mixed_masks(keys[k], fields[f][0], fields[f][1], wrong & 1, wrong >> 1);
                mixed_tags(keys[k], fields[f][0], fields[f][1], wrong & 1, wrong >> 1);
            }
        }
}

int main(void)
{
    every_pair();
    every_length();
    every_combination();
    printf("strict.c: %d checks, %d failed\n", checks, failures);
    return failures != 0;
}
