/*
 * The limit per start of include/zuc.h (request 2026-09): how far each call raises
 * the count, states a few words before the limit and at it through every call, the
 * order of refusals, and a count above the limit refused. Prints what differs; exits
 * with 1 if anything does.
 */
#include "states.h"

#define LIMIT ((uint32_t)ZUC_WORDS_PER_START)
#define SIZE(list) (sizeof (list) / sizeof *(list))

/* Words left: few, and about the runs that the library draws in one. */
static const uint32_t lefts[] = {0, 1, 2, 3, 4, 5, 15, 16, 17, 63, 64, 65};

/* A generator with so many words left. */
static void left_of(uint32_t state[ZUC_STATE_WORDS], uint32_t left)
{
    CHECK(zuc128_start(state, bytes, 16, bytes, 16) == 0 && state[COUNT] == 0);
    state[INDEX] = left % 16;
    state[COUNT] = LIMIT - left;
}

/* Starts leave 0 or the words that they draw; refused ones leave zeros. */
static void counts_of_starts(void)
{
    static const size_t widths[] = {0, 4, 8, 16};
    uint32_t state[ZUC_STATE_WORDS];
    uint64_t tag[ZUC_TAG_WORDS];
    size_t i;

    CHECK(zuc128_start(state, bytes, 16, bytes, 16) == 0 && state[COUNT] == 0);
    CHECK(zuc256_start(state, bytes, 32, bytes, 23) == 0 && state[COUNT] == 0);
    CHECK(eea3_start(state, 1, 2, 1, bytes, 16) == 0 && state[COUNT] == 0);
    state[COUNT] = 7;
    CHECK(eea3_start(state, 1, 2, 1, bytes, 15) == ZUC_BAD_KEY && state[COUNT] == 0);
    for (i = 0; i < SIZE(widths); i++)
        CHECK(tag_started(tag, widths[i]) == tag[TAG_COUNT]);
    CHECK(eia3_tag_start(tag, 1, 2, 1, bytes, 16) == 0 && tag[TAG_COUNT] == 2);
    CHECK(eia3_tag_start(tag, 1, 2, 1, bytes, 15) == ZUC_BAD_KEY && tag[TAG_COUNT] == 0);
}

/* Every call raises the count by what it draws. */
static void counts_of_calls(void)
{
    uint32_t state[ZUC_STATE_WORDS], word, out[100], sum = 0, n;
    uint8_t buf[100] = {0};
    size_t count;

    CHECK(zuc128_start(state, bytes, 16, bytes, 16) == 0);
    for (n = 0; n <= 100; n++) {
        CHECK(zuc_draw(state, &word) == 0 && state[COUNT] == ++sum);
        CHECK(zuc_words(state, out, n) == 0 && state[COUNT] == (sum += n));
        CHECK(zuc_mask_crate(state, buf, n, 8 * n, &count) == 0 && count == n / 4 + 1);
        CHECK(state[COUNT] == (sum += n / 4 + 1));
        CHECK(zuc_mask_clean(state, buf, n, 3 * n, &count) == 0 && count == (3 * n + 31) / 32);
        CHECK(state[COUNT] == (sum += (3 * n + 31) / 32));
        CHECK(zuc_mask_clean(state, buf, n, 8 * n + 1, &count) == ZUC_BAD_BITS);
        CHECK(state[COUNT] == sum);
    }
}

/* A draw with so many words left: one, if there is one. */
static void draws(uint32_t left)
{
    uint32_t before[ZUC_STATE_WORDS], state[ZUC_STATE_WORDS], other[ZUC_STATE_WORDS];
    uint32_t word = 7, same;

    left_of(before, left);
    memcpy(state, before, sizeof state);
    if (left == 0) {
        CHECK(zuc_draw(state, &word) == ZUC_SPENT && word == 0);
        CHECK(memcmp(state, before, sizeof state) == 0);
        return;
    }
    CHECK(zuc_draw(state, &word) == 0 && state[COUNT] == LIMIT - left + 1);
    memcpy(other, before, sizeof other);
    other[COUNT] = 5; /* the count tells nothing but how many are left */
    CHECK(zuc_draw(other, &same) == 0 && same == word);
    other[COUNT] = state[COUNT];
    CHECK(memcmp(state, other, sizeof state) == 0);
}

/* Whether each of n words is still the 7 that was put there. */
static int all_seven(const uint32_t *out, size_t n)
{
    while (n-- > 0)
        if (out[n] != 7)
            return 0;
    return 1;
}

/* Words: all or none. With none asked for, none are too many. */
static void words(uint32_t left)
{
    uint32_t before[ZUC_STATE_WORDS], state[ZUC_STATE_WORDS], out[70];
    size_t n, i;

    left_of(before, left);
    for (n = 0; n <= left + 3; n++) {
        for (i = 0; i < SIZE(out); i++)
            out[i] = 7;
        memcpy(state, before, sizeof state);
        if (n <= left) {
            CHECK(zuc_words(state, out, n) == 0 && drawn(state, before, n));
            CHECK(state[COUNT] == LIMIT - left + n && all_seven(out + n, 70 - n));
            /* what is left then, and one more */
            CHECK(zuc_words(state, out, left - n + 1) == ZUC_SPENT);
            CHECK(zuc_words(state, out, left - n) == 0 && state[COUNT] == LIMIT);
        } else {
            CHECK(zuc_words(state, out, n) == ZUC_SPENT && all_seven(out, 70));
            CHECK(memcmp(state, before, sizeof state) == 0);
        }
    }
}

typedef uint32_t mask_call(uint32_t *, uint8_t *, size_t, size_t, size_t *);

/* The words of a mask: crate mode goes by the bytes lent, clean mode by the bits. */
static size_t mask_words(mask_call *mask, size_t len, size_t bits)
{
    return mask == zuc_mask_crate ? len / 4 + 1 : bits / 32 + (bits % 32 != 0);
}

/* Masks: a bit length past the end is refused first, even with no word left. */
static void masks(mask_call *mask, uint32_t left)
{
    uint32_t before[ZUC_STATE_WORDS], state[ZUC_STATE_WORDS], answer;
    uint8_t plain[270], buf[270];
    size_t len, less, bits, count, words;

    memset(plain, 0xa5, sizeof plain);
    left_of(before, left);
    for (len = 0; len <= 4 * left + 9; len++)
        for (less = 0; less <= 73; less++) {
            bits = 8 * len + 1 - (less <= 8 * len + 1 ? less : 0);
            words = mask_words(mask, len, bits);
            memcpy(state, before, sizeof state);
            memcpy(buf, plain, sizeof buf);
            count = 7;
            answer = mask(state, buf, len, bits, &count);
            if (bits <= 8 * len && words <= left) {
                CHECK(answer == 0 && count == words);
                CHECK(state[COUNT] == LIMIT - left + count && drawn(state, before, count));
                continue;
            }
            CHECK(answer == (bits > 8 * len ? ZUC_BAD_BITS : ZUC_SPENT) && count == 0);
            CHECK(memcmp(state, before, sizeof state) == 0);
            CHECK(memcmp(buf, plain, sizeof buf) == 0);
        }
}

/* A tag with so many bytes waiting and so many words left. */
static void tag_left_of(uint64_t state[ZUC_TAG_WORDS], size_t width, size_t waiting,
                        uint32_t left)
{
    tag_started(state, width);
    CHECK(update(width != 0, state, bytes, waiting) == 0);
    CHECK(state[TAG_WAITING] == waiting);
    state[TAG_COUNT] = LIMIT - left;
}

/* An update draws for the blocks that it fills: if none is, it is never refused. */
static void updates(size_t width, size_t waiting, uint32_t left)
{
    uint64_t before[ZUC_TAG_WORDS], state[ZUC_TAG_WORDS];
    size_t len, block, words;

    tag_left_of(before, width, waiting, left);
    block = (size_t)before[TAG_WIDTH];
    for (len = 0; len <= sizeof bytes; len++) {
        words = (waiting + len) / block * (block / 4);
        memcpy(state, before, sizeof state);
        if (words <= left) {
            CHECK(update(width != 0, state, bytes, len) == 0);
            CHECK(state[TAG_COUNT] == LIMIT - left + words);
            CHECK(tag_drawn(state, before, words));
        } else {
            CHECK(update(width != 0, state, bytes, len) == ZUC_SPENT);
            CHECK(memcmp(state, before, sizeof state) == 0);
        }
    }
}

/* The fresh words of a finish, with L bits from the bytes that wait on. */
static size_t fresh(size_t width, size_t L)
{
    return width == 0 ? (L + 31) / 32 : width / 4 * (L / (8 * width));
}

static void finishes(size_t width, size_t waiting, uint32_t left)
{
    static const uint64_t zeros[ZUC_TAG_WORDS];
    uint64_t before[ZUC_TAG_WORDS], state[ZUC_TAG_WORDS], tag[2], same[2];
    size_t bits, len = 9;

    tag_left_of(before, width, waiting, left);
    for (bits = 0; bits <= 8 * len + 9; bits++) {
        memcpy(state, before, sizeof state);
        tag[0] = tag[1] = 7;
        if (bits > 8 * len) {
            CHECK(finish(width != 0, state, len, bits, tag) == ZUC_BAD_BITS);
        } else if (fresh(width, 8 * waiting + bits) > left) {
            CHECK(finish(width != 0, state, len, bits, tag) == ZUC_SPENT);
        } else {
            CHECK(finish(width != 0, state, len, bits, tag) == 0);
            CHECK(memcmp(state, zeros, sizeof state) == 0);
            memcpy(state, before, sizeof state);
            state[TAG_COUNT] = 0;
            CHECK(finish(width != 0, state, len, bits, same) == 0);
            CHECK(memcmp(tag, same, sizeof tag) == 0);
            continue;
        }
        CHECK(tag[0] == 0 && tag[1] == 0);
        CHECK(memcmp(state, before, sizeof state) == 0);
    }
}

/* Above the limit: malformed, before anything else is looked at. */
static void refused_counts(void)
{
    static const uint32_t above[] = {LIMIT + 1, LIMIT + 2, 0x80000000, UINT32_MAX};
    uint32_t state[ZUC_STATE_WORDS], before[ZUC_STATE_WORDS], word, out[2] = {7, 7};
    uint8_t buf[5] = {1, 2, 3, 4, 5};
    size_t i, count;

    for (i = 0; i < SIZE(above); i++) {
        left_of(state, 0);
        state[COUNT] = above[i];
        memcpy(before, state, sizeof before);
        word = 7;
        CHECK(zuc_draw(state, &word) == ZUC_BAD_STATE && word == 0);
        CHECK(zuc_words(state, out, 2) == ZUC_BAD_STATE && all_seven(out, 2));
        CHECK(zuc_words(state, out, 0) == ZUC_BAD_STATE);
        count = 7;
        CHECK(zuc_mask_crate(state, buf, 5, 40, &count) == ZUC_BAD_STATE && count == 0);
        count = 7;
        CHECK(zuc_mask_clean(state, buf, 5, 41, &count) == ZUC_BAD_STATE && count == 0);
        CHECK(memcmp(buf, "\1\2\3\4\5", 5) == 0);
        CHECK(memcmp(state, before, sizeof before) == 0);
    }
    /* a malformed cell or index at the limit: 4 before 16 */
    left_of(state, 0);
    state[3] = 0;
    CHECK(zuc_draw(state, &word) == ZUC_BAD_STATE);
    left_of(state, 0);
    state[INDEX] = 16;
    CHECK(zuc_words(state, out, 2) == ZUC_BAD_STATE && all_seven(out, 2));
}

static void refused_tag_counts(size_t width)
{
    static const uint64_t above[] = {
        LIMIT + 1, UINT32_MAX, 0x100000000, 0x100000005, 0x8000000000000000, UINT64_MAX,
    };
    uint64_t state[ZUC_TAG_WORDS], before[ZUC_TAG_WORDS], tag[2];
    size_t i;

    for (i = 0; i < SIZE(above); i++) {
        tag_started(state, width);
        state[TAG_COUNT] = above[i];
        memcpy(before, state, sizeof before);
        CHECK(update(width != 0, state, bytes, 40) == ZUC_BAD_STATE);
        CHECK(update(width != 0, state, NULL, 0) == ZUC_BAD_STATE);
        tag[0] = tag[1] = 7;
        CHECK(finish(width != 0, state, 5, 41, tag) == ZUC_BAD_STATE);
        CHECK(tag[0] == 0 && tag[1] == 0);
        CHECK(memcmp(state, before, sizeof before) == 0);
    }
}

/*
 * Lengths that no memory has, so these calls alone do not keep to "Lending": each is
 * refused before it looks at what it is lent.
 */
static const size_t no_memory[] = {
    (size_t)1 << 60, (size_t)1 << 61, ((size_t)1 << 62) - 1, (size_t)1 << 62,
    (size_t)1 << 63, SIZE_MAX - 3, SIZE_MAX,
};

static void lengths_past_any_memory(void)
{
    uint32_t state[ZUC_STATE_WORDS], before[ZUC_STATE_WORDS], out[1] = {7};
    uint64_t tag_state[ZUC_TAG_WORDS], tag_before[ZUC_TAG_WORDS], tag[2] = {7, 7};
    uint8_t buf[1] = {7};
    size_t i, n, count = 7;

    CHECK(zuc256_start(before, bytes, 32, bytes, 23) == 0);
    CHECK(zuc256_tag_start(tag_before, 16, bytes, 32, bytes, 23) == 0);
    CHECK(zuc256_tag_update(tag_before, bytes, 15) == 0);
    for (i = 0; i < SIZE(no_memory); i++) {
        n = no_memory[i];
        memcpy(state, before, sizeof state);
        CHECK(zuc_words(state, out, n) == ZUC_SPENT && out[0] == 7);
        CHECK(zuc_mask_crate(state, buf, n, 8, &count) == ZUC_SPENT && count == 0);
        CHECK(zuc_mask_clean(state, buf, n, n, &count) == ZUC_SPENT && count == 0);
        CHECK(buf[0] == 7 && memcmp(state, before, sizeof state) == 0);
        memcpy(tag_state, tag_before, sizeof tag_state);
        CHECK(zuc256_tag_update(tag_state, bytes, n) == ZUC_SPENT);
        CHECK(zuc256_tag_finish(tag_state, bytes, n, n, tag) == ZUC_SPENT);
        CHECK(tag[0] == 0 && tag[1] == 0);
        CHECK(memcmp(tag_state, tag_before, sizeof tag_state) == 0);
    }
    /* 8 * 2^60 bytes are less than SIZE_MAX bits: 5 before 16 */
    CHECK(zuc_mask_clean(state, buf, (size_t)1 << 60, SIZE_MAX, &count) == ZUC_BAD_BITS);
    CHECK(zuc256_tag_finish(tag_state, bytes, (size_t)1 << 60, SIZE_MAX, tag) == ZUC_BAD_BITS);
}

/* One-shots at their first bit length too many, and at the last one there is. */
static void tags_at_once(void)
{
    static const size_t full = (size_t)1 << 32;
    const struct {
        size_t width, bits;
    } first[] = {{4, full}, {8, full - 64}, {16, full - 256}};
    uint64_t tag[2] = {7, 7};
    size_t i;

    CHECK(zuc128_tag(bytes, 16, bytes, 16, bytes, full, full + 1, tag) == ZUC_SPENT);
    CHECK(tag[0] == 0 && tag[1] == 0);
    CHECK(zuc128_tag(bytes, 16, bytes, 16, bytes, SIZE_MAX, SIZE_MAX, tag) == ZUC_SPENT);
    CHECK(zuc128_tag(bytes, 16, bytes, 16, bytes, 1, full + 1, tag) == ZUC_BAD_BITS);
    CHECK(zuc128_tag(bytes, 16, bytes, 15, bytes, full, full + 1, tag) == ZUC_BAD_IV);
    tag[0] = tag[1] = 7;
    CHECK(eia3_tag(1, 2, 1, bytes, 16, bytes, full, full + 1, tag) == ZUC_SPENT);
    CHECK(tag[0] == 0 && tag[1] == 0);
    CHECK(eia3_tag(1, 2, 1, bytes, 16, bytes, SIZE_MAX, SIZE_MAX, tag) == ZUC_SPENT);
    CHECK(eia3_tag(1, 2, 1, bytes, 15, bytes, full, full + 1, tag) == ZUC_BAD_KEY);
    for (i = 0; i < SIZE(first); i++) {
        size_t width = first[i].width, bits = first[i].bits;

        tag[0] = tag[1] = 7;
        CHECK(zuc256_tag(width, bytes, 32, bytes, 23, bytes, full, bits, tag) == ZUC_SPENT);
        CHECK(tag[0] == 0 && tag[1] == 0);
        CHECK(zuc256_tag(width, bytes, 32, bytes, 23, bytes, SIZE_MAX, SIZE_MAX, tag)
              == ZUC_SPENT);
        CHECK(zuc256_tag(width, bytes, 32, bytes, 23, bytes, 1, bits, tag) == ZUC_BAD_BITS);
        CHECK(zuc256_tag(width + 1, bytes, 32, bytes, 23, bytes, full, bits, tag)
              == ZUC_BAD_WIDTH);
    }
}

int main(void)
{
    static const size_t widths[] = {0, 4, 8, 16};
    size_t i, waiting, block;
    uint32_t left;

    counts_of_starts();
    counts_of_calls();
    refused_counts();
    for (i = 0; i < SIZE(lefts); i++) {
        draws(lefts[i]);
        words(lefts[i]);
        masks(zuc_mask_crate, lefts[i]);
        masks(zuc_mask_clean, lefts[i]);
    }
    for (i = 0; i < SIZE(widths); i++) {
        block = widths[i] == 0 ? 4 : widths[i];
        refused_tag_counts(widths[i]);
        for (waiting = 0; waiting < block; waiting++)
            for (left = 0; left <= 13; left++) {
                updates(widths[i], waiting, left);
                finishes(widths[i], waiting, left);
            }
    }
    lengths_past_any_memory();
    tags_at_once();
    printf("limit.c: %d checks, %d failed\n", checks, failures);
    return failures != 0;
}
