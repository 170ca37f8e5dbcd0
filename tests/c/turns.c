/*
 * The start index of include/zuc.h (request 2026-08): how far each call raises it
 * and what a draw writes, an index above 15 refused, and one state in all its
 * sixteen turns. Prints what differs; exits with 1 if anything does.
 */
#include "states.h"

/* The same cells from another index. */
static void turn(uint32_t to[ZUC_STATE_WORDS], const uint32_t from[ZUC_STATE_WORDS],
                 uint32_t index)
{
    uint32_t j;

    memcpy(to, from, ZUC_STATE_WORDS * sizeof *to);
    for (j = 0; j < 16; j++)
        to[(index + j) % 16] = from[(from[INDEX] + j) % 16];
    to[INDEX] = index;
}

static void turn_tag(uint64_t to[ZUC_TAG_WORDS], const uint64_t from[ZUC_TAG_WORDS],
                     uint32_t index)
{
    uint32_t state[ZUC_STATE_WORDS], turned[ZUC_STATE_WORDS];
    size_t i;

    memcpy(to, from, ZUC_TAG_WORDS * sizeof *to);
    generator_of(state, from);
    turn(turned, state, index);
    for (i = 0; i < 9; i++)
        to[i] = (uint64_t)turned[2 * i] << 32 | turned[2 * i + 1];
    to[TAG_INDEX] = index;
}

/* A start leaves 0; of the places a draw writes that of the oldest cell, no more. */
static void single_draws(void)
{
    uint32_t state[ZUC_STATE_WORDS], before[ZUC_STATE_WORDS], word, n, i;

    CHECK(zuc256_start(state, bytes, 32, bytes, 23) == 0 && state[INDEX] == 0);
    CHECK(eea3_start(state, 1, 2, 1, bytes, 16) == 0 && state[INDEX] == 0);
    CHECK(zuc128_start(state, bytes, 16, bytes, 16) == 0 && state[INDEX] == 0);
    for (n = 1; n <= 33; n++) {
        memcpy(before, state, sizeof before);
        CHECK(zuc_draw(state, &word) == 0);
        CHECK(state[INDEX] == n % 16); /* so from 15 back to 0, twice */
        for (i = 0; i < 16; i++)
            CHECK((state[i] == before[i]) == (i != before[INDEX]));
    }
}

/* Words and masks leave what as many draws do: the index raised by their number. */
static void many_draws(void)
{
    uint32_t start[ZUC_STATE_WORDS], state[ZUC_STATE_WORDS], before[ZUC_STATE_WORDS];
    uint32_t out[50], i;
    uint8_t buf[50];
    size_t n, count;

    CHECK(zuc128_start(start, bytes, 16, bytes, 16) == 0);
    for (i = 0; i < 16; i++)
        for (n = 0; n <= 50; n++) {
            turn(before, start, i);
            memcpy(state, before, sizeof state);
            CHECK(zuc_words(state, out, n) == 0);
            CHECK(state[INDEX] == (i + n) % 16 && drawn(state, before, n));

            memset(buf, 0, sizeof buf);
            memcpy(state, before, sizeof state);
            CHECK(zuc_mask_crate(state, buf, n, 8 * n, &count) == 0 && count == n / 4 + 1);
            CHECK(state[INDEX] == (i + count) % 16 && drawn(state, before, count));
            memcpy(state, before, sizeof state);
            CHECK(zuc_mask_clean(state, buf, n, 4 * n, &count) == 0 && count == (4 * n + 31) / 32);
            CHECK(state[INDEX] == (i + count) % 16 && drawn(state, before, count));
        }
}

/* An update draws a word for every four bytes of the blocks that it fills. */
static void updates(size_t width)
{
    uint64_t start[ZUC_TAG_WORDS], before[ZUC_TAG_WORDS], state[ZUC_TAG_WORDS];
    uint32_t i;
    size_t len, block, words = tag_started(start, width);

    block = (size_t)start[TAG_WIDTH];
    CHECK(start[TAG_INDEX] == words % 16);
    for (i = 0; i < 16; i++)
        for (len = 0; len <= 40; len++) {
            turn_tag(before, start, i);
            memcpy(state, before, sizeof state);
            CHECK(update(width != 0, state, bytes, len) == 0);
            words = len / block * block / 4;
            CHECK(state[TAG_INDEX] == (i + words) % 16 && tag_drawn(state, before, words));
        }
}

/* Above 15: refused by every call, whatever the cells, and all stays as it came. */
static void refused_indices(void)
{
    static const uint32_t above[] = {16, 17, 31, 32, 0x7fffffff, 0x80000000, UINT32_MAX};
    uint32_t state[ZUC_STATE_WORDS], before[ZUC_STATE_WORDS], word, out[2] = {7, 7};
    uint8_t buf[5] = {1, 2, 3, 4, 5};
    size_t i, count;

    for (i = 0; i < sizeof above / sizeof *above; i++) {
        CHECK(zuc128_start(state, bytes, 16, bytes, 16) == 0);
        if (i % 2 == 1)
            memset(state, 0, sizeof state);
        state[INDEX] = above[i];
        memcpy(before, state, sizeof before);
        word = 7;
        CHECK(zuc_draw(state, &word) == ZUC_BAD_STATE && word == 0);
        CHECK(zuc_words(state, out, 2) == ZUC_BAD_STATE && out[0] == 7 && out[1] == 7);
        CHECK(zuc_words(state, out, 0) == ZUC_BAD_STATE);
        count = 7;
        CHECK(zuc_mask_crate(state, buf, 5, 40, &count) == ZUC_BAD_STATE && count == 0);
        count = 7;
        CHECK(zuc_mask_clean(state, buf, 5, 41, &count) == ZUC_BAD_STATE && count == 0);
        CHECK(memcmp(buf, "\1\2\3\4\5", 5) == 0);
        CHECK(memcmp(state, before, sizeof before) == 0);
    }
}

static void refused_tag_indices(size_t width)
{
    static const uint64_t above[] = {
        16, 17, 0xffffffff, 0x100000000, 0x10000000f, 0x8000000000000000, UINT64_MAX,
    };
    uint64_t state[ZUC_TAG_WORDS], before[ZUC_TAG_WORDS], tag[2];
    size_t i;

    for (i = 0; i < sizeof above / sizeof *above; i++) {
        tag_started(state, width);
        state[TAG_INDEX] = above[i];
        memcpy(before, state, sizeof before);
        CHECK(update(width != 0, state, bytes, 5) == ZUC_BAD_STATE);
        CHECK(update(width != 0, state, NULL, 0) == ZUC_BAD_STATE);
        tag[0] = tag[1] = 7;
        CHECK(finish(width != 0, state, 5, 40, tag) == ZUC_BAD_STATE);
        CHECK(tag[0] == 0 && tag[1] == 0);
        CHECK(memcmp(state, before, sizeof before) == 0);
    }
}

/* All that a state can be asked for: words both ways, masks in both modes. */
struct answers {
    uint32_t words[40], draws[40];
    uint8_t crate[40], clean[40];
    size_t counts[2];
};

static struct answers answers_of(const uint32_t turned[ZUC_STATE_WORDS])
{
    uint32_t state[ZUC_STATE_WORDS];
    struct answers all;
    size_t n;

    memset(&all, 0, sizeof all);
    memcpy(state, turned, sizeof state);
    CHECK(zuc_words(state, all.words, 40) == 0);
    memcpy(state, turned, sizeof state);
    for (n = 0; n < 40; n++)
        CHECK(zuc_draw(state, &all.draws[n]) == 0);
    memcpy(all.crate, bytes, 40);
    memcpy(state, turned, sizeof state);
    CHECK(zuc_mask_crate(state, all.crate, 40, 304, &all.counts[0]) == 0);
    memcpy(all.clean, bytes, 40);
    memcpy(state, turned, sizeof state);
    CHECK(zuc_mask_clean(state, all.clean, 40, 299, &all.counts[1]) == 0);
    return all;
}

/* One state in all its turns: the same words, buffers and counts. */
static void sixteen_turns(void)
{
    uint32_t start[ZUC_STATE_WORDS], turned[ZUC_STATE_WORDS], i;
    struct answers first, other;

    CHECK(zuc256_start(start, bytes, 32, bytes, 23) == 0);
    first = answers_of(start);
    CHECK(memcmp(first.words, first.draws, sizeof first.words) == 0);
    CHECK(first.counts[0] == 11 && first.counts[1] == 10);
    for (i = 1; i < 16; i++) {
        turn(turned, start, i);
        other = answers_of(turned);
        CHECK(memcmp(&first, &other, sizeof first) == 0);
    }
}

/* The same of tags: in steps, cut at every place, they are the tag at once. */
static void sixteen_tag_turns(size_t width)
{
    uint64_t start[ZUC_TAG_WORDS], state[ZUC_TAG_WORDS], turned[ZUC_TAG_WORDS];
    uint64_t whole[2], tag[2];
    uint32_t i;
    size_t len;

    tag_started(start, width);
    if (width == 0)
        CHECK(zuc128_tag(bytes, 16, bytes, 16, bytes, 40, 320, whole) == 0);
    else
        CHECK(zuc256_tag(width, bytes, 32, bytes, 23, bytes, 40, 320, whole) == 0);
    for (i = 0; i < 16; i++)
        for (len = 0; len <= 40; len++) {
            turn_tag(state, start, i);
            CHECK(update(width != 0, state, bytes, len) == 0);
            turn_tag(turned, state, (i * i + 5) % 16); /* and turned again on the way */
            CHECK(update(width != 0, turned, bytes + len, 40 - len) == 0);
            CHECK(finish(width != 0, turned, 0, 0, tag) == 0);
            CHECK(memcmp(tag, whole, sizeof tag) == 0);
        }
}

int main(void)
{
    static const size_t widths[4] = {0, 4, 8, 16};
    size_t i;

    single_draws();
    many_draws();
    refused_indices();
    sixteen_turns();
    for (i = 0; i < 4; i++) {
        updates(widths[i]);
        refused_tag_indices(widths[i]);
        sixteen_tag_turns(widths[i]);
    }
    printf("turns.c: %d checks, %d failed\n", checks, failures);
    return failures != 0;
}
