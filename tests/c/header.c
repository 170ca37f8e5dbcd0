/*
 * Calls every function of include/zuc.h against the library: published vectors,
 * every refusal with what it leaves, and null pointers with length 0.
 * Prints what differs; exits with 1 if anything does.
 */
#include "check.h"
#include "zuc.h"

#include <string.h>

static const uint8_t ones[32] = {
    0xff, 0xff, 0xff, 0xff, 0xff, 0xff, 0xff, 0xff, 0xff, 0xff, 0xff,
    0xff, 0xff, 0xff, 0xff, 0xff, 0xff, 0xff, 0xff, 0xff, 0xff, 0xff,
    0xff, 0xff, 0xff, 0xff, 0xff, 0xff, 0xff, 0xff, 0xff, 0xff,
};
static const uint8_t zeros[50];
static const uint32_t no_state[ZUC_STATE_WORDS];
static const uint64_t no_tag_state[ZUC_TAG_WORDS];

static int all_zero(const uint64_t tag[2])
{
    return tag[0] == 0 && tag[1] == 0;
}

/* ZUC test sets 1 and 3; ZUC-256 with key and IV all zeros and all ones. */
static void published_words(void)
{
    static const uint8_t key[16] = {
        0x3d, 0x4c, 0x4b, 0xe9, 0x6a, 0x82, 0xfd, 0xae,
        0xb5, 0x8f, 0x64, 0x1d, 0xb1, 0x7b, 0x45, 0x5b,
    };
    static const uint8_t iv[16] = {
        0x84, 0x31, 0x9a, 0xa8, 0xde, 0x69, 0x15, 0xca,
        0x1f, 0x6b, 0xda, 0x6b, 0xfb, 0xd8, 0xc7, 0x66,
    };
    uint32_t state[ZUC_STATE_WORDS], word, out[3];

    CHECK(zuc128_start(state, zeros, 16, zeros, 16) == 0);
    CHECK(zuc_draw(state, &word) == 0 && word == 0x27bede74);
    CHECK(zuc_draw(state, &word) == 0 && word == 0x018082da);

    CHECK(zuc128_start(state, key, 16, iv, 16) == 0);
    CHECK(zuc_words(state, out, 2) == 0);
    CHECK(out[0] == 0x14f1c272 && out[1] == 0x3279c419);

    CHECK(zuc256_start(state, zeros, 32, zeros, 23) == 0);
    CHECK(zuc_words(state, out, 3) == 0);
    CHECK(out[0] == 0x58d03ad6 && out[1] == 0x2e032ce2 && out[2] == 0xdafc683a);

    CHECK(zuc256_start(state, ones, 32, ones, 23) == 0);
    CHECK(zuc_draw(state, &word) == 0 && word == 0x3356cbae);
    CHECK(zuc_words(state, out, 2) == 0);
    CHECK(out[0] == 0xd1a1c18b && out[1] == 0x6baa4ffe);
}

/* 128-EEA3 test set 1, in both modes. */
static void published_masks(void)
{
    static const uint8_t key[16] = {
        0x17, 0x3d, 0x14, 0xba, 0x50, 0x03, 0x73, 0x1d,
        0x7a, 0x60, 0x04, 0x94, 0x70, 0xf0, 0x0a, 0x29,
    };
    static const uint8_t plain[25] = {
        0x6c, 0xf6, 0x53, 0x40, 0x73, 0x55, 0x52, 0xab, 0x0c,
        0x97, 0x52, 0xfa, 0x6f, 0x90, 0x25, 0xfe, 0x0b, 0xd6,
        0x75, 0xd9, 0x00, 0x58, 0x75, 0xb2, 0x00,
    };
    static const uint8_t masked[25] = {
        0xa6, 0xc8, 0x5f, 0xc6, 0x6a, 0xfb, 0x85, 0x33, 0xaa,
        0xfc, 0x25, 0x18, 0xdf, 0xe7, 0x84, 0x94, 0x0e, 0xe1,
        0xe4, 0xb0, 0x30, 0x23, 0x8c, 0xc8, 0x00,
    };
    uint32_t state[ZUC_STATE_WORDS];
    uint8_t buf[25];
    size_t count;

    memcpy(buf, plain, sizeof buf);
    CHECK(eea3_start(state, 0x66035492, 0xf, 0, key, 16) == 0);
    CHECK(zuc_mask_crate(state, buf, 25, 193, &count) == 0 && count == 7);
    CHECK(memcmp(buf, masked, sizeof buf) == 0);

    CHECK(eea3_start(state, 0x66035492, 0xf, 0, key, 16) == 0);
    CHECK(zuc_mask_clean(state, buf, 25, 193, &count) == 0 && count == 7);
    CHECK(memcmp(buf, plain, sizeof buf) == 0);
}

/* The same in one call, plain and strict. */
static void masks_at_once(void)
{
    static const uint8_t key[16] = {
        0x17, 0x3d, 0x14, 0xba, 0x50, 0x03, 0x73, 0x1d,
        0x7a, 0x60, 0x04, 0x94, 0x70, 0xf0, 0x0a, 0x29,
    };
    uint8_t buf[4] = {0x6c, 0xf6, 0x53, 0x40};
    size_t drawn;

    CHECK(eea3_mask_crate(0x66035492, 0xf, 0, key, 16, buf, 4, 32, &drawn) == 0 && drawn == 2);
    CHECK(memcmp(buf, "\xa6\xc8\x5f\xc6", 4) == 0);
    CHECK(eea3_mask_clean(0x66035492, 0xf, 0, key, 16, buf, 4, 32, &drawn) == 0 && drawn == 1);
    CHECK(memcmp(buf, "\x6c\xf6\x53\x40", 4) == 0);
    CHECK(eea3_mask_crate_strict(0x66035492, 0xf, 0, key, 16, buf, 4, 32, &drawn) == 0);
    CHECK(drawn == 2 && memcmp(buf, "\xa6\xc8\x5f\xc6", 4) == 0);
    CHECK(eea3_mask_clean_strict(0x66035492, 0xf, 0, key, 16, buf, 4, 32, &drawn) == 0);
    CHECK(drawn == 1 && memcmp(buf, "\x6c\xf6\x53\x40", 4) == 0);
    /* 47 is taken for 15, and refused by the strict forms */
    CHECK(eea3_mask_clean(0x66035492, 47, 0, key, 16, buf, 4, 32, &drawn) == 0);
    CHECK(memcmp(buf, "\xa6\xc8\x5f\xc6", 4) == 0);
    CHECK(eea3_mask_clean_strict(0x66035492, 47, 0, key, 16, buf, 4, 32, &drawn)
          == ZUC_BAD_FIELD);
    CHECK(drawn == 0 && memcmp(buf, "\xa6\xc8\x5f\xc6", 4) == 0);
    CHECK(eea3_mask_crate_strict(0x66035492, 15, 2, key, 15, buf, 4, 33, &drawn) == ZUC_BAD_KEY);
    CHECK(eea3_mask_crate_strict(0x66035492, 15, 2, key, 16, buf, 4, 33, &drawn)
          == ZUC_BAD_FIELD);
    CHECK(eea3_mask_crate_strict(0x66035492, 15, 1, key, 16, buf, 4, 33, &drawn) == ZUC_BAD_BITS);
}

/*
 * The byte at a bit length that is a multiple of 8 is masked or zero; either
 * way four bytes draw two words, so that the third comes next.
 */
static void past_the_bit_length(void)
{
    uint32_t start[ZUC_STATE_WORDS], state[ZUC_STATE_WORDS], words[3], word;
    uint8_t crate[4] = {0}, clean[4] = {0};
    size_t count;

    CHECK(zuc128_start(start, zeros, 16, zeros, 16) == 0);
    memcpy(state, start, sizeof state);
    CHECK(zuc_words(state, words, 3) == 0);

    memcpy(state, start, sizeof state);
    CHECK(zuc_mask_crate(state, crate, 4, 8, &count) == 0 && count == 2);
    CHECK(memcmp(crate, "\x27\xbe\x00\x00", 4) == 0);
    CHECK(zuc_draw(state, &word) == 0 && word == words[2]);

    memcpy(state, start, sizeof state);
    CHECK(zuc_mask_clean(state, clean, 4, 8, &count) == 0 && count == 1);
    CHECK(memcmp(clean, "\x27\x00\x00\x00", 4) == 0);
    CHECK(zuc_draw(state, &word) == 0 && word == words[1]);
}

/* 128-EIA3 test sets 1 and 2; the paper's tags over 400 zero bits. */
static void published_tags(void)
{
    static const uint8_t key[16] = {
        0x47, 0x05, 0x41, 0x25, 0x56, 0x1e, 0xb2, 0xdd,
        0xa9, 0x40, 0x59, 0xda, 0x05, 0x09, 0x78, 0x50,
    };
    static const struct {
        size_t width;
        uint64_t tag[2];
    } wide[3] = {
        {4, {0x9b972a74, 0}},
        {8, {0x673e54990034d38c, 0}},
        {16, {0xd85e54bbcb960096, 0x7084c952a1654b26}},
    };
    uint64_t state[ZUC_TAG_WORDS], tag[2];
    size_t i;

    CHECK(eia3_tag(0, 0, 0, zeros, 16, zeros, 1, 1, tag) == 0);
    CHECK(tag[0] == 0xc8a9595e && tag[1] == 0);
    CHECK(eia3_tag(0x561eb2dd, 0x14, 0, key, 16, zeros, 12, 90, tag) == 0);
    CHECK(tag[0] == 0x6719a088 && tag[1] == 0);
    CHECK(eia3_tag_strict(0x561eb2dd, 0x14, 0, key, 16, zeros, 12, 90, tag) == 0);
    CHECK(tag[0] == 0x6719a088 && tag[1] == 0);
    CHECK(eia3_tag_strict(0x561eb2dd, 0x34, 0, key, 16, zeros, 12, 90, tag) == ZUC_BAD_FIELD);
    CHECK(all_zero(tag));
    CHECK(eia3_tag_start_strict(state, 0x561eb2dd, 0x14, 0, key, 16) == 0);
    CHECK(zuc128_tag_finish(state, zeros, 12, 90, tag) == 0);
    CHECK(tag[0] == 0x6719a088 && tag[1] == 0);

    CHECK(eia3_tag_start(state, 0x561eb2dd, 0x14, 0, key, 16) == 0);
    CHECK(zuc128_tag_update(state, zeros, 7) == 0);
    CHECK(zuc128_tag_update(state, zeros, 1) == 0);
    CHECK(zuc128_tag_finish(state, zeros, 4, 26, tag) == 0);
    CHECK(tag[0] == 0x6719a088 && tag[1] == 0);

    /* EIA3 with COUNT, BEARER and DIRECTION all 0 is ZUC-128 with an IV of zeros */
    CHECK(zuc128_tag(zeros, 16, zeros, 16, zeros, 1, 1, tag) == 0);
    CHECK(tag[0] == 0xc8a9595e && tag[1] == 0);
    CHECK(zuc128_tag_start(state, zeros, 16, zeros, 16) == 0);
    CHECK(zuc128_tag_finish(state, zeros, 1, 1, tag) == 0);
    CHECK(tag[0] == 0xc8a9595e && tag[1] == 0);

    for (i = 0; i < 3; i++) {
        size_t width = wide[i].width;

        CHECK(zuc256_tag(width, zeros, 32, zeros, 23, zeros, 50, 400, tag) == 0);
        CHECK(memcmp(tag, wide[i].tag, sizeof tag) == 0);
        CHECK(zuc256_tag_start(state, width, zeros, 32, zeros, 23) == 0);
        CHECK(zuc256_tag_update(state, zeros, 49) == 0);
        CHECK(zuc256_tag_finish(state, zeros, 1, 8, tag) == 0);
        CHECK(memcmp(tag, wide[i].tag, sizeof tag) == 0);
        /* a tag closes once */
        CHECK(memcmp(state, no_tag_state, sizeof state) == 0);
        CHECK(zuc256_tag_finish(state, zeros, 1, 8, tag) == ZUC_BAD_STATE);
        CHECK(all_zero(tag));
    }
}

/* Wrong lengths: the lowest number, and a state of zeros. */
static void refused_starts(void)
{
    uint32_t state[ZUC_STATE_WORDS];
    uint64_t tag_state[ZUC_TAG_WORDS];

    memset(state, 7, sizeof state);
    CHECK(zuc128_start(state, zeros, 15, zeros, 17) == ZUC_BAD_KEY);
    CHECK(memcmp(state, no_state, sizeof state) == 0);
    memset(state, 7, sizeof state);
    CHECK(zuc128_start(state, zeros, 16, zeros, 17) == ZUC_BAD_IV);
    CHECK(memcmp(state, no_state, sizeof state) == 0);
    memset(state, 7, sizeof state);
    CHECK(zuc256_start(state, zeros, 16, zeros, 16) == ZUC_BAD_KEY);
    CHECK(memcmp(state, no_state, sizeof state) == 0);
    memset(state, 7, sizeof state);
    CHECK(zuc256_start(state, zeros, 32, zeros, 25) == ZUC_BAD_IV);
    CHECK(memcmp(state, no_state, sizeof state) == 0);
    memset(state, 7, sizeof state);
    CHECK(eea3_start(state, 1, 2, 1, zeros, 17) == ZUC_BAD_KEY);
    CHECK(memcmp(state, no_state, sizeof state) == 0);

    memset(state, 7, sizeof state);
    CHECK(eea3_start_strict(state, 1, 32, 1, zeros, 17) == ZUC_BAD_KEY);
    CHECK(memcmp(state, no_state, sizeof state) == 0);
    memset(state, 7, sizeof state);
    CHECK(eea3_start_strict(state, 1, 31, 2, zeros, 16) == ZUC_BAD_FIELD);
    CHECK(memcmp(state, no_state, sizeof state) == 0);

    memset(tag_state, 7, sizeof tag_state);
    CHECK(eia3_tag_start_strict(tag_state, 1, 32, 0, zeros, 16) == ZUC_BAD_FIELD);
    CHECK(memcmp(tag_state, no_tag_state, sizeof tag_state) == 0);
    memset(tag_state, 7, sizeof tag_state);
    CHECK(zuc128_tag_start(tag_state, zeros, 0, zeros, 0) == ZUC_BAD_KEY);
    CHECK(memcmp(tag_state, no_tag_state, sizeof tag_state) == 0);
    memset(tag_state, 7, sizeof tag_state);
    CHECK(zuc128_tag_start(tag_state, zeros, 16, zeros, 0) == ZUC_BAD_IV);
    CHECK(memcmp(tag_state, no_tag_state, sizeof tag_state) == 0);
    memset(tag_state, 7, sizeof tag_state);
    CHECK(eia3_tag_start(tag_state, 1, 2, 1, zeros, 32) == ZUC_BAD_KEY);
    CHECK(memcmp(tag_state, no_tag_state, sizeof tag_state) == 0);
    memset(tag_state, 7, sizeof tag_state);
    CHECK(zuc256_tag_start(tag_state, 5, zeros, 0, zeros, 0) == ZUC_BAD_WIDTH);
    CHECK(memcmp(tag_state, no_tag_state, sizeof tag_state) == 0);
    memset(tag_state, 7, sizeof tag_state);
    CHECK(zuc256_tag_start(tag_state, 8, zeros, 0, zeros, 0) == ZUC_BAD_KEY);
    CHECK(memcmp(tag_state, no_tag_state, sizeof tag_state) == 0);
    memset(tag_state, 7, sizeof tag_state);
    CHECK(zuc256_tag_start(tag_state, 8, zeros, 32, zeros, 24) == ZUC_BAD_IV);
    CHECK(memcmp(tag_state, no_tag_state, sizeof tag_state) == 0);
}

/* A malformed generator, and a bit length past the end: all stays as it came. */
static void refused_generators(void)
{
    static const uint8_t five[5] = {1, 2, 3, 4, 5};
    uint32_t state[ZUC_STATE_WORDS], before[ZUC_STATE_WORDS];
    uint32_t word = 7, out[2] = {7, 7};
    uint8_t buf[5];
    size_t count = 7;

    memcpy(buf, five, sizeof buf);
    memset(state, 0xff, sizeof state);
    memcpy(before, state, sizeof state);
    CHECK(zuc_draw(state, &word) == ZUC_BAD_STATE && word == 0);
    CHECK(zuc_words(state, out, 2) == ZUC_BAD_STATE);
    CHECK(out[0] == 7 && out[1] == 7);
    CHECK(zuc_mask_crate(state, buf, 5, 41, &count) == ZUC_BAD_STATE);
    CHECK(count == 0);
    count = 7;
    CHECK(zuc_mask_clean(state, buf, 5, 40, &count) == ZUC_BAD_STATE);
    CHECK(count == 0 && memcmp(buf, five, sizeof buf) == 0);
    CHECK(memcmp(state, before, sizeof state) == 0);

    CHECK(zuc128_start(state, zeros, 16, zeros, 16) == 0);
    memcpy(before, state, sizeof state);
    count = 7;
    CHECK(zuc_mask_crate(state, buf, 5, 41, &count) == ZUC_BAD_BITS);
    CHECK(count == 0);
    count = 7;
    CHECK(zuc_mask_clean(state, buf, 5, SIZE_MAX, &count) == ZUC_BAD_BITS);
    CHECK(count == 0 && memcmp(buf, five, sizeof buf) == 0);
    CHECK(memcmp(state, before, sizeof state) == 0);
}

/* The same of tags; and a finish that was refused can be asked again. */
static void refused_tags(void)
{
    uint64_t state[ZUC_TAG_WORDS], before[ZUC_TAG_WORDS], tag[2] = {7, 7};

    memset(state, 0xff, sizeof state);
    memcpy(before, state, sizeof state);
    CHECK(zuc128_tag_update(state, zeros, 3) == ZUC_BAD_STATE);
    CHECK(zuc256_tag_update(state, zeros, 0) == ZUC_BAD_STATE);
    CHECK(zuc128_tag_finish(state, zeros, 1, 9, tag) == ZUC_BAD_STATE);
    CHECK(all_zero(tag));
    CHECK(memcmp(state, before, sizeof state) == 0);

    CHECK(zuc256_tag_start(state, 16, zeros, 32, zeros, 23) == 0);
    memcpy(before, state, sizeof state);
    CHECK(zuc128_tag_update(state, zeros, 3) == ZUC_BAD_STATE);
    tag[0] = tag[1] = 7;
    CHECK(zuc256_tag_finish(state, zeros, 3, 25, tag) == ZUC_BAD_BITS);
    CHECK(all_zero(tag));
    CHECK(memcmp(state, before, sizeof state) == 0);
    CHECK(zuc256_tag_finish(state, zeros, 3, 24, tag) == 0);
    CHECK(!all_zero(tag));

    CHECK(zuc128_tag_start(state, zeros, 16, zeros, 16) == 0);
    memcpy(before, state, sizeof state);
    tag[0] = tag[1] = 7;
    CHECK(zuc128_tag_finish(state, zeros, 3, 25, tag) == ZUC_BAD_BITS);
    CHECK(all_zero(tag));
    CHECK(memcmp(state, before, sizeof state) == 0);

    tag[0] = tag[1] = 7;
    CHECK(zuc128_tag(zeros, 1, zeros, 1, zeros, 1, 9, tag) == ZUC_BAD_KEY);
    CHECK(zuc128_tag(zeros, 16, zeros, 1, zeros, 1, 9, tag) == ZUC_BAD_IV);
    CHECK(zuc128_tag(zeros, 16, zeros, 16, zeros, 1, 9, tag) == ZUC_BAD_BITS);
    CHECK(all_zero(tag));
    tag[0] = tag[1] = 7;
    CHECK(eia3_tag(1, 2, 1, zeros, 1, zeros, 1, 9, tag) == ZUC_BAD_KEY);
    CHECK(eia3_tag(1, 2, 1, zeros, 16, zeros, 1, 9, tag) == ZUC_BAD_BITS);
    CHECK(all_zero(tag));
    tag[0] = tag[1] = 7;
    CHECK(zuc256_tag(0, zeros, 1, zeros, 1, zeros, 1, 9, tag) == ZUC_BAD_WIDTH);
    CHECK(zuc256_tag(4, zeros, 1, zeros, 1, zeros, 1, 9, tag) == ZUC_BAD_KEY);
    CHECK(zuc256_tag(4, zeros, 32, zeros, 1, zeros, 1, 9, tag) == ZUC_BAD_IV);
    CHECK(zuc256_tag(4, zeros, 32, zeros, 23, zeros, 1, 9, tag) == ZUC_BAD_BITS);
    CHECK(all_zero(tag));
}

/* A worked frame of docs/FRAME.md, 13 bits, written, read, and refused; frame.c has the rest. */
static void sealed(void)
{
    static const uint8_t ck[16] = {
        0x17, 0x3d, 0x14, 0xba, 0x50, 0x03, 0x73, 0x1d,
        0x7a, 0x60, 0x04, 0x94, 0x70, 0xf0, 0x0a, 0x29,
    };
    static const uint8_t ik[16] = {
        0x47, 0x05, 0x41, 0x25, 0x56, 0x1e, 0xb2, 0xdd,
        0xa9, 0x40, 0x59, 0xda, 0x05, 0x09, 0x78, 0x50,
    };
    static const uint8_t whole[19] = {
        0x01, 0x00, 0x10, 0x56, 0x1e, 0xb2, 0xdd, 0x14, 0x01, 0x00,
        0x00, 0x00, 0x0d, 0xfe, 0xe0, 0x38, 0x18, 0xcf, 0x61,
    };
    uint8_t frame[19] = {0}, before[19];
    uint32_t fields[4];

    frame[13] = 0xa5;
    frame[14] = 0x58;
    CHECK(zuc_frame_write(ck, 16, ik, 16, 0x561eb2dd, 20, 1, 13, frame, 19) == 0);
    CHECK(memcmp(frame, whole, sizeof frame) == 0);
    CHECK(zuc_frame_read(ck, 16, ik, 16, frame, 19, fields) == 0);
    CHECK(fields[0] == 0x561eb2dd && fields[1] == 20 && fields[2] == 1 && fields[3] == 13);
    CHECK(frame[13] == 0xa5 && frame[14] == 0x58);
    /* the tag is of the masked body */
    memcpy(before, frame, sizeof frame);
    CHECK(zuc_frame_read(ck, 16, ik, 16, frame, 19, fields) == ZUC_BAD_TAG);
    CHECK(memcmp(frame, before, sizeof frame) == 0);
    CHECK((fields[0] | fields[1] | fields[2] | fields[3]) == 0);
}

/* Links are compared whole: a padding byte is nobody's. */
static int link_is(const struct zuc_link *link, uint32_t highest, uint64_t accepted)
{
    return link->highest == highest && link->accepted == accepted;
}

/* The guard: a window that moves, each COUNT once, and nothing but its own link. */
static void guarded(void)
{
    struct zuc_link links[3] = {{0, 0}, {0, 0}, {7, 0x81}};

    CHECK(sizeof links[0] == 16);
    /* a fresh link takes COUNT 0, once */
    CHECK(zuc_guard_accept(links, 3, 1, 0) == 0 && link_is(&links[1], 0, 1));
    CHECK(zuc_guard_accept(links, 3, 1, 0) == ZUC_BAD_REUSE && link_is(&links[1], 0, 1));
    /* up by 63: COUNT 0 is still known; its neighbours inside pass once */
    CHECK(zuc_guard_accept(links, 3, 1, 63) == 0);
    CHECK(link_is(&links[1], 63, 0x8000000000000001));
    CHECK(zuc_guard_accept(links, 3, 1, 0) == ZUC_BAD_REUSE);
    CHECK(zuc_guard_accept(links, 3, 1, 1) == 0);
    CHECK(zuc_guard_accept(links, 3, 1, 1) == ZUC_BAD_REUSE);
    CHECK(link_is(&links[1], 63, 0xc000000000000001));
    /* one more: COUNT 0 has left the window, and is too old before it is used */
    CHECK(zuc_guard_accept(links, 3, 1, 64) == 0);
    CHECK(link_is(&links[1], 64, 0x8000000000000003));
    CHECK(zuc_guard_accept(links, 3, 1, 0) == ZUC_BAD_AGE);
    CHECK(zuc_guard_accept(links, 3, 1, 1) == ZUC_BAD_REUSE);
    /* by 64 and more: nothing of the old window stays */
    CHECK(zuc_guard_accept(links, 3, 1, 128) == 0 && link_is(&links[1], 128, 1));
    CHECK(zuc_guard_accept(links, 3, 1, 4294967295u) == 0);
    CHECK(link_is(&links[1], 4294967295u, 1));
    /* COUNT does not wrap */
    CHECK(zuc_guard_accept(links, 3, 1, 0) == ZUC_BAD_AGE);
    CHECK(zuc_guard_accept(links, 3, 1, 4294967231u) == ZUC_BAD_AGE);
    CHECK(zuc_guard_accept(links, 3, 1, 4294967232u) == 0);
    CHECK(zuc_guard_accept(links, 3, 1, 4294967295u) == ZUC_BAD_REUSE);
    CHECK(link_is(&links[1], 4294967295u, 0x8000000000000001));
    /* the neighbours are as they were, and no other link is there */
    CHECK(link_is(&links[0], 0, 0) && link_is(&links[2], 7, 0x81));
    CHECK(zuc_guard_accept(links, 3, 3, 0) == ZUC_BAD_LINK);
    CHECK(zuc_guard_accept(links, 3, SIZE_MAX, 0) == ZUC_BAD_LINK);
    CHECK(zuc_guard_rekey(links, 3, 3) == ZUC_BAD_LINK);
    /* a re-keyed link is fresh again */
    CHECK(zuc_guard_rekey(links, 3, 1) == 0 && link_is(&links[1], 0, 0));
    CHECK(zuc_guard_accept(links, 3, 1, 0) == 0);
    CHECK(link_is(&links[0], 0, 0) && link_is(&links[2], 7, 0x81));
    /* bits past `highest` stand for nothing, and an accepted COUNT clears them */
    links[0].accepted = 0xffffffffffffffff;
    CHECK(zuc_guard_accept(links, 3, 0, 0) == ZUC_BAD_REUSE);
    CHECK(link_is(&links[0], 0, 0xffffffffffffffff));
    CHECK(zuc_guard_accept(links, 3, 0, 3) == 0 && link_is(&links[0], 3, 9));
}

/* NULL with length 0 is an empty slice, wherever a pointer has a length. */
static void null_pointers(void)
{
    uint32_t state[ZUC_STATE_WORDS];
    uint64_t tag_state[ZUC_TAG_WORDS], tag[2], other[2];
    uint32_t fields[4];
    size_t count;

    CHECK(zuc128_start(state, NULL, 0, NULL, 0) == ZUC_BAD_KEY);
    CHECK(zuc128_start(state, zeros, 16, NULL, 0) == ZUC_BAD_IV);
    CHECK(zuc256_start(state, NULL, 0, NULL, 0) == ZUC_BAD_KEY);
    CHECK(eea3_start(state, 1, 2, 1, NULL, 0) == ZUC_BAD_KEY);
    CHECK(zuc128_start(state, zeros, 16, zeros, 16) == 0);
    CHECK(zuc_words(state, NULL, 0) == 0);
    CHECK(zuc_mask_crate(state, NULL, 0, 0, &count) == 0 && count == 1);
    CHECK(zuc_mask_clean(state, NULL, 0, 0, &count) == 0 && count == 0);
    CHECK(zuc_mask_clean(state, NULL, 0, 1, &count) == ZUC_BAD_BITS);
    CHECK(eea3_start_strict(state, 1, 2, 1, NULL, 0) == ZUC_BAD_KEY);
    CHECK(eea3_mask_crate(1, 2, 1, zeros, 16, NULL, 0, 0, &count) == 0 && count == 1);
    CHECK(eea3_mask_clean(1, 2, 1, zeros, 16, NULL, 0, 0, &count) == 0 && count == 0);
    CHECK(eea3_mask_crate_strict(1, 2, 1, NULL, 0, NULL, 0, 0, &count) == ZUC_BAD_KEY);
    CHECK(eea3_mask_clean_strict(1, 2, 1, zeros, 16, NULL, 0, 1, &count) == ZUC_BAD_BITS);

    CHECK(zuc128_tag_start(tag_state, NULL, 0, NULL, 0) == ZUC_BAD_KEY);
    CHECK(eia3_tag_start(tag_state, 1, 2, 1, NULL, 0) == ZUC_BAD_KEY);
    CHECK(eia3_tag_start_strict(tag_state, 1, 2, 1, NULL, 0) == ZUC_BAD_KEY);
    CHECK(eia3_tag_strict(1, 2, 1, NULL, 0, NULL, 0, 0, tag) == ZUC_BAD_KEY);
    CHECK(zuc256_tag_start(tag_state, 4, zeros, 32, NULL, 0) == ZUC_BAD_IV);
    CHECK(zuc128_tag_start(tag_state, zeros, 16, zeros, 16) == 0);
    CHECK(zuc128_tag_update(tag_state, NULL, 0) == 0);
    CHECK(zuc128_tag_finish(tag_state, NULL, 0, 0, tag) == 0);
    CHECK(zuc128_tag(zeros, 16, zeros, 16, NULL, 0, 0, other) == 0);
    CHECK(memcmp(tag, other, sizeof tag) == 0);
    CHECK(eia3_tag(0, 0, 0, zeros, 16, NULL, 0, 0, other) == 0);
    CHECK(memcmp(tag, other, sizeof tag) == 0);
    CHECK(zuc256_tag_start(tag_state, 8, zeros, 32, zeros, 23) == 0);
    CHECK(zuc256_tag_update(tag_state, NULL, 0) == 0);
    CHECK(zuc256_tag_finish(tag_state, NULL, 0, 0, tag) == 0);
    CHECK(zuc256_tag(8, zeros, 32, zeros, 23, NULL, 0, 0, other) == 0);
    CHECK(memcmp(tag, other, sizeof tag) == 0);
    CHECK(zuc256_tag(8, NULL, 0, NULL, 0, NULL, 0, 1, tag) == ZUC_BAD_KEY);

    CHECK(zuc_frame_write(NULL, 0, zeros, 16, 1, 2, 1, 0, NULL, 0) == ZUC_BAD_KEY);
    CHECK(zuc_frame_write(zeros, 16, zeros, 16, 1, 2, 1, 0, NULL, 0) == ZUC_BAD_FRAME);
    CHECK(zuc_frame_read(zeros, 16, NULL, 0, NULL, 0, fields) == ZUC_BAD_KEY);
    CHECK(zuc_frame_read(zeros, 16, zeros, 16, NULL, 0, fields) == ZUC_BAD_FRAME);

    CHECK(zuc_guard_accept(NULL, 0, 0, 1) == ZUC_BAD_LINK);
    CHECK(zuc_guard_rekey(NULL, 0, 0) == ZUC_BAD_LINK);
}

int main(void)
{
    published_words();
    published_masks();
    masks_at_once();
    past_the_bit_length();
    published_tags();
    refused_starts();
    refused_generators();
    refused_tags();
    sealed();
    guarded();
    null_pointers();
    printf("header.c: %d checks, %d failed\n", checks, failures);
    return failures != 0;
}
