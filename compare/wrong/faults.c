/*
 * Functions of zuc.h with one fault each, made of the right ones, which the
 * linker knows as right_NAME. FAULT picks one; compare/wrong/try tries them all
 * and prints the line that says what a fault is.
 */
#include "zuc.h"

#include <string.h>

/* Where the start index and the count stand. */
#define INDEX 18
#define COUNT 19
#define TAG_INDEX 9
#define TAG_COUNT 10

#define LIMIT ((uint32_t)ZUC_WORDS_PER_START)

#define RIGHT(name) extern __typeof__(name) right_##name
RIGHT(zuc128_start);
RIGHT(zuc256_start);
RIGHT(zuc_draw);
RIGHT(zuc_words);
RIGHT(zuc_mask_crate);
RIGHT(zuc_mask_clean);
RIGHT(zuc256_tag_start);
RIGHT(zuc128_tag_update);
RIGHT(zuc256_tag_update);
RIGHT(zuc128_tag_finish);
RIGHT(zuc256_tag_finish);
RIGHT(zuc128_tag);
RIGHT(eia3_tag);
RIGHT(zuc256_tag);
RIGHT(eea3_start_strict);
RIGHT(eia3_tag_start_strict);
RIGHT(eia3_tag_strict);
RIGHT(eea3_mask_crate);
RIGHT(eea3_mask_clean);
RIGHT(eea3_mask_crate_strict);
RIGHT(eea3_mask_clean_strict);
RIGHT(zuc_frame_write);
RIGHT(zuc_frame_read);
RIGHT(zuc_guard_accept);
RIGHT(zuc_guard_rekey);

/* So many words from a state, in place of what a mask drew. */
static inline void redraw(uint32_t state[ZUC_STATE_WORDS], const uint32_t before[ZUC_STATE_WORDS],
                          size_t words, size_t *count)
{
    uint32_t word;
    memcpy(state, before, sizeof(uint32_t[ZUC_STATE_WORDS]));
    for (*count = 0; *count < words; ++*count)
        zuc_draw(state, &word);
}

/* The same cells from another index. */
static inline void turn(uint32_t state[ZUC_STATE_WORDS], uint32_t index)
{
    uint32_t before[ZUC_STATE_WORDS];
    memcpy(before, state, sizeof before);
    for (uint32_t j = 0; j < 16; j++)
        state[(index + j) % 16] = before[(before[INDEX] + j) % 16];
    state[INDEX] = index;
}

#if FAULT == 1 || FAULT == 3 || FAULT == 17 || FAULT == 36 || FAULT == 38 || FAULT == 45 || FAULT == 46 \
    || FAULT == 52 || FAULT == 65
uint32_t zuc_mask_crate(uint32_t state[ZUC_STATE_WORDS],
                        uint8_t *buf, size_t len, size_t bits, size_t *count)
{
    uint32_t before[ZUC_STATE_WORDS];
    size_t count_before = *count;
    memcpy(before, state, sizeof before);
    uint32_t refusal = right_zuc_mask_crate(state, buf, len, bits, count);

    /* fault 1: crate mode clears byte L/8 when L is a multiple of 8 */
    if (FAULT == 1 && refusal == 0 && bits % 8 == 0 && bits / 8 < len)
        buf[bits / 8] = 0;

    /* fault 3: a mask of 4n bytes draws n words */
    if (FAULT == 3 && refusal == 0 && len % 4 == 0)
        redraw(state, before, len / 4, count);

    /* fault 65: crate mode draws ceil(L/32) words */
    if (FAULT == 65 && refusal == 0)
        redraw(state, before, bits / 32 + (bits % 32 != 0), count);

    /* fault 17: a refused mask says nothing of the count */
    if (FAULT == 17 && refusal != 0)
        *count = count_before;

    /* fault 36: a mask raises the index by one too few */
    if (FAULT == 36 && refusal == 0)
        state[INDEX] = (state[INDEX] + 15) % 16;

    /* fault 38: a refusal resets the index */
    if (FAULT == 38 && refusal != 0)
        state[INDEX] = 0;

    /* fault 45: 16 is checked before 5 */
    if (FAULT == 45 && refusal == ZUC_BAD_BITS && len / 4 + 1 > LIMIT - state[COUNT])
        return ZUC_SPENT;

    /* fault 46: a mask raises the count by n/4 in place of what it drew */
    if (FAULT == 46 && refusal == 0)
        state[COUNT] = before[COUNT] + (uint32_t)(len / 4);

    /* fault 52: a spent mask resets the index */
    if (FAULT == 52 && refusal == ZUC_SPENT)
        state[INDEX] = 0;
    return refusal;
}
#endif

#if FAULT == 2 || FAULT == 4 || FAULT == 37 || FAULT == 47 || (FAULT > 60 && FAULT < 65) || FAULT == 66
uint32_t zuc_mask_clean(uint32_t state[ZUC_STATE_WORDS],
                        uint8_t *buf, size_t len, size_t bits, size_t *count)
{
    /* fault 2: clean mode leaves byte L/8 when L is a multiple of 8 */
    if (FAULT == 2)
        return zuc_mask_crate(state, buf, len, bits, count);

    /* fault 4: the right buffer and state, a made-up count */
    uint32_t before[ZUC_STATE_WORDS], drawn_before = state[COUNT];
    memcpy(before, state, sizeof before);

    /* fault 66: 16 by floor(n/4) + 1 words, where clean mode draws fewer */
    if (FAULT == 66 && bits <= 8 * len && drawn_before <= LIMIT && len / 4 + 1 > LIMIT - drawn_before) {
        *count = 0;
        return ZUC_SPENT;
    }
    uint32_t refusal = right_zuc_mask_clean(state, buf, len, bits, count);

    /* fault 61: clean mode draws floor(n/4) + 1 words, as before request 2026-02 */
    if (FAULT == 61 && refusal == 0)
        redraw(state, before, len / 4 + 1, count);

    /* fault 62: clean mode draws ceil(n/4) words */
    if (FAULT == 62 && refusal == 0)
        redraw(state, before, (len + 3) / 4, count);

    /* fault 63: clean mode draws floor(L/32) words */
    if (FAULT == 63 && refusal == 0)
        redraw(state, before, bits / 32, count);

    /* fault 64: clean mode draws one word for L = 0 */
    if (FAULT == 64 && refusal == 0 && bits == 0)
        redraw(state, before, 1, count);
    if (FAULT == 4 && refusal == 0)
        *count = (len + 3) / 4;

    /* fault 37: a mask leaves the right cells, but from index 0 */
    if (FAULT == 37 && refusal == 0)
        turn(state, 0);

    /* fault 47: a mask does not raise the count */
    if (FAULT == 47 && refusal == 0)
        state[COUNT] = drawn_before;
    return refusal;
}
#endif

#if FAULT == 5
/* fault 5: EIA3 takes a fresh last word when the length is a multiple of 32 */
uint32_t zuc128_tag(const uint8_t *key, size_t key_len, const uint8_t *iv, size_t iv_len,
                    const uint8_t *msg, size_t len, size_t bits, uint64_t tag[2])
{
    uint32_t state[ZUC_STATE_WORDS], word = 0, last = 0;
    uint32_t refusal = right_zuc128_tag(key, key_len, iv, iv_len, msg, len, bits, tag);
    if (refusal == 0 && bits % 32 == 0) {
        zuc128_start(state, key, key_len, iv, iv_len);
        for (size_t i = 0; i < bits / 32 + 3; i++) {
            last = word;
            zuc_draw(state, &word);
        }
        tag[0] ^= last ^ word;
    }
    return refusal;
}
#endif

#if FAULT == 58
/* fault 58: a tag at once goes one bit past the limit */
uint32_t eia3_tag(uint32_t count, uint8_t bearer, uint8_t direction, const uint8_t *key,
                  size_t key_len, const uint8_t *msg, size_t len, size_t bits, uint64_t tag[2])
{
    uint32_t refusal = right_eia3_tag(count, bearer, direction, key, key_len, msg, len, bits, tag);
    return refusal == ZUC_SPENT && bits == ((size_t)1 << 32) + 1 ? 0 : refusal;
}
#endif

#if FAULT == 6 || FAULT == 60
uint32_t zuc128_tag_finish(uint64_t state[ZUC_TAG_WORDS], const uint8_t *tail, size_t len,
                           size_t bits, uint64_t tag[2])
{
    uint32_t refusal = right_zuc128_tag_finish(state, tail, len, bits, tag);

    /* fault 6: the bit length is checked after an update has altered the state */
    if (FAULT == 6 && refusal == ZUC_BAD_BITS)
        zuc128_tag_update(state, tail, len);

    /* fault 60: a finish goes one word past the limit */
    if (FAULT == 60 && refusal == ZUC_SPENT && state[TAG_COUNT] > 0) {
        state[TAG_COUNT]--;
        refusal = right_zuc128_tag_finish(state, tail, len, bits, tag);
        if (refusal != 0)
            state[TAG_COUNT]++;
    }
    return refusal;
}
#endif

#if FAULT == 7
/* fault 7: a refused start leaves the array as it came */
uint32_t zuc256_start(uint32_t state[ZUC_STATE_WORDS], const uint8_t *key, size_t key_len,
                      const uint8_t *iv, size_t iv_len)
{
    uint32_t begun[ZUC_STATE_WORDS];
    uint32_t refusal = right_zuc256_start(begun, key, key_len, iv, iv_len);
    if (refusal == 0)
        memcpy(state, begun, sizeof begun);
    return refusal;
}
#endif

#if FAULT == 8 || FAULT == 18
static void iv_of(uint8_t iv[16], uint32_t count, uint8_t byte4)
{
    for (int i = 0; i < 8; i++)
        iv[i] = i < 4 ? (uint8_t)(count >> (24 - 8 * i)) : 0;
    iv[4] = byte4;
    memcpy(iv + 8, iv, 8);
}
#endif

#if FAULT == 8
/* fault 8: EEA3 keeps two bits of the direction */
uint32_t eea3_start(uint32_t state[ZUC_STATE_WORDS], uint32_t count, uint8_t bearer,
                    uint8_t direction, const uint8_t *key, size_t key_len)
{
    uint8_t iv[16];
    iv_of(iv, count, (uint8_t)(bearer << 3 | (direction & 3) << 2));
    return zuc128_start(state, key, key_len, iv, 16);
}
#endif

#if FAULT == 9
/* fault 9: the IV is looked at before the key */
uint32_t zuc128_start(uint32_t state[ZUC_STATE_WORDS], const uint8_t *key, size_t key_len,
                      const uint8_t *iv, size_t iv_len)
{
    uint32_t refusal = right_zuc128_start(state, key, key_len, iv, iv_len);
    return iv_len != 16 ? ZUC_BAD_IV : refusal;
}
#endif

#if FAULT == 10
/* fault 10: a width is cut to 32 bits */
uint32_t zuc256_tag_start(uint64_t state[ZUC_TAG_WORDS], size_t width, const uint8_t *key,
                          size_t key_len, const uint8_t *iv, size_t iv_len)
{
    return right_zuc256_tag_start(state, (uint32_t)width, key, key_len, iv, iv_len);
}
#endif

#if FAULT == 11 || FAULT == 14 || FAULT == 42 || FAULT == 56
uint32_t zuc256_tag_finish(uint64_t state[ZUC_TAG_WORDS], const uint8_t *tail, size_t len,
                           size_t bits, uint64_t tag[2])
{
    /* fault 11: a bit length is rounded up to bytes modulo 2^64 */
    if (FAULT == 11)
        return right_zuc256_tag_finish(state, tail, len, bits + 7 < 7 ? 0 : bits, tag);

    /* fault 42: a finish takes an index modulo 16 */
    if (FAULT == 42) {
        state[TAG_INDEX] %= 16;
        return right_zuc256_tag_finish(state, tail, len, bits, tag);
    }

    /* fault 56: a finish at the limit is refused, even if it draws no fresh word */
    if (FAULT == 56) {
        uint64_t at = state[TAG_COUNT];
        state[TAG_COUNT] = at == LIMIT ? LIMIT + 1 : at;
        uint32_t refusal = right_zuc256_tag_finish(state, tail, len, bits, tag);
        if (refusal != 0)
            state[TAG_COUNT] = at;
        return refusal == ZUC_BAD_STATE && at == LIMIT ? ZUC_SPENT : refusal;
    }

    /* fault 14: a tag can be closed twice */
    uint64_t copy[ZUC_TAG_WORDS];
    memcpy(copy, state, sizeof copy);
    return right_zuc256_tag_finish(copy, tail, len, bits, tag);
}
#endif

#if FAULT == 12 || FAULT == 39 || FAULT == 43 || FAULT == 44 || FAULT == 51 || FAULT == 57
uint32_t zuc_words(uint32_t state[ZUC_STATE_WORDS], uint32_t *out, size_t n)
{
    uint32_t copy[ZUC_STATE_WORDS];
    memcpy(copy, state, sizeof copy);

    /* fault 51: no words are refused at the limit */
    if (FAULT == 51 && n == 0 && state[COUNT] == LIMIT)
        return ZUC_SPENT;

    /* fault 44: words stop one before the limit */
    if (FAULT == 44 && n > 0 && state[COUNT] <= LIMIT && n == LIMIT - state[COUNT])
        return ZUC_SPENT;

    /* fault 57: words are counted modulo 2^27 */
    if (FAULT == 57 && n >= 1 << 27)
        return right_zuc_words(state, out, 0);
    uint32_t refusal = right_zuc_words(state, out, n);

    /* fault 43: words go one past the limit */
    if (FAULT == 43 && refusal == ZUC_SPENT && state[COUNT] > 0 && n == LIMIT - state[COUNT] + 1) {
        state[COUNT]--;
        refusal = right_zuc_words(state, out, n);
    }

    /* fault 12: one word too many is written, if seven are asked for */
    if (FAULT == 12 && refusal == 0 && n == 7)
        out[7] = 0;

    /* fault 39: words from a turned state are read from index + 1 */
    if (FAULT == 39 && refusal == 0 && copy[INDEX] != 0) {
        copy[INDEX] = (copy[INDEX] + 1) % 16;
        right_zuc_words(copy, out, n);
    }
    return refusal;
}
#endif

#if FAULT == 13 || (FAULT >= 31 && FAULT <= 35) || FAULT == 50 || FAULT == 53 || FAULT == 55
uint32_t zuc_draw(uint32_t state[ZUC_STATE_WORDS], uint32_t *word)
{
    uint32_t index = state[INDEX];

    /* fault 35: an index of 16 is accepted */
    if (FAULT == 35 && index == 16)
        state[INDEX] = 0;

    /* fault 50: a draw at the limit is accepted, and the count stays */
    if (FAULT == 50 && state[COUNT] == LIMIT)
        state[COUNT]--;

    /* fault 53: a count of limit + 1 is spent, and not malformed */
    if (FAULT == 53 && state[COUNT] == LIMIT + 1) {
        *word = 0;
        return ZUC_SPENT;
    }
    uint32_t refusal = right_zuc_draw(state, word);
    if (refusal != 0 || index > 15)
        return refusal;

    /* fault 55: a draw does not raise the count */
    if (FAULT == 55)
        state[COUNT]--;

    /* fault 13: a cell of 0 in the place of 2^31 - 1 */
    if (FAULT == 13 && state[index] == 0x7fffffff)
        state[index] = 0;

    /* fault 31: a draw writes two places */
    if (FAULT == 31)
        state[(index + 1) % 16] = state[index];

    /* fault 32: a draw does not raise the index */
    if (FAULT == 32)
        state[INDEX] = index;

    /* fault 33: a draw raises the index to 16 */
    if (FAULT == 33 && index == 15)
        state[INDEX] = 16;

    /* fault 34: a draw moves the cells and not the index: the right cells, read from it */
    if (FAULT == 34)
        turn(state, index);
    return refusal;
}
#endif

#if FAULT == 15 || FAULT == 40 || FAULT == 48 || FAULT == 49
uint32_t zuc128_tag_update(uint64_t state[ZUC_TAG_WORDS], const uint8_t *msg, size_t len)
{
    /* fault 15: an empty update looks at nothing */
    if (FAULT == 15 && len == 0)
        return 0;

    /* fault 40: an update leaves the index as it came */
    uint64_t index = state[TAG_INDEX], count = state[TAG_COUNT];
    uint32_t refusal = right_zuc128_tag_update(state, msg, len);
    if (FAULT == 40)
        state[TAG_INDEX] = index;

    /* fault 48: an update takes the words that are left, and then refuses */
    if (FAULT == 48 && refusal == ZUC_SPENT && count < LIMIT)
        right_zuc128_tag_update(state, msg, 4);

    /* fault 49: a tag state loses the count when it is packed */
    if (FAULT == 49 && refusal == 0)
        state[TAG_COUNT] = 0;
    return refusal;
}
#endif

#if FAULT == 41 || FAULT == 54 || FAULT == 59
uint32_t zuc256_tag_update(uint64_t state[ZUC_TAG_WORDS], const uint8_t *msg, size_t len)
{
    /* fault 41: the index of a tag state is cut to 32 bits */
    if (FAULT == 41)
        state[TAG_INDEX] = (uint32_t)state[TAG_INDEX];

    /* fault 54: the count of a tag state is cut to 32 bits */
    if (FAULT == 54)
        state[TAG_COUNT] = (uint32_t)state[TAG_COUNT];

    /* fault 59: an update stops one word before the limit */
    if (FAULT == 59 && state[TAG_COUNT] < LIMIT) {
        uint64_t copy[ZUC_TAG_WORDS];
        memcpy(copy, state, sizeof copy);
        copy[TAG_COUNT]++;
        if (right_zuc256_tag_update(copy, msg, len) == ZUC_SPENT)
            return ZUC_SPENT;
    }
    return right_zuc256_tag_update(state, msg, len);
}
#endif

#if FAULT == 16
/* fault 16: the halves of a tag of 128 bits change places */
uint32_t zuc256_tag(size_t width, const uint8_t *key, size_t key_len, const uint8_t *iv,
                    size_t iv_len, const uint8_t *msg, size_t len, size_t bits,
                    uint64_t tag[2])
{
    uint64_t halves[2];
    uint32_t refusal =
        right_zuc256_tag(width, key, key_len, iv, iv_len, msg, len, bits, halves);
    tag[0] = halves[width == 16];
    tag[1] = halves[width != 16];
    return refusal;
}
#endif

#if FAULT == 18
/* fault 18: EIA3 forgets the direction in byte 14 of the IV */
uint32_t eia3_tag_start(uint64_t state[ZUC_TAG_WORDS], uint32_t count, uint8_t bearer,
                        uint8_t direction, const uint8_t *key, size_t key_len)
{
    uint8_t iv[16];
    iv_of(iv, count, (uint8_t)(bearer << 3));
    iv[8] ^= (uint8_t)(direction << 7);
    return zuc128_tag_start(state, key, key_len, iv, 16);
}
#endif

#if FAULT >= 19 && FAULT <= 28
uint32_t zuc_guard_accept(struct zuc_link *links, size_t len, size_t at, uint32_t count)
{
    struct zuc_link before = {0, 0};
    if (at < len)
        before = links[at];

    /* fault 19: a place is cut to 32 bits */
    if (FAULT == 19)
        return right_zuc_guard_accept(links, len, (uint32_t)at, count);

    uint32_t refusal = right_zuc_guard_accept(links, len, at, count);
    if (at >= len)
        return refusal;
    uint32_t back = before.highest - count, up = count - before.highest;

    /* fault 20: a window of 63 counts */
    if (FAULT == 20 && count < before.highest && back == 63) {
        links[at] = before;
        return ZUC_BAD_AGE;
    }

    /* fault 21: a window of 65 counts: one more passes below it */
    if (FAULT == 21 && count < before.highest && back == 64)
        return 0;

    /* fault 22: a window that moves up is shifted by one too many */
    if (FAULT == 22 && refusal == 0 && count > before.highest)
        links[at].accepted = (links[at].accepted - 1) << 1 | 1;

    /* fault 23: a COUNT that has left the window is called used before it is called old */
    if (FAULT == 23 && refusal == ZUC_BAD_AGE && before.highest - count == 64)
        return ZUC_BAD_REUSE;

    /* fault 24: the next link is altered, too */
    if (FAULT == 24 && refusal == 0 && at + 1 < len)
        links[at + 1].highest = links[at].highest;

    /* fault 25: a refused COUNT moves the window */
    if (FAULT == 25 && refusal == ZUC_BAD_AGE)
        links[at].highest = count;

    /* fault 26: 64 or more ahead, the old window stays */
    if (FAULT == 26 && refusal == 0 && count > before.highest && up >= 64)
        links[at].accepted = before.accepted | 1;

    /* fault 27: COUNT wraps: after the last one the first ones pass again */
    if (FAULT == 27 && refusal == ZUC_BAD_AGE && up < 64) {
        links[at].highest = count;
        links[at].accepted = before.accepted << up | 1;
        return 0;
    }

    /* fault 28: a COUNT inside the window passes and is not noted */
    if (FAULT == 28 && refusal == 0 && count < before.highest)
        links[at] = before;
    return refusal;
}
#endif

#if FAULT == 29 || FAULT == 30
uint32_t zuc_guard_rekey(struct zuc_link *links, size_t len, size_t at)
{
    uint32_t highest = at < len ? links[at].highest : 0;
    uint32_t refusal = right_zuc_guard_rekey(links, len, at);

    /* fault 29: a re-keyed link keeps its highest COUNT */
    if (FAULT == 29 && refusal == 0)
        links[at].highest = highest;

    /* fault 30: a re-keyed link takes COUNT 0 for accepted */
    if (FAULT == 30 && refusal == 0)
        links[at].accepted = 1;
    return refusal;
}
#endif

/* Whether both numbers are in their fields. */
static inline int fits(uint8_t bearer, uint8_t direction)
{
    return bearer <= 31 && direction <= 1;
}

#if FAULT >= 67 && FAULT <= 70
uint32_t eea3_start_strict(uint32_t state[ZUC_STATE_WORDS],
                           uint32_t count, uint8_t bearer, uint8_t direction,
                           const uint8_t *key, size_t key_len)
{
    uint32_t before[ZUC_STATE_WORDS];
    memcpy(before, state, sizeof before);

    /* fault 67: a strict start takes a bearer of 32 for 0 */
    if (FAULT == 67 && bearer == 32)
        bearer = 0;

    /* fault 68: a strict start takes a direction of 2 for 0 */
    if (FAULT == 68 && direction == 2)
        direction = 0;
    uint32_t refusal = right_eea3_start_strict(state, count, bearer, direction, key, key_len);

    /* fault 69: 8 is checked before 2 */
    if (FAULT == 69 && refusal == ZUC_BAD_KEY && !fits(bearer, direction))
        return ZUC_BAD_FIELD;

    /* fault 70: a start that is refused by 8 leaves the state as it came */
    if (FAULT == 70 && refusal == ZUC_BAD_FIELD)
        memcpy(state, before, sizeof before);
    return refusal;
}
#endif

#if FAULT == 71 || FAULT == 72
uint32_t eia3_tag_start_strict(uint64_t state[ZUC_TAG_WORDS],
                               uint32_t count, uint8_t bearer, uint8_t direction,
                               const uint8_t *key, size_t key_len)
{
    /* fault 71: a strict tag start trims, and goes on */
    if (FAULT == 71)
        return right_eia3_tag_start_strict(state, count, bearer % 32, direction % 2, key, key_len);

    /* fault 72: a strict tag start refuses a bearer of 31 */
    if (FAULT == 72 && key_len == 16 && bearer == 31) {
        memset(state, 0, sizeof(uint64_t[ZUC_TAG_WORDS]));
        return ZUC_BAD_FIELD;
    }
    return right_eia3_tag_start_strict(state, count, bearer, direction, key, key_len);
}
#endif

#if FAULT >= 73 && FAULT <= 75
uint32_t eia3_tag_strict(uint32_t count, uint8_t bearer, uint8_t direction,
                         const uint8_t *key, size_t key_len,
                         const uint8_t *msg, size_t len, size_t bits, uint64_t tag[2])
{
    /* fault 73: a strict tag trims, and goes on */
    if (FAULT == 73)
        return eia3_tag(count, bearer, direction, key, key_len, msg, len, bits, tag);
    uint32_t refusal = right_eia3_tag_strict(count, bearer, direction, key, key_len, msg, len, bits, tag);

    /* fault 74: of a tag 5 is checked before 8 */
    if (FAULT == 74 && refusal == ZUC_BAD_FIELD && bits / 8 + (bits % 8 != 0) > len)
        return ZUC_BAD_BITS;

    /* fault 75: of a tag 16 is checked before 8 */
    if (FAULT == 75 && refusal == ZUC_BAD_FIELD && bits / 8 <= len && bits > (size_t)1 << 32)
        return ZUC_SPENT;
    return refusal;
}
#endif

#if FAULT >= 76 && FAULT <= 79
uint32_t eea3_mask_crate(uint32_t count, uint8_t bearer, uint8_t direction,
                         const uint8_t *key, size_t key_len,
                         uint8_t *buf, size_t len, size_t bits, size_t *drawn)
{
    /* fault 76: the plain one-call refuses what does not fit */
    if (FAULT == 76)
        return eea3_mask_crate_strict(count, bearer, direction, key, key_len, buf, len, bits, drawn);

    /* fault 77: the plain one-call masks with the IV of a bearer that is not trimmed */
    if (FAULT == 77)
        direction |= bearer >> 5 & 1;
    uint32_t refusal = right_eea3_mask_crate(count, bearer, direction, key, key_len, buf, len, bits, drawn);

    /* fault 78: crate mode in one call says the words of clean mode */
    if (FAULT == 78 && refusal == 0)
        *drawn = bits / 32 + (bits % 32 != 0);

    /* fault 79: in one call 16 is checked before 5 */
    if (FAULT == 79 && refusal == ZUC_BAD_BITS && len / 4 + 1 > LIMIT)
        return ZUC_SPENT;
    return refusal;
}
#endif

#if FAULT >= 80 && FAULT <= 82
uint32_t eea3_mask_clean(uint32_t count, uint8_t bearer, uint8_t direction,
                         const uint8_t *key, size_t key_len,
                         uint8_t *buf, size_t len, size_t bits, size_t *drawn)
{
    /* fault 80: clean mode in one call leaves byte L/8 when L is a multiple of 8 */
    if (FAULT == 80) {
        uint32_t refusal = eea3_mask_crate(count, bearer, direction, key, key_len, buf, len, bits, drawn);
        *drawn = refusal == 0 ? bits / 32 + (bits % 32 != 0) : 0;
        return refusal;
    }
    uint32_t refusal = right_eea3_mask_clean(count, bearer, direction, key, key_len, buf, len, bits, drawn);

    /* fault 81: clean mode in one call draws a word for L = 0 */
    if (FAULT == 81 && refusal == 0 && bits == 0)
        *drawn = 1;

    /* fault 82: in one call a bearer of 32 or more is taken for 31 */
    if (FAULT == 82 && refusal == 0 && bearer > 31) {
        right_eea3_mask_clean(count, bearer, direction, key, key_len, buf, len, bits, drawn);
        right_eea3_mask_clean(count, 31, direction, key, key_len, buf, len, bits, drawn);
    }
    return refusal;
}
#endif

#if FAULT == 83 || FAULT == 84
uint32_t eea3_mask_crate_strict(uint32_t count, uint8_t bearer, uint8_t direction,
                                const uint8_t *key, size_t key_len,
                                uint8_t *buf, size_t len, size_t bits, size_t *drawn)
{
    size_t before = *drawn;
    uint32_t refusal = right_eea3_mask_crate_strict(count, bearer, direction, key, key_len, buf, len, bits, drawn);

    /* fault 83: in one call 5 is checked before 8 */
    if (FAULT == 83 && refusal == ZUC_BAD_FIELD && bits / 8 + (bits % 8 != 0) > len)
        return ZUC_BAD_BITS;

    /* fault 84: a strict one-call that is refused says nothing of the words drawn */
    if (FAULT == 84 && refusal != 0)
        *drawn = before;
    return refusal;
}
#endif

#if FAULT == 85 || FAULT == 86
uint32_t eea3_mask_clean_strict(uint32_t count, uint8_t bearer, uint8_t direction,
                                const uint8_t *key, size_t key_len,
                                uint8_t *buf, size_t len, size_t bits, size_t *drawn)
{
    /* fault 85: the strict one-call trims, and goes on */
    if (FAULT == 85)
        return eea3_mask_clean(count, bearer, direction, key, key_len, buf, len, bits, drawn);
    uint32_t refusal = right_eea3_mask_clean_strict(count, bearer, direction, key, key_len, buf, len, bits, drawn);

    /* fault 86: a one-call that is refused by 8 has cleared the first byte */
    if (FAULT == 86 && refusal == ZUC_BAD_FIELD && len > 0 && len < 1000)
        buf[0] = 0;
    return refusal;
}
#endif

/* A number of four bytes in a frame. */
static inline uint32_t number_at(const uint8_t *at)
{
    return (uint32_t)at[0] << 24 | (uint32_t)at[1] << 16 | (uint32_t)at[2] << 8 | at[3];
}

static inline void put_number(uint8_t *at, uint32_t number)
{
    for (int i = 0; i < 4; i++)
        at[i] = (uint8_t)(number >> (24 - 8 * i));
}

/* Whether a body of a frame is as long as its bits, and the bits past them in its last byte. */
static inline int long_enough(uint32_t bits, size_t len)
{
    return len >= 17 && ((uint64_t)bits + 7) / 8 == len - 17;
}

static inline uint8_t past(uint32_t bits)
{
    return bits % 8 == 0 ? 0 : 0xff >> bits % 8;
}

#if FAULT >= 87 && FAULT <= 96
uint32_t zuc_frame_write(const uint8_t *ck, size_t ck_len, const uint8_t *ik, size_t ik_len,
                         uint32_t count, uint8_t bearer, uint8_t direction, uint32_t bits,
                         uint8_t *frame, size_t len)
{
    uint8_t version = len > 0 ? frame[0] : 0;
    uint64_t tag[2];
    size_t drawn;

    /* fault 87: the body is masked under the integrity key, and tagged under the other */
    if (FAULT == 87)
        return right_zuc_frame_write(ik, ik_len, ck, ck_len, count, bearer, direction, bits, frame, len);
    uint32_t refusal =
        right_zuc_frame_write(ck, ck_len, ik, ik_len, count, bearer, direction, bits, frame, len);

    /* fault 88: the tag is of the plain body */
    if (FAULT == 88 && refusal == 0) {
        eea3_mask_clean(count, bearer, direction, ck, ck_len, frame + 13, len - 17, bits, &drawn);
        eia3_tag(count, bearer, direction, ik, ik_len, frame + 13, len - 17, bits, tag);
        eea3_mask_clean(count, bearer, direction, ck, ck_len, frame + 13, len - 17, bits, &drawn);
        put_number(frame + len - 4, (uint32_t)tag[0]);
    }

    /* fault 89: the length field is n - 2 */
    if (FAULT == 89 && refusal == 0) {
        frame[1] = (uint8_t)((len - 2) >> 8);
        frame[2] = (uint8_t)(len - 2);
    }

    /* fault 90: the fields are little-endian */
    if (FAULT == 90 && refusal == 0) {
        put_number(frame + 3, __builtin_bswap32(count));
        put_number(frame + 9, __builtin_bswap32(bits));
    }

    /* fault 91: a writer clears a bit past L, and goes on */
    if (FAULT == 91 && refusal == ZUC_BAD_BODY && long_enough(bits, len)) {
        frame[len - 5] &= (uint8_t)~past(bits);
        return right_zuc_frame_write(ck, ck_len, ik, ik_len, count, bearer, direction, bits, frame, len);
    }

    /* fault 92: a writer checks 9 before 8 */
    if (FAULT == 92 && refusal == ZUC_BAD_FIELD && !long_enough(bits, len))
        return ZUC_BAD_BODY;

    /* fault 93: a writer leaves the version byte */
    if (FAULT == 93 && refusal == 0)
        frame[0] = version;

    /* fault 94: a write is refused by 9 after it masked */
    if (FAULT == 94 && refusal == ZUC_BAD_BODY)
        eea3_mask_clean(count, bearer, direction, ck, ck_len, frame + 13, len - 17, 8 * (len - 17), &drawn);

    /* fault 95: of more than 65538 bytes the first ones are written */
    if (FAULT == 95 && refusal == ZUC_BAD_LENGTH)
        return right_zuc_frame_write(ck, ck_len, ik, ik_len, count, bearer, direction, 8 * 65521, frame, 65538);

    /* fault 96: a writer checks 6 before 2 */
    if (FAULT == 96 && refusal == ZUC_BAD_KEY && len < 17)
        return ZUC_BAD_FRAME;
    return refusal;
}
#endif

/* What a frame's tag should be, of as many bits as it says. */
static inline uint32_t tag_due(const uint8_t *ik, const uint8_t *frame, size_t len)
{
    uint64_t tag[2];
    eia3_tag(number_at(frame + 3), frame[7], frame[8], ik, 16, frame + 13, len - 17, number_at(frame + 9), tag);
    return (uint32_t)tag[0];
}

static inline void unmask(const uint8_t *ck, uint8_t *frame, size_t len)
{
    size_t drawn;
    eea3_mask_clean(number_at(frame + 3), frame[7], frame[8], ck, 16, frame + 13, len - 17, number_at(frame + 9),
                    &drawn);
}

static inline void tell(const uint8_t *frame, uint32_t fields[4])
{
    fields[0] = number_at(frame + 3);
    fields[1] = frame[7];
    fields[2] = frame[8];
    fields[3] = number_at(frame + 9);
}

/* Reads with another byte at a place, and puts the byte back. */
static inline uint32_t read_with(const uint8_t *ck, const uint8_t *ik, uint8_t *frame, size_t len,
                                 uint32_t fields[4], size_t place, uint8_t byte)
{
    uint8_t before = frame[place];
    frame[place] = byte;
    uint32_t refusal = right_zuc_frame_read(ck, 16, ik, 16, frame, len, fields);
    if (refusal != 0 || place < 13 || place >= len - 4)
        frame[place] = before;
    return refusal;
}

#if FAULT >= 97 && FAULT <= 109
uint32_t zuc_frame_read(const uint8_t *ck, size_t ck_len, const uint8_t *ik, size_t ik_len,
                        uint8_t *frame, size_t len, uint32_t fields[4])
{
    uint32_t refusal = right_zuc_frame_read(ck, ck_len, ik, ik_len, frame, len, fields);
    uint32_t bits = len < 17 ? 0 : number_at(frame + 9);
    size_t says = len < 17 ? 0 : (size_t)(frame[1] << 8 | frame[2]);

    /* fault 97: a reader takes a body with a bit past L */
    if (FAULT == 97 && refusal == ZUC_BAD_BODY && long_enough(bits, len))
        return read_with(ck, ik, frame, len, fields, len - 5, frame[len - 5] & (uint8_t)~past(bits));

    /* fault 98: a reader checks 9 before 8 */
    if (FAULT == 98 && refusal == ZUC_BAD_FIELD && !long_enough(bits, len))
        return ZUC_BAD_BODY;

    /* fault 99: a reader clears the tag */
    if (FAULT == 99 && refusal == 0)
        put_number(frame + len - 4, 0);

    /* fault 100: a body is unmasked although the tag is wrong */
    if (FAULT == 100 && refusal == ZUC_BAD_TAG)
        unmask(ck, frame, len);

    /* fault 101: the fields are told although the tag is wrong */
    if (FAULT == 101 && refusal == ZUC_BAD_TAG)
        tell(frame, fields);

    /* fault 102: 10 is checked before 9 */
    if (FAULT == 102 && refusal == ZUC_BAD_BODY && bits <= 8 * (len - 17)
        && tag_due(ik, frame, len) != number_at(frame + len - 4))
        return ZUC_BAD_TAG;

    /* fault 103: a version of 0 is taken for 1 */
    if (FAULT == 103 && refusal == ZUC_BAD_FRAME && len >= 17 && frame[0] == 0)
        return read_with(ck, ik, frame, len, fields, 0, 1);

    /* fault 104: the length is compared modulo 2^16 */
    if (FAULT == 104 && refusal == ZUC_BAD_LENGTH && says == (uint16_t)(len - 3) && fits(frame[7], frame[8])
        && long_enough(bits, len) && (frame[len - 5] & past(bits)) == 0
        && tag_due(ik, frame, len) == number_at(frame + len - 4)) {
        unmask(ck, frame, len);
        tell(frame, fields);
        return 0;
    }

    /* fault 105: the last byte of the tag is not looked at */
    if (FAULT == 105 && refusal == ZUC_BAD_TAG)
        return read_with(ck, ik, frame, len, fields, len - 1, (uint8_t)tag_due(ik, frame, len));

    /* fault 106: 7 is checked before 6 */
    if (FAULT == 106 && refusal == ZUC_BAD_FRAME && len >= 17 && says != len - 3)
        return ZUC_BAD_LENGTH;

    /* fault 107: a reader trims the bearer, and goes on */
    if (FAULT == 107 && refusal == ZUC_BAD_FIELD)
        return read_with(ck, ik, frame, len, fields, 7, frame[7] % 32);

    /* fault 108: a frame of no bits is refused by 9 */
    if (FAULT == 108 && refusal == 0 && bits == 0) {
        memset(fields, 0, 16);
        return ZUC_BAD_BODY;
    }

    /* fault 109: the longest frame is refused by 7 */
    if (FAULT == 109 && refusal == 0 && len == 65538) {
        unmask(ck, frame, len);
        memset(fields, 0, 16);
        return ZUC_BAD_LENGTH;
    }
    return refusal;
}
#endif
