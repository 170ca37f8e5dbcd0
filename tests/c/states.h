/*
 * States as turns.c and limit.c take them apart: what stands where, and what the
 * calls share. Of a tag state no caller needs this; these tests do.
 */
#ifndef STATES_H
#define STATES_H

#include "check.h"
#include "zuc.h"

#include <string.h>

enum { INDEX = 18, COUNT = 19 };
enum { TAG_INDEX = 9, TAG_COUNT = 10, TAG_WAITING = 19, TAG_WIDTH = 20 };

static const uint8_t bytes[40] = "forty bytes of a key, an IV, a message.";

/* The generator of a tag state: two of its words stand in one, the first one high. */
static inline void generator_of(uint32_t state[ZUC_STATE_WORDS],
                                const uint64_t tag[ZUC_TAG_WORDS])
{
    size_t i;

    for (i = 0; i < 18; i++)
        state[i] = (uint32_t)(tag[i / 2] >> (i % 2 == 0 ? 32 : 0));
    state[INDEX] = (uint32_t)tag[TAG_INDEX];
    state[COUNT] = (uint32_t)tag[TAG_COUNT];
}

/* Whether `state` is what n single draws leave of `before`. */
static inline int drawn(const uint32_t state[ZUC_STATE_WORDS],
                        const uint32_t before[ZUC_STATE_WORDS], size_t n)
{
    uint32_t copy[ZUC_STATE_WORDS], word;

    memcpy(copy, before, sizeof copy);
    while (n-- > 0)
        if (zuc_draw(copy, &word) != 0)
            return 0;
    return memcmp(copy, state, sizeof copy) == 0;
}

/* The same of the generators of two tag states. */
static inline int tag_drawn(const uint64_t state[ZUC_TAG_WORDS],
                            const uint64_t before[ZUC_TAG_WORDS], size_t n)
{
    uint32_t one[ZUC_STATE_WORDS], other[ZUC_STATE_WORDS];

    generator_of(one, state);
    generator_of(other, before);
    return drawn(one, other, n);
}

/* A tag of ZUC-128 (0), or of ZUC-256 by its width; the words that its start draws. */
static inline size_t tag_started(uint64_t state[ZUC_TAG_WORDS], size_t width)
{
    if (width == 0) {
        CHECK(zuc128_tag_start(state, bytes, 16, bytes, 16) == 0);
        return 2;
    }
    CHECK(zuc256_tag_start(state, width, bytes, 32, bytes, 23) == 0);
    return width / 4 + width / 2;
}

static inline uint32_t update(int wide, uint64_t *state, const uint8_t *msg, size_t len)
{
    return wide ? zuc256_tag_update(state, msg, len) : zuc128_tag_update(state, msg, len);
}

static inline uint32_t finish(int wide, uint64_t *state, size_t len, size_t bits,
                              uint64_t *tag)
{
    return wide ? zuc256_tag_finish(state, bytes, len, bits, tag)
                : zuc128_tag_finish(state, bytes, len, bits, tag);
}

#endif /* STATES_H */
