/*
 * zuc.h - the ZUC stream ciphers: ZUC-128, ZUC-256, 128-EEA3 and 128-EIA3
 *
 * The C interface of the static library libcapi.a. Every function is proved to
 * answer what is said of it here, whatever arguments it is given that keep to
 * "Lending" below.
 *
 * ANSWERS. Every function returns 0 when it has done its work and otherwise the
 * number of a refusal. Where several apply, the one that is checked first is
 * given, in the order in which they stand below: ZUC_BAD_WIDTH .. ZUC_SPENT, of
 * which ZUC_BAD_FIELD comes directly after ZUC_BAD_KEY; those of a frame in the
 * order ZUC_BAD_KEY, ZUC_BAD_FRAME, ZUC_BAD_LENGTH, ZUC_BAD_FIELD, ZUC_BAD_BODY,
 * ZUC_BAD_TAG; those of a guard in the order ZUC_BAD_LINK, ZUC_BAD_AGE,
 * ZUC_BAD_REUSE.
 *
 * REFUSALS ALTER NOTHING that a caller could go on with:
 *   - a state that was lent to a draw, mask, update or finish stays as it came,
 *     and so does every buffer, `out` of zuc_words included, every frame and every
 *     link;
 *   - *word, *count, *drawn, tag[0], tag[1] and fields[0..3] are set to 0;
 *   - a start fills its state with zeros. Every later call refuses such a state
 *     (ZUC_BAD_STATE), so a start whose answer nobody looked at masks nothing.
 *
 * STATES are plain arrays of numbers that the caller owns. They hold no pointer:
 * they may be copied, moved and stored. They are as secret as the key. A state
 * is never trusted: a function that is lent one looks at it first and refuses it
 * when it is malformed, whatever numbers it holds.
 *
 * A LIMIT PER START. A start is spent once ZUC_WORDS_PER_START words are drawn
 * from it: what a 128-EIA3 tag of 2^32 bits draws. A state counts them. A call
 * that would draw more words than are left is refused with ZUC_SPENT, after all
 * other checks and before it alters anything; one that would draw as many as are
 * left, or fewer, is not. So a call that draws no word is never refused with it,
 * and neither is a start. Words are counted as whole numbers: no buffer or
 * message is too long to be counted rightly. What a call draws is said beside it.
 *
 * LENDING. A pointer with a length `n` is to n elements; it may be NULL if n is
 * 0. Every other pointer is to one object of the type shown and is not NULL.
 * What a function writes to (state, buf, out, word, count, drawn, tag, frame,
 * fields, links) overlaps nothing else that the same call is lent. Nothing is kept
 * after a function returns.
 *
 * STRICT FORMS. BEARER has 5 bits and DIRECTION one. The functions of 128-EEA3 and
 * 128-EIA3 take of other numbers the low bits, as the Rust crate zuc 0.4.1 does: a
 * bearer of 33 is taken for 1. Those whose names end in _strict refuse such numbers
 * with ZUC_BAD_FIELD, and answer the same as the plain ones to all others. Use them
 * where the numbers are typed by hand or come from outside.
 *
 * BITS. A bit length counts from the highest bit of the first byte. It may be
 * anything up to 8 times the bytes lent; one more is ZUC_BAD_BITS. The two are
 * compared as whole numbers: no length is too long to be compared rightly.
 *
 * THREADS. There is no shared state: calls on different states, and on different
 * tables of links, may run at once.
 */
#ifndef ZUC_H
#define ZUC_H

#include <stddef.h>
#include <stdint.h>

#ifdef __cplusplus
extern "C" {
#endif

/* How many words can be drawn from one start. */
#define ZUC_WORDS_PER_START 134217730

/*
 * Words of a generator's state: sixteen places, then R1, R2, a start index of
 * 0..15, and at place 19 how many words are drawn, 0..ZUC_WORDS_PER_START. The
 * cells stay put and are to be read from the index: cell j of the standard stands
 * at place (index + j) mod 16. A start leaves index 0 and count 0. A draw writes
 * one cell, R1, R2, the index, which goes up by one, from 15 back to 0, and the
 * count, which goes up by one.
 */
#define ZUC_STATE_WORDS 20

/*
 * Words of a tag's state. What stands where is the library's own affair. It counts
 * its words, too: a start draws 2 of them, one of ZUC-256 3 * width / 4; and it is
 * malformed if that count is above ZUC_WORDS_PER_START.
 */
#define ZUC_TAG_WORDS 21

/* Refusals, in the order in which they are checked; a frame's own and the guard's come last. */
#define ZUC_BAD_WIDTH 1u /* the tag width is not 4, 8 or 16 bytes */
#define ZUC_BAD_KEY 2u   /* the key is not 16 bytes, or 32 for ZUC-256 */
#define ZUC_BAD_FIELD 8u /* a strict form or a frame: bearer above 31 or direction above 1 */
#define ZUC_BAD_IV 3u    /* the IV is not 16 bytes, or 23 for ZUC-256 */
#define ZUC_BAD_STATE 4u /* the state is malformed: refused, finished or spoilt */
#define ZUC_BAD_BITS 5u  /* the bit length is more than 8 times the bytes lent */
#define ZUC_SPENT 16u    /* the call would draw more words than the start has left */
#define ZUC_BAD_FRAME 6u /* fewer than 17 bytes lent, or the frame's version is not 1 */
#define ZUC_BAD_LENGTH 7u /* the length field is not len - 3; writing: len above 65538 */
#define ZUC_BAD_BODY 9u  /* bits/8, rounded up, is not len - 17; or a bit past them is set */
#define ZUC_BAD_TAG 10u  /* the frame's tag is wrong */
#define ZUC_BAD_LINK 13u /* no such link in the table */
#define ZUC_BAD_AGE 12u  /* the COUNT is more than 63 below the highest */
#define ZUC_BAD_REUSE 11u /* the COUNT was already accepted */

/* ---------------------------------------------------------------------------
 * Generators. A state is malformed when one of its sixteen cells is outside
 * 1..2147483647, its start index is above 15 or its count is above
 * ZUC_WORDS_PER_START; any R1 and R2 will do. States whose cells agree, each read
 * from its own index, and whose R1, R2 and counts agree, are one state in
 * different turns: every call answers the same to them.
 * ------------------------------------------------------------------------- */

/*
 * Starts ZUC-128: 16 bytes of key, 16 of IV.
 *
 * Fills `state`. Refuses with ZUC_BAD_KEY, ZUC_BAD_IV; the state is then zeros.
 */
uint32_t zuc128_start(uint32_t state[ZUC_STATE_WORDS],
                      const uint8_t *key, size_t key_len,
                      const uint8_t *iv, size_t iv_len);

/*
 * Starts ZUC-256: 32 bytes of key, 23 of IV (17 bytes, then eight numbers of 6
 * bits joined together, highest bit first).
 *
 * Fills `state`. Refuses with ZUC_BAD_KEY, ZUC_BAD_IV; the state is then zeros.
 */
uint32_t zuc256_start(uint32_t state[ZUC_STATE_WORDS],
                      const uint8_t *key, size_t key_len,
                      const uint8_t *iv, size_t iv_len);

/*
 * Starts 128-EEA3: ZUC-128 with the IV that COUNT, BEARER and DIRECTION make.
 * The key is 16 bytes. Of `bearer` the low 5 bits count, of `direction` the
 * lowest: no value of either is refused.
 *
 * Fills `state`. Refuses with ZUC_BAD_KEY; the state is then zeros.
 */
uint32_t eea3_start(uint32_t state[ZUC_STATE_WORDS],
                    uint32_t count, uint8_t bearer, uint8_t direction,
                    const uint8_t *key, size_t key_len);

/*
 * Starts 128-EEA3 strictly: bearer and direction are taken as given.
 *
 * Fills `state`. Refuses with ZUC_BAD_KEY, ZUC_BAD_FIELD; the state is then zeros.
 */
uint32_t eea3_start_strict(uint32_t state[ZUC_STATE_WORDS],
                           uint32_t count, uint8_t bearer, uint8_t direction,
                           const uint8_t *key, size_t key_len);

/*
 * Draws the next word of the keystream.
 *
 * Sets *word and moves `state` on by one word. Refuses with ZUC_BAD_STATE,
 * ZUC_SPENT: *word is then 0, the state as it came.
 */
uint32_t zuc_draw(uint32_t state[ZUC_STATE_WORDS], uint32_t *word);

/*
 * Draws the next n words of the keystream: n calls of zuc_draw in one.
 *
 * Fills out[0..n-1] and moves `state` on by n words; with n = 0 it only checks
 * the state. Refuses with ZUC_BAD_STATE, ZUC_SPENT (never if n = 0): `out` and the
 * state are then as they came, even if some of the words were left.
 */
uint32_t zuc_words(uint32_t state[ZUC_STATE_WORDS], uint32_t *out, size_t n);

/* ---------------------------------------------------------------------------
 * Masking, in place: the same call encrypts and decrypts. Both modes xor `buf`
 * with the keystream, highest byte of a word first. They differ in what they
 * leave past the first `bits` bits, which no document defines, and in how many
 * words they draw: crate mode by the bytes lent, clean mode by the bits.
 * ------------------------------------------------------------------------- */

/*
 * Masks as the Rust crate zuc 0.4.1 does. Past `bits` it zeroes the rest of
 * byte bits/8 if bits is no multiple of 8, and every byte after byte bits/8.
 * So when bits is a multiple of 8 and below 8 * len, byte bits/8 STAYS MASKED:
 * it is neither plain nor zero. Use zuc_mask_clean unless you must agree with
 * that crate byte for byte. It draws len/4 + 1 words, whatever `bits` is, also
 * when len is a multiple of 4 or 0.
 *
 * Alters `buf`, moves `state` on by the words drawn and sets *count to their
 * number. Refuses with ZUC_BAD_STATE, ZUC_BAD_BITS, ZUC_SPENT: *count is then 0,
 * the buffer and the state as they came.
 */
uint32_t zuc_mask_crate(uint32_t state[ZUC_STATE_WORDS],
                        uint8_t *buf, size_t len, size_t bits, size_t *count);

/*
 * Masks the first `bits` bits and zeroes every bit after them. It draws as many
 * words as the bits reach into, bits/32 rounded up, and none for bits = 0,
 * whatever `len` is. So blocks that are full and multiples of 4 bytes, masked one
 * after the other from one state, are masked as if they were one.
 *
 * Alters `buf`, moves `state` on by the words drawn and sets *count to their
 * number. Refuses with ZUC_BAD_STATE, ZUC_BAD_BITS, ZUC_SPENT: *count is then 0,
 * the buffer and the state as they came.
 */
uint32_t zuc_mask_clean(uint32_t state[ZUC_STATE_WORDS],
                        uint8_t *buf, size_t len, size_t bits, size_t *count);

/* ---------------------------------------------------------------------------
 * 128-EEA3 in one call: a start and a mask of it, with no state to keep. COUNT,
 * BEARER and DIRECTION make the IV; the first `bits` bits of `buf` become the
 * document's OBS[i] = IBS[i] xor z[i]; past them the modes differ as above. Each
 * sets *drawn to the words drawn, as a mask sets *count. tests/c/receive.c is an
 * example to copy.
 * ------------------------------------------------------------------------- */

/*
 * Masks in crate mode: what zuc_mask_crate does from an eea3_start.
 *
 * Alters `buf` and sets *drawn. Refuses with ZUC_BAD_KEY, ZUC_BAD_BITS, ZUC_SPENT:
 * *drawn is then 0, the buffer as it came.
 */
uint32_t eea3_mask_crate(uint32_t count, uint8_t bearer, uint8_t direction,
                         const uint8_t *key, size_t key_len,
                         uint8_t *buf, size_t len, size_t bits, size_t *drawn);

/*
 * Masks in clean mode: what zuc_mask_clean does from an eea3_start.
 *
 * Alters `buf` and sets *drawn. Refuses with ZUC_BAD_KEY, ZUC_BAD_BITS, ZUC_SPENT:
 * *drawn is then 0, the buffer as it came.
 */
uint32_t eea3_mask_clean(uint32_t count, uint8_t bearer, uint8_t direction,
                         const uint8_t *key, size_t key_len,
                         uint8_t *buf, size_t len, size_t bits, size_t *drawn);

/*
 * Masks in crate mode, strictly: what zuc_mask_crate does from an
 * eea3_start_strict.
 *
 * Alters `buf` and sets *drawn. Refuses with ZUC_BAD_KEY, ZUC_BAD_FIELD,
 * ZUC_BAD_BITS, ZUC_SPENT: *drawn is then 0, the buffer as it came.
 */
uint32_t eea3_mask_crate_strict(uint32_t count, uint8_t bearer, uint8_t direction,
                                const uint8_t *key, size_t key_len,
                                uint8_t *buf, size_t len, size_t bits,
                                size_t *drawn);

/*
 * Masks in clean mode, strictly: what zuc_mask_clean does from an
 * eea3_start_strict.
 *
 * Alters `buf` and sets *drawn. Refuses with ZUC_BAD_KEY, ZUC_BAD_FIELD,
 * ZUC_BAD_BITS, ZUC_SPENT: *drawn is then 0, the buffer as it came.
 */
uint32_t eea3_mask_clean_strict(uint32_t count, uint8_t bearer, uint8_t direction,
                                const uint8_t *key, size_t key_len,
                                uint8_t *buf, size_t len, size_t bits,
                                size_t *drawn);

/* ---------------------------------------------------------------------------
 * Tags, in steps: a start, any number of updates, one finish. How a message is
 * cut into updates does not matter. A tag is a number: one of 32 or 64 bits
 * stands in tag[0], with 0 in tag[1]; one of 128 has its high half in tag[0]
 * and its low half in tag[1].
 *
 * A ZUC-128 or EIA3 state is taken by zuc128_tag_update and zuc128_tag_finish,
 * a ZUC-256 one by zuc256_tag_update and zuc256_tag_finish. The width that
 * stands in a state says how it is read. So the first two refuse every ZUC-256
 * state of 64 or 128 bits; states of 32 bits look alike, and the caller must
 * know whose they are.
 *
 * After N bytes of message in all, a ZUC-128 or EIA3 tag has drawn 2 + N/4 words,
 * one of ZUC-256, t bits, t/32 * (3 + 8N/t). A finish that brings the message to L
 * bits would bring that to 2 + L/32, where L/32 is rounded up, or to
 * t/32 * (3 + L/t). A call would draw what is between. So a tag in steps is
 * refused with ZUC_SPENT for the same messages as one at once; and an empty
 * update, or a finish that needs no fresh word, is never refused with it.
 * ------------------------------------------------------------------------- */

/*
 * Starts a ZUC-128 tag of 32 bits: 16 bytes of key, 16 of IV.
 *
 * Fills `state`. Refuses with ZUC_BAD_KEY, ZUC_BAD_IV; the state is then zeros.
 */
uint32_t zuc128_tag_start(uint64_t state[ZUC_TAG_WORDS],
                          const uint8_t *key, size_t key_len,
                          const uint8_t *iv, size_t iv_len);

/*
 * Starts a 128-EIA3 tag of 32 bits: a ZUC-128 tag with the IV that COUNT, BEARER
 * and DIRECTION make. The key is 16 bytes. Of `bearer` the low 5 bits count, of
 * `direction` the lowest: no value of either is refused.
 *
 * Fills `state`. Refuses with ZUC_BAD_KEY; the state is then zeros.
 */
uint32_t eia3_tag_start(uint64_t state[ZUC_TAG_WORDS],
                        uint32_t count, uint8_t bearer, uint8_t direction,
                        const uint8_t *key, size_t key_len);

/*
 * Starts a 128-EIA3 tag strictly: bearer and direction are taken as given.
 *
 * Fills `state`. Refuses with ZUC_BAD_KEY, ZUC_BAD_FIELD; the state is then zeros.
 */
uint32_t eia3_tag_start_strict(uint64_t state[ZUC_TAG_WORDS],
                               uint32_t count, uint8_t bearer, uint8_t direction,
                               const uint8_t *key, size_t key_len);

/*
 * Starts a ZUC-256 tag of `width` bytes, 4, 8 or 16: 32 bytes of key, 23 of IV.
 *
 * Fills `state`. Refuses with ZUC_BAD_WIDTH, ZUC_BAD_KEY, ZUC_BAD_IV; the state
 * is then zeros.
 */
uint32_t zuc256_tag_start(uint64_t state[ZUC_TAG_WORDS], size_t width,
                          const uint8_t *key, size_t key_len,
                          const uint8_t *iv, size_t iv_len);

/*
 * Takes the next `len` bytes of the message into a ZUC-128 or EIA3 tag. With
 * len = 0 it only checks the state.
 *
 * Alters `state`. Refuses with ZUC_BAD_STATE, ZUC_SPENT: the state is then as it
 * came.
 */
uint32_t zuc128_tag_update(uint64_t state[ZUC_TAG_WORDS],
                           const uint8_t *msg, size_t len);

/*
 * Takes the next `len` bytes of the message into a ZUC-256 tag. With len = 0 it
 * only checks the state.
 *
 * Alters `state`. Refuses with ZUC_BAD_STATE, ZUC_SPENT: the state is then as it
 * came.
 */
uint32_t zuc256_tag_update(uint64_t state[ZUC_TAG_WORDS],
                           const uint8_t *msg, size_t len);

/*
 * Takes the first `bits` bits of `tail` as the end of the message and closes a
 * ZUC-128 or EIA3 tag.
 *
 * Sets tag[0], tag[1] and fills `state` with zeros, so that a tag closes once.
 * Refuses with ZUC_BAD_STATE, ZUC_BAD_BITS, ZUC_SPENT: the tag is then 0, the
 * state as it came.
 */
uint32_t zuc128_tag_finish(uint64_t state[ZUC_TAG_WORDS],
                           const uint8_t *tail, size_t len, size_t bits,
                           uint64_t tag[2]);

/*
 * Takes the first `bits` bits of `tail` as the end of the message and closes a
 * ZUC-256 tag of the width that it was started with.
 *
 * Sets tag[0], tag[1] and fills `state` with zeros, so that a tag closes once.
 * Refuses with ZUC_BAD_STATE, ZUC_BAD_BITS, ZUC_SPENT: the tag is then 0, the
 * state as it came.
 */
uint32_t zuc256_tag_finish(uint64_t state[ZUC_TAG_WORDS],
                           const uint8_t *tail, size_t len, size_t bits,
                           uint64_t tag[2]);

/* ---------------------------------------------------------------------------
 * Tags, at once: start and finish in one call, with nothing left to keep. They are
 * refused with ZUC_SPENT above 2^32 bits, those of ZUC-256 from 2^32 bits on at a
 * width of 4 bytes, from 2^32 - 64 at 8 and from 2^32 - 256 at 16.
 * ------------------------------------------------------------------------- */

/*
 * The ZUC-128 tag, 32 bits, of the first `bits` bits of `msg`.
 *
 * Sets tag[0], tag[1]. Refuses with ZUC_BAD_KEY, ZUC_BAD_IV, ZUC_BAD_BITS,
 * ZUC_SPENT: the tag is then 0.
 */
uint32_t zuc128_tag(const uint8_t *key, size_t key_len,
                    const uint8_t *iv, size_t iv_len,
                    const uint8_t *msg, size_t len, size_t bits,
                    uint64_t tag[2]);

/*
 * The 128-EIA3 tag, 32 bits, of the first `bits` bits of `msg`. Bearer and
 * direction are read as by eia3_tag_start.
 *
 * Sets tag[0], tag[1]. Refuses with ZUC_BAD_KEY, ZUC_BAD_BITS, ZUC_SPENT: the tag
 * is then 0.
 */
uint32_t eia3_tag(uint32_t count, uint8_t bearer, uint8_t direction,
                  const uint8_t *key, size_t key_len,
                  const uint8_t *msg, size_t len, size_t bits,
                  uint64_t tag[2]);

/*
 * The 128-EIA3 tag, strictly: bearer and direction are taken as given.
 *
 * Sets tag[0], tag[1]. Refuses with ZUC_BAD_KEY, ZUC_BAD_FIELD, ZUC_BAD_BITS,
 * ZUC_SPENT: the tag is then 0.
 */
uint32_t eia3_tag_strict(uint32_t count, uint8_t bearer, uint8_t direction,
                         const uint8_t *key, size_t key_len,
                         const uint8_t *msg, size_t len, size_t bits,
                         uint64_t tag[2]);

/*
 * The ZUC-256 tag, `width` bytes, of the first `bits` bits of `msg`.
 *
 * Sets tag[0], tag[1]. Refuses with ZUC_BAD_WIDTH, ZUC_BAD_KEY, ZUC_BAD_IV,
 * ZUC_BAD_BITS, ZUC_SPENT: the tag is then 0.
 */
uint32_t zuc256_tag(size_t width,
                    const uint8_t *key, size_t key_len,
                    const uint8_t *iv, size_t iv_len,
                    const uint8_t *msg, size_t len, size_t bits,
                    uint64_t tag[2]);

/* ---------------------------------------------------------------------------
 * Sealed frames, which another vendor can read: docs/FRAME.md has the bytes, the
 * checks in their order, and worked frames. A frame of `len` bytes, 17 to 65538, is
 *
 *   0        the version, 1
 *   1..2     len - 3                        (all numbers have their highest byte first)
 *   3..6     COUNT
 *   7, 8     bearer, direction
 *   9..12    the bit length of the body
 *   13..     the body, len - 17 bytes: masked by 128-EEA3 in clean mode under `ck`
 *   len-4..  the tag: 128-EIA3 of the masked body's bits under `ik`
 *
 * Each function is lent two keys of 16 bytes and the whole frame, and needs no other
 * memory. What is written is read back: the same fields and the same plain body; and
 * an accepted frame is the only one with its fields and plain body under its keys.
 *
 * THE TWO KEYS MUST DIFFER. At direction 0 EEA3 and EIA3 make the same IV, so that one
 * key for both would mask and tag with one keystream. No refusal tells.
 *
 * A FRAME SENT TWICE is accepted twice: after zuc_frame_read ask zuc_guard_accept,
 * below, before the body is used (tests/c/sealed.c is an example to copy).
 * ------------------------------------------------------------------------- */

/*
 * Writes a frame: finds the plain body at byte 13 of `frame`, masks it there and fills
 * in every other byte, whatever stood there. Every bit of the body past `bits` must be
 * 0.
 *
 * Alters `frame`. Refuses with ZUC_BAD_KEY (either key), ZUC_BAD_FRAME (len below 17),
 * ZUC_BAD_LENGTH (len above 65538), ZUC_BAD_FIELD, ZUC_BAD_BODY, checked in this order:
 * every byte of the frame is then as it came. ZUC_SPENT is never met: no frame is long
 * enough.
 */
uint32_t zuc_frame_write(const uint8_t *ck, size_t ck_len,
                         const uint8_t *ik, size_t ik_len,
                         uint32_t count, uint8_t bearer, uint8_t direction,
                         uint32_t bits, uint8_t *frame, size_t len);

/*
 * Reads a frame: checks it, its tag at the last, and only then unmasks the body where it
 * stands. No other byte is touched.
 *
 * Alters `frame` from byte 13 to byte len - 5 and sets fields[0..3] to COUNT, bearer,
 * direction and the bit length of the body. Refuses with ZUC_BAD_KEY (either key),
 * ZUC_BAD_FRAME (len below 17, or the version), ZUC_BAD_LENGTH (so always for len above
 * 65538, if the version is 1), ZUC_BAD_FIELD, ZUC_BAD_BODY (of the masked body),
 * ZUC_BAD_TAG, checked in this order: every byte of the frame is then as it came, its
 * body masked, and fields[0..3] are 0. ZUC_SPENT is never met. All four bytes of a tag
 * are compared, also when the first one differs.
 */
uint32_t zuc_frame_read(const uint8_t *ck, size_t ck_len,
                        const uint8_t *ik, size_t ik_len,
                        uint8_t *frame, size_t len, uint32_t fields[4]);

/* ---------------------------------------------------------------------------
 * A guard, so that no COUNT passes twice under one key: two blocks with one
 * COUNT would share a keystream. The caller lends a table of links, one for each
 * key, bearer and direction, since COUNT is counted apart in each.
 *
 * Over any calls on a table that began with fresh links: a COUNT is accepted
 * exactly if the link is there, the COUNT is not more than 63 below the highest
 * accepted on that link since it was last re-keyed (0 if none was), and it was
 * not accepted there since. A call alters its own link alone. COUNT does not
 * wrap: after 4294967295 a link must be re-keyed, and until then only counts
 * from 4294967232 on pass, each once.
 *
 * ASK IT AFTER THE TAG IS CHECKED and before the body is used (tests/c/receive.c
 * is an example to copy). Asked before, a forged COUNT would move the window, and
 * good blocks would be refused; asked after the body is used, a block sent twice
 * would be used twice.
 * ------------------------------------------------------------------------- */

/*
 * A link. Zeros are a fresh one: highest 0, none accepted. Bit i of `accepted`
 * says that COUNT highest - i was accepted.
 *
 * Any two numbers are taken as they are. A bit past bit `highest` would stand for
 * a COUNT below 0: no answer depends on it, and an accepted COUNT clears it.
 */
struct zuc_link {
    uint32_t highest;
    uint64_t accepted;
};

/*
 * Asks whether `count` may pass on links[at]; if so, that it has is noted there.
 *
 * Alters links[at] alone. Refuses with ZUC_BAD_LINK (at is not below len),
 * ZUC_BAD_AGE, ZUC_BAD_REUSE, checked in this order: every link is then as it
 * came. It loops over neither the table nor the window.
 */
uint32_t zuc_guard_accept(struct zuc_link *links, size_t len, size_t at,
                          uint32_t count);

/*
 * Makes links[at] fresh again, for a new key. Under the old key it would let
 * every COUNT pass once more.
 *
 * Alters links[at] alone. Refuses with ZUC_BAD_LINK: every link is then as it
 * came.
 */
uint32_t zuc_guard_rekey(struct zuc_link *links, size_t len, size_t at);

#ifdef __cplusplus
}
#endif

#endif /* ZUC_H */
