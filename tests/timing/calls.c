/*
 * calls FUNCTION accepted|refused|wrong0..3 [ADDRESS LENGTH].. calls a function of
 * include/zuc.h with all that is secret marked as undefined, for memcheck to say where a branch
 * or an address depends on it. tests/timing/run runs this and reads what memcheck says; this
 * prints how many calls were made.
 *
 * Secret are keys, messages and buffers, and of a lent state the places, R1, R2, the key
 * pair, the tag and the waiting bytes. Public are all lengths and widths, the count of the
 * waiting bytes, the start index, the count of the words drawn, IV, COUNT, BEARER and
 * DIRECTION, and all of a guard's. Of a frame the plain body is secret; once it is sealed it
 * goes openly.
 *
 * `accepted` lends states as starts give them. `refused` lends the same with one cell
 * spoilt, each in its turn, so that each call ends by refusal 4; and the cells alone are
 * secret. `wrong0` to `wrong3` lend frames of which that byte of the tag is wrong.
 *
 * The boxes, at the addresses given, are marked too: memcheck takes what is read at a secret
 * place of a known table to be known, and so R1 and R2 would come out known.
 * Exit status: 0 every call answered as it should and left R1 and R2 secret, 1 one did not,
 * 2 bad usage.
 */
#include "zuc.h"

#include <stdio.h>
#include <stdlib.h>
#include <string.h>
#include <valgrind/memcheck.h>

/* Cells to spoil, and the two ways: 0, and 2147483648 or more. */
enum { NONE = -1, SPOILT = 32 };

static int spoilt = NONE, wrong_byte = NONE, wrong;
static unsigned calls;

static uint8_t key[32], iv[23], data[600], frame[13 + sizeof data + 4];
static uint32_t state[ZUC_STATE_WORDS], out[150], word;
static uint64_t tag_state[ZUC_TAG_WORDS], tag[2];
static size_t count;

static uint32_t random_word(void)
{
    static uint64_t seed = 1;

    seed = seed * 6364136223846793005u + 1442695040888963407u;
    return (uint32_t)(seed >> 32);
}

static void secret(void *bytes, size_t n)
{
    (void)VALGRIND_MAKE_MEM_UNDEFINED(bytes, n);
}

/* What is secret beside the cells. */
static void secret_too(void *bytes, size_t n)
{
    if (spoilt == NONE)
        secret(bytes, n);
}

/* Random bits in the place of the first `bits` of a list of numbers, highest first. */
static void scatter(uint64_t *numbers, size_t bits)
{
    size_t i;

    for (i = 0; i < bits; i++)
        numbers[i / 64] |= (uint64_t)(random_word() >> 31) << (63 - i % 64);
}

/* A call has answered, and should so; that is looked at once it is known. */
static void answered_by(uint32_t number, uint32_t expected)
{
    volatile uint32_t known = number;

    (void)VALGRIND_MAKE_MEM_DEFINED(&known, sizeof known);
    wrong |= known != expected;
    calls++;
}

static void answered(uint32_t number)
{
    answered_by(number, spoilt == NONE ? 0 : ZUC_BAD_STATE);
}

/* The same of a call that leaves R1 and R2 in 8 bytes: they must be secret as before. */
static void answered_with(uint32_t number, void *registers)
{
    uint64_t bits = 0;

    answered(number);
    (void)VALGRIND_GET_VBITS(registers, &bits, sizeof bits);
    wrong |= bits != (spoilt == NONE ? UINT64_MAX : 0);
}

/* A cell within its bounds, or the one that is to be spoilt without them. */
static uint32_t cell(int place)
{
    if (place != spoilt / 2 || spoilt == NONE)
        return 1 + random_word() % 2147483647u;
    return spoilt % 2 == 0 ? 0 : 0x80000000u | random_word();
}

/* A count that leaves words enough for any call here. */
static uint32_t drawn(void)
{
    return random_word() % (ZUC_WORDS_PER_START - 1000);
}

/* A generator's state: the places and the registers are secret, index and count are not. */
static uint32_t *lent(size_t index)
{
    int i;

    for (i = 0; i < 18; i++)
        state[i] = i < 16 ? cell(i) : random_word();
    state[18] = (uint32_t)index;
    state[19] = drawn();
    secret(state, 16 * sizeof *state);
    secret_too(&state[16], 2 * sizeof *state);
    return state;
}

/* The first bytes of a list of numbers: in each the highest first, which comes last in memory. */
static void secret_bytes(uint64_t *numbers, size_t n)
{
    for (; n >= 8; n -= 8)
        secret_too(numbers++, 8);
    secret_too((uint8_t *)numbers + 8 - n, n);
}

/* A tag's state. What its width and its count leave unused is zero in every state. */
static uint64_t *tag_lent(size_t width, size_t index, size_t waiting)
{
    size_t i;

    memset(tag_state, 0, sizeof tag_state);
    for (i = 0; i < 16; i++)
        tag_state[i / 2] = tag_state[i / 2] << 32 | cell((int)i);
    scatter(&tag_state[8], 64);
    tag_state[9] = index;
    tag_state[10] = drawn();
    scatter(&tag_state[11], 16 * width);
    scatter(&tag_state[15], 8 * width);
    if (width == 4)
        tag_state[15] >>= 32;
    scatter(&tag_state[17], 8 * waiting);
    tag_state[19] = waiting;
    tag_state[20] = width;

    secret(tag_state, 8 * sizeof *tag_state);
    secret_bytes(&tag_state[8], 8);
    secret_bytes(&tag_state[11], 2 * width);
    if (width == 4)
        secret_too(&tag_state[15], 4);
    else
        secret_bytes(&tag_state[15], width);
    secret_bytes(&tag_state[17], waiting);
    return tag_state;
}

static void call_zuc128_start(void)
{
    answered_with(zuc128_start(state, key, 16, iv, 16), &state[16]);
}

static void call_zuc256_start(void)
{
    answered_with(zuc256_start(state, key, 32, iv, 23), &state[16]);
}

static void call_eea3_start(void)
{
    answered_with(eea3_start(state, 7, 5, 1, key, 16), &state[16]);
}

static void call_eea3_start_strict(void)
{
    answered_with(eea3_start_strict(state, 7, 5, 1, key, 16), &state[16]);
}

static void call_zuc_draw(void)
{
    size_t i;

    for (i = 0; i < 16; i++)
        answered_with(zuc_draw(lent(i), &word), &state[16]);
}

/* From every index, up to more words than the library draws in one run, which is 64. */
static void call_zuc_words(void)
{
    size_t i, n;

    for (i = 0; i < 16; i++)
        for (n = 0; n <= 150; n += 1 + n / 8)
            answered_with(zuc_words(lent(i), out, n), &state[16]);
}

static void masks(__typeof__(zuc_mask_crate) *mask)
{
    size_t i, len, less;

    for (i = 0; i < 16; i++)
        for (len = 0; len <= sizeof data; len += 1 + len / 8)
            for (less = 0; less <= 8 * len && less < 100; less += 11 + less)
                answered_with(mask(lent(i), data, len, 8 * len - less, &count), &state[16]);
}

static void call_zuc_mask_crate(void)
{
    masks(zuc_mask_crate);
}

static void call_zuc_mask_clean(void)
{
    masks(zuc_mask_clean);
}

static void masks_at_once(__typeof__(eea3_mask_crate) *mask)
{
    size_t len, less;

    for (len = 0; len <= sizeof data; len += 1 + len / 8)
        for (less = 0; less <= 8 * len && less < 100; less += 11 + less)
            answered(mask(7, 5, 1, key, 16, data, len, 8 * len - less, &count));
}

static void call_eea3_mask_crate(void)
{
    masks_at_once(eea3_mask_crate);
}

static void call_eea3_mask_clean(void)
{
    masks_at_once(eea3_mask_clean);
}

static void call_eea3_mask_crate_strict(void)
{
    masks_at_once(eea3_mask_crate_strict);
}

static void call_eea3_mask_clean_strict(void)
{
    masks_at_once(eea3_mask_clean_strict);
}

static void call_zuc128_tag_start(void)
{
    answered_with(zuc128_tag_start(tag_state, key, 16, iv, 16), &tag_state[8]);
}

static void call_eia3_tag_start(void)
{
    answered_with(eia3_tag_start(tag_state, 7, 5, 1, key, 16), &tag_state[8]);
}

static void call_eia3_tag_start_strict(void)
{
    answered_with(eia3_tag_start_strict(tag_state, 7, 5, 1, key, 16), &tag_state[8]);
}

static void call_zuc256_tag_start(void)
{
    size_t width;

    for (width = 4; width <= 16; width *= 2)
        answered_with(zuc256_tag_start(tag_state, width, key, 32, iv, 23), &tag_state[8]);
}

/* Updates of states up to a width, with any number of bytes waiting. */
static void updates(__typeof__(zuc128_tag_update) *update, size_t widest)
{
    size_t width, waiting, len, i = 0;

    for (width = 4; width <= widest; width *= 2)
        for (waiting = 0; waiting < width; waiting++)
            for (len = 0; len <= sizeof data; len += 1 + len / 6)
                answered_with(update(tag_lent(width, i++ % 16, waiting), data, len), &tag_state[8]);
}

static void finishes(__typeof__(zuc128_tag_finish) *finish, size_t widest)
{
    size_t width, waiting, bits, i = 0;

    for (width = 4; width <= widest; width *= 2)
        for (waiting = 0; waiting < width; waiting++)
            for (bits = 0; bits <= 8 * sizeof data; bits += 1 + bits / 3)
                answered(finish(tag_lent(width, i++ % 16, waiting), data, sizeof data, bits, tag));
}

static void call_zuc128_tag_update(void)
{
    updates(zuc128_tag_update, 4);
}

static void call_zuc256_tag_update(void)
{
    updates(zuc256_tag_update, 16);
}

static void call_zuc128_tag_finish(void)
{
    finishes(zuc128_tag_finish, 4);
}

static void call_zuc256_tag_finish(void)
{
    finishes(zuc256_tag_finish, 16);
}

static void call_zuc128_tag(void)
{
    size_t bits;

    for (bits = 0; bits <= 8 * sizeof data; bits += 1 + bits / 8)
        answered(zuc128_tag(key, 16, iv, 16, data, sizeof data, bits, tag));
}

static void call_eia3_tag(void)
{
    size_t bits;

    for (bits = 0; bits <= 8 * sizeof data; bits += 1 + bits / 8)
        answered(eia3_tag(7, 5, 1, key, 16, data, sizeof data, bits, tag));
}

static void call_eia3_tag_strict(void)
{
    size_t bits;

    for (bits = 0; bits <= 8 * sizeof data; bits += 1 + bits / 8)
        answered(eia3_tag_strict(7, 5, 1, key, 16, data, sizeof data, bits, tag));
}

static void call_zuc256_tag(void)
{
    size_t width, bits;

    for (width = 4; width <= 16; width *= 2)
        for (bits = 0; bits <= 8 * sizeof data; bits += 1 + bits / 8)
            answered(zuc256_tag(width, key, 32, iv, 23, data, sizeof data, bits, tag));
}

/* Writes a frame around a body of which the first bits are secret; those past them are 0. */
static uint32_t seal(size_t bytes, size_t bits)
{
    uint8_t in_last = (uint8_t)(0xff00 >> bits % 8);
    size_t i;

    for (i = 0; i < bytes; i++)
        frame[13 + i] = (uint8_t)random_word();
    secret(frame + 13, bits / 8);
    if (bits % 8 != 0) {
        frame[13 + bytes - 1] &= in_last;
        (void)VALGRIND_SET_VBITS(&frame[13 + bytes - 1], &in_last, 1);
    }
    return zuc_frame_write(key, 16, key + 16, 16, 7, 5, 1, (uint32_t)bits, frame, bytes + 17);
}

/* A received frame: all of it is known, and one byte of its tag may be wrong. */
static void read_sealed(size_t bytes, size_t bits)
{
    uint32_t fields[4];

    (void)seal(bytes, bits);
    (void)VALGRIND_MAKE_MEM_DEFINED(frame, bytes + 17);
    if (wrong_byte != NONE)
        frame[13 + bytes + (size_t)wrong_byte] ^= 0x10;
    answered_by(zuc_frame_read(key, 16, key + 16, 16, frame, bytes + 17, fields),
                wrong_byte == NONE ? 0 : ZUC_BAD_TAG);
}

static void write_sealed(size_t bytes, size_t bits)
{
    answered(seal(bytes, bits));
}

static void frames(void (*call)(size_t, size_t))
{
    size_t bytes, less;

    call(0, 0);
    for (bytes = 1; bytes <= sizeof data; bytes += 1 + bytes / 8)
        for (less = 0; less < 8; less += 3)
            call(bytes, 8 * bytes - less);
}

static void call_zuc_frame_write(void)
{
    frames(write_sealed);
}

static void call_zuc_frame_read(void)
{
    frames(read_sealed);
}

/* Nothing that a guard is lent is secret: COUNT goes openly, and a link tells of counts. */
static void call_zuc_guard_accept(void)
{
    struct zuc_link links[2] = {{0, 0}, {0, 0}};

    answered(zuc_guard_accept(links, 2, 1, 7));
    answered(zuc_guard_accept(links, 2, 1, 5));
}

static void call_zuc_guard_rekey(void)
{
    struct zuc_link links[2] = {{0, 0}, {0, 0}};

    answered(zuc_guard_rekey(links, 2, 1));
}

/* What must be found, or nothing would be: a branch, and a look-up. */
static void call_a_branch(void)
{
    if (*(volatile uint8_t *)key & 1)
        count++;
}

static void call_a_look_up(void)
{
    static volatile uint8_t table[256];

    word = table[*(volatile uint8_t *)key];
}

#define ROW(name) {#name, call_##name}
static const struct {
    const char *name;
    void (*call)(void);
} rows[] = {
    ROW(zuc128_start), ROW(zuc256_start), ROW(eea3_start), ROW(eea3_start_strict), ROW(zuc_draw),
    ROW(zuc_words), ROW(zuc_mask_crate), ROW(zuc_mask_clean), ROW(eea3_mask_crate),
    ROW(eea3_mask_clean), ROW(eea3_mask_crate_strict), ROW(eea3_mask_clean_strict),
    ROW(zuc128_tag_start), ROW(eia3_tag_start), ROW(eia3_tag_start_strict), ROW(zuc256_tag_start),
    ROW(zuc128_tag_update), ROW(zuc256_tag_update), ROW(zuc128_tag_finish), ROW(zuc256_tag_finish),
    ROW(zuc128_tag), ROW(eia3_tag), ROW(eia3_tag_strict), ROW(zuc256_tag), ROW(zuc_frame_write),
    ROW(zuc_frame_read), ROW(zuc_guard_accept), ROW(zuc_guard_rekey), ROW(a_branch), ROW(a_look_up),
};

int main(int argc, char **argv)
{
    size_t i = 0;
    int arg;

    while (argc > 2 && i < sizeof rows / sizeof *rows && strcmp(argv[1], rows[i].name) != 0)
        i++;
    if (argc <= 2 || i == sizeof rows / sizeof *rows)
        return 2;
    if (strcmp(argv[2], "refused") == 0) {
        for (spoilt = 0; spoilt < SPOILT; spoilt++)
            rows[i].call();
        return wrong;
    }
    if (strncmp(argv[2], "wrong", 5) == 0)
        wrong_byte = argv[2][5] - '0';
    secret(key, sizeof key);
    secret(data, sizeof data);
    for (arg = 3; arg + 1 < argc; arg += 2)
        secret((void *)(uintptr_t)strtoull(argv[arg], NULL, 0), strtoull(argv[arg + 1], NULL, 0));
    rows[i].call();
    printf("%u\n", calls);
    return wrong;
}
