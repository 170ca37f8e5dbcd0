/*
 * Sealed frames (request 2026-01): the worked frames of docs/FRAME.md, round trips, every
 * refusal alone and with every other, each bit of a frame altered, and lengths at the edges.
 * What a refusal must leave is every byte, those around the frame too, and fields of 0.
 * Prints what differs; exits with 1 if anything does.
 */
#include "check.h"
#include "zuc.h"

#include <string.h>

#define SIZE(list) (sizeof (list) / sizeof *(list))
#define LONGEST 65538
#define MARGIN 8
#define ROOM (LONGEST + 40)

/* The keys of the worked frames, each with a byte more than a key has. */
static const uint8_t ck[17] = {
    0x17, 0x3d, 0x14, 0xba, 0x50, 0x03, 0x73, 0x1d,
    0x7a, 0x60, 0x04, 0x94, 0x70, 0xf0, 0x0a, 0x29, 0x00,
};
static const uint8_t ik[17] = {
    0x47, 0x05, 0x41, 0x25, 0x56, 0x1e, 0xb2, 0xdd,
    0xa9, 0x40, 0x59, 0xda, 0x05, 0x09, 0x78, 0x50, 0x00,
};

/* The frame that is lent stands between two margins; `before` is all of it before a call. */
static uint8_t memory[ROOM + 2 * MARGIN], before[ROOM + 2 * MARGIN];
static uint8_t *const frame = memory + MARGIN;

static uint32_t number_at(const uint8_t *at)
{
    return (uint32_t)at[0] << 24 | (uint32_t)at[1] << 16 | (uint32_t)at[2] << 8 | at[3];
}

static void put_number(uint8_t *at, uint32_t number)
{
    int i;

    for (i = 0; i < 4; i++)
        at[i] = (uint8_t)(number >> (24 - 8 * i));
}

static void keep(void)
{
    memcpy(before, memory, sizeof memory);
}

/* Whether all is as it was, but for the first n bytes of the frame. */
static int kept_past(size_t n)
{
    return memcmp(memory, before, MARGIN) == 0
           && memcmp(frame + n, before + MARGIN + n, ROOM - n + MARGIN) == 0;
}

static int fields_are(const uint32_t f[4], uint32_t count, uint32_t bearer, uint32_t direction,
                      uint32_t bits)
{
    return f[0] == count && f[1] == bearer && f[2] == direction && f[3] == bits;
}

/* A byte for each place, never the same in a row of 251. */
static void fill_body(size_t bytes, uint32_t bits)
{
    size_t i;

    memset(memory, 0xee, sizeof memory);
    for (i = 0; i < bytes; i++)
        frame[13 + i] = (uint8_t)(i % 251 * 7 + bits);
    if (bits % 8 != 0)
        frame[13 + bytes - 1] &= (uint8_t)(0xff00 >> bits % 8);
}

static size_t from_hex(uint8_t *out, const char *digits)
{
    size_t n = 0;
    unsigned byte;

    for (; sscanf(digits, "%2x", &byte) == 1; digits += 2)
        out[n++] = (uint8_t)byte;
    return n;
}

/* docs/FRAME.md: made by a model that was written from the request. */
static const struct {
    uint32_t count;
    uint8_t bearer, direction;
    uint32_t bits;
    const char *body, *sealed;
} worked[] = {
    {0x66035492, 15, 0, 0, "", "01000e660354920f0000000000bda2880a"},
    {0x561eb2dd, 20, 1, 13, "a558", "010010561eb2dd14010000000dfee03818cf61"},
    {0x00056823, 24, 1, 320,
     "726567697374657220312e382e302072656164732030303432"
     "3133372e3235206b57682c206f6b2e",
     "01003600056823180100000140"
     "662cef5e026a92849ff008b00c7740d093b41fec984859c601d6291224768cc5c6abeb516782ec5c"
     "ee98c65b"},
};

static void worked_frames(void)
{
    uint8_t sealed[64], body[40];
    uint32_t fields[4];
    size_t i, n, bytes;

    for (i = 0; i < SIZE(worked); i++) {
        n = from_hex(sealed, worked[i].sealed);
        bytes = from_hex(body, worked[i].body);
        CHECK(n == bytes + 17);
        fill_body(0, 0);
        memcpy(frame + 13, body, bytes);
        keep();
        CHECK(zuc_frame_write(ck, 16, ik, 16, worked[i].count, worked[i].bearer,
                              worked[i].direction, worked[i].bits, frame, n) == 0);
        CHECK(memcmp(frame, sealed, n) == 0 && kept_past(n));
        CHECK(zuc_frame_read(ck, 16, ik, 16, frame, n, fields) == 0);
        CHECK(fields_are(fields, worked[i].count, worked[i].bearer, worked[i].direction,
                         worked[i].bits));
        memcpy(sealed + 13, body, bytes);
        CHECK(memcmp(frame, sealed, n) == 0 && kept_past(n));
    }
}

/* Written and read: the plain body comes back, and head and tag stay as they were written. */
static void round_trip(size_t bytes, uint32_t bits, uint8_t bearer, uint8_t direction)
{
    uint32_t count = 0x01020304u * (bits + 1), fields[4];
    size_t n = bytes + 17;

    fill_body(bytes, bits);
    keep();
    CHECK(zuc_frame_write(ck, 16, ik, 16, count, bearer, direction, bits, frame, n) == 0);
    CHECK(kept_past(n));
    CHECK(frame[0] == 1 && (size_t)(frame[1] << 8 | frame[2]) == n - 3);
    CHECK(number_at(frame + 3) == count && frame[7] == bearer && frame[8] == direction);
    CHECK(number_at(frame + 9) == bits);
    memcpy(before + MARGIN, frame, 13);
    memcpy(before + MARGIN + n - 4, frame + n - 4, 4);
    CHECK(zuc_frame_read(ck, 16, ik, 16, frame, n, fields) == 0);
    CHECK(fields_are(fields, count, bearer, direction, bits));
    CHECK(memcmp(memory, before, sizeof memory) == 0);
}

static void round_trips(void)
{
    uint32_t bits;

    for (bits = 0; bits <= 320; bits++)
        round_trip((bits + 7) / 8, bits, (uint8_t)(bits % 32), bits / 32 % 2);
    for (bits = 8 * 65521 - 17; bits <= 8 * 65521; bits++)
        round_trip((bits + 7) / 8, bits, 31, 1);
}

/* Lends a frame of n bytes to the reader, who refuses it, by this number if it is not 0. */
static void refused_read(size_t ck_len, size_t ik_len, size_t n, uint32_t number)
{
    uint32_t fields[4] = {7, 7, 7, 7}, answer;

    keep();
    answer = zuc_frame_read(ck, ck_len, ik, ik_len, frame, n, fields);
    CHECK(answer != 0 && (number == 0 || answer == number));
    CHECK(kept_past(0) && fields_are(fields, 0, 0, 0, 0));
}

/* What can be wrong with a frame that is read, in the order in which it is found. */
enum { CK, IK, VERSION, LENGTH, BEARER, DIRECTION, BITS, PAST_BITS, TAG, WRONG_READS };
static const uint32_t read_number[WRONG_READS] = {
    ZUC_BAD_KEY,   ZUC_BAD_KEY,  ZUC_BAD_FRAME, ZUC_BAD_LENGTH, ZUC_BAD_FIELD,
    ZUC_BAD_FIELD, ZUC_BAD_BODY, ZUC_BAD_BODY,  ZUC_BAD_TAG,
};

/* A frame with these things wrong and no other: its tag is right, unless it is one of them. */
static void spoil(unsigned wrong)
{
    uint32_t bits = wrong >> BITS & 1 ? 8 : 13;
    uint64_t tag[2];

    fill_body(2, 13);
    frame[0] = wrong >> VERSION & 1 ? 2 : 1;
    frame[1] = 0;
    frame[2] = (uint8_t)(16 + (wrong >> LENGTH & 1));
    frame[7] = wrong >> BEARER & 1 ? 33 : 1;
    frame[8] = wrong >> DIRECTION & 1 ? 3 : 1;
    put_number(frame + 9, bits);
    frame[14] |= wrong >> PAST_BITS & 1;
    CHECK(eia3_tag(number_at(frame + 3), frame[7], frame[8], ik, 16, frame + 13, 2, bits, tag)
          == 0);
    put_number(frame + 15, (uint32_t)tag[0] ^ (wrong >> TAG & 1));
}

static void every_read(void)
{
    unsigned wrong, first;

    for (wrong = 1; wrong < 1u << WRONG_READS; wrong++) {
        for (first = 0; !(wrong >> first & 1); first++)
            ;
        spoil(wrong);
        refused_read(wrong >> CK & 1 ? 17 : 16, wrong >> IK & 1 ? 15 : 16, 19, read_number[first]);
    }
}

/* Keys wrong or right, a length of each kind, the fields and the bit length in all combinations. */
static void every_write(void)
{
    static const size_t lengths[] = {0, 16, 17, 19, LONGEST, LONGEST + 1, LONGEST + 17};
    size_t i, n;
    unsigned wrong;

    for (i = 0; i < SIZE(lengths); i++)
        for (wrong = 0; wrong < 64; wrong++) {
            int bad_key = (wrong & 3) != 0, bad_field = (wrong & 12) != 0;
            int bad_body = lengths[i] == 17 ? (wrong & 16) != 0 : (wrong & 48) != 0;
            size_t bytes = lengths[i] < 17 ? 0 : lengths[i] - 17;
            uint32_t bits = (uint32_t)(8 * bytes) + (wrong & 16) / 16, expected;

            n = lengths[i];
            fill_body(bytes, 0);
            if (wrong & 32 && bytes > 0) { /* the last byte's last bit is past the length */
                bits -= 7;
                frame[13 + bytes - 1] |= 1;
            }
            expected = bad_key       ? ZUC_BAD_KEY
                       : n < 17      ? ZUC_BAD_FRAME
                       : n > LONGEST ? ZUC_BAD_LENGTH
                       : bad_field   ? ZUC_BAD_FIELD
                       : bad_body    ? ZUC_BAD_BODY
                                     : 0;
            keep();
            CHECK(zuc_frame_write(ck, wrong & 1 ? 0 : 16, ik, wrong & 2 ? 17 : 16, 5,
                                  wrong & 4 ? 32 : 31, wrong & 8 ? 2 : 1, bits, frame, n)
                  == expected);
            CHECK(kept_past(expected == 0 ? n : 0));
        }
}

/* The number by which a frame of `bits` bits is refused once one bit of a byte is turned. */
static uint32_t number_of(size_t at, size_t n, uint32_t bits)
{
    uint32_t bytes = (uint32_t)n - 17, now = number_at(frame + 9);

    if (at < 3)
        return at == 0 ? ZUC_BAD_FRAME : ZUC_BAD_LENGTH;
    if (frame[7] > 31 || frame[8] > 1)
        return ZUC_BAD_FIELD;
    if (now != bits && now / 8 + (now % 8 != 0) != bytes)
        return ZUC_BAD_BODY;
    if (now % 8 != 0 && (frame[13 + bytes - 1] & (0xff >> now % 8)) != 0)
        return ZUC_BAD_BODY;
    return ZUC_BAD_TAG;
}

/* A wrong tag is told by 10 and by nothing else. */
static void every_bit(uint32_t bits)
{
    size_t bytes = (bits + 7) / 8, n = bytes + 17, bit;

    fill_body(bytes, bits);
    CHECK(zuc_frame_write(ck, 16, ik, 16, 0x12345678, 9, 0, bits, frame, n) == 0);
    for (bit = 0; bit < 8 * n; bit++) {
        frame[bit / 8] ^= (uint8_t)(0x80 >> bit % 8);
        refused_read(16, 16, n, number_of(bit / 8, n, bits));
        frame[bit / 8] ^= (uint8_t)(0x80 >> bit % 8);
    }
}

/* Read with one byte more or fewer than it has, and with the keys changed about. */
static void lent_wrongly(void)
{
    uint32_t fields[4] = {7, 7, 7, 7};
    size_t n;

    round_trip(40, 320, 3, 1);
    CHECK(zuc_frame_write(ck, 16, ik, 16, 1, 3, 1, 320, frame, 57) == 0);
    for (n = 0; n <= 80; n++)
        if (n != 57)
            refused_read(16, 16, n, n < 17 ? ZUC_BAD_FRAME : ZUC_BAD_LENGTH);
    keep();
    CHECK(zuc_frame_read(ik, 16, ck, 16, frame, 57, fields) == ZUC_BAD_TAG);
    CHECK(kept_past(0) && fields_are(fields, 0, 0, 0, 0));
}

/* More bytes than a frame has, and right but for that: no length field can say so many. */
static void too_long(void)
{
    uint64_t tag[2];
    size_t n;

    for (n = LONGEST + 1; n <= LONGEST + 20; n++) {
        fill_body(n - 17, 0);
        frame[0] = 1;
        frame[1] = (uint8_t)((n - 3) >> 8);
        frame[2] = (uint8_t)(n - 3);
        frame[7] = frame[8] = 1;
        put_number(frame + 9, (uint32_t)(8 * (n - 17)));
        CHECK(eia3_tag(number_at(frame + 3), 1, 1, ik, 16, frame + 13, n - 17, 8 * (n - 17), tag)
              == 0);
        put_number(frame + n - 4, (uint32_t)tag[0]);
        refused_read(16, 16, n, ZUC_BAD_LENGTH);
        frame[0] = 0;
        refused_read(16, 16, n, ZUC_BAD_FRAME);
    }
}

/* Lengths that 32 bits do not hold, which a call must not look at; and the longest bit length. */
static void past_32_bits(void)
{
    fill_body(2, 13);
    keep();
    if (sizeof(size_t) > 4) {
        size_t more = (size_t)1 << 16 << 16;

        CHECK(zuc_frame_write(ck, 16, ik, 16, 1, 2, 0, 13, frame, more + 19) == ZUC_BAD_LENGTH);
        CHECK(zuc_frame_write(ck, more + 16, ik, 16, 1, 2, 0, 13, frame, 19) == ZUC_BAD_KEY);
        CHECK(zuc_frame_write(ck, 16, ik, more + 16, 1, 2, 0, 13, frame, 19) == ZUC_BAD_KEY);
    }
    CHECK(zuc_frame_write(ck, 16, ik, 16, 1, 2, 0, 4294967295u, frame, 19) == ZUC_BAD_BODY);
    CHECK(zuc_frame_write(ck, 16, ik, 16, 1, 2, 0, 4294967295u, frame, 17) == ZUC_BAD_BODY);
    CHECK(kept_past(0));
}

int main(void)
{
    worked_frames();
    round_trips();
    every_read();
    every_write();
    every_bit(0);
    every_bit(13);
    every_bit(16);
    every_bit(320);
    lent_wrongly();
    too_long();
    past_32_bits();
    printf("frame.c: %d checks, %d failed\n", checks, failures);
    return failures != 0;
}
