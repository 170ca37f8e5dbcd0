/*
 * An example to copy: a reading is sealed in a frame that another vendor can open
 * (docs/FRAME.md), and a frame that was received is opened.
 *
 *   1. zuc_frame_read. It finds what is no frame, and what nobody made who has the keys; only
 *      after that is the body plain.
 *   2. the guard, with the frame's COUNT: a frame that comes twice is read twice, and stops
 *      here, before the body is used.
 *
 * The two keys differ: one key for both would mask and tag with one keystream.
 * A frame says its own bearer and direction; a receiver who expects others says no.
 * Runs itself on a few frames; exits with 1 if a step fails.
 */
#include "zuc.h"

#include <stdio.h>
#include <string.h>

/* Bytes beside the body, and before it. */
enum { BESIDE = 17, HEAD = 13 };

/* What both ends share of one direction of one bearer; its link stands in a table. */
struct keys {
    uint8_t ck[16], ik[16];
    uint8_t bearer, direction;
};

enum opened { OPENED, NO_FRAME, ANOTHERS, SEEN_OR_OLD };

/* Seals n bytes of text into `frame`, which has room for n + BESIDE. */
static uint32_t seal(const struct keys *keys, uint32_t count, const char *text, size_t n,
                     uint8_t *frame)
{
    memcpy(frame + HEAD, text, n);
    return zuc_frame_write(keys->ck, 16, keys->ik, 16, count, keys->bearer, keys->direction,
                           (uint32_t)(8 * n), frame, n + BESIDE);
}

/* Leaves the plain body at byte HEAD; it is to be used only if the answer is OPENED. */
static enum opened open_frame(const struct keys *keys, struct zuc_link *links, size_t len,
                              size_t at, uint8_t *frame, size_t n)
{
    uint32_t fields[4];

    if (zuc_frame_read(keys->ck, 16, keys->ik, 16, frame, n, fields) != 0)
        return NO_FRAME;
    if (fields[1] != keys->bearer || fields[2] != keys->direction)
        return ANOTHERS;
    return zuc_guard_accept(links, len, at, fields[0]) == 0 ? OPENED : SEEN_OR_OLD;
}

static int failures;

static void expect(int holds, const char *what)
{
    if (!holds) {
        failures++;
        fprintf(stderr, "sealed.c: not so: %s\n", what);
    }
}

int main(void)
{
    static const struct keys keys = {{1, 2, 3}, {4, 5, 6}, 7, 1};
    static const struct keys other = {{1, 2, 3}, {4, 5, 6}, 7, 0};
    struct zuc_link links[2] = {{0, 0}, {0, 0}};
    uint8_t frame[8 + BESIDE], again[8 + BESIDE], forged[8 + BESIDE];

    expect(seal(&keys, 1000, "register", 8, frame) == 0, "a reading is sealed");
    expect(memcmp(frame + HEAD, "register", 8) != 0, "its body is masked");
    memcpy(again, frame, sizeof frame);
    memcpy(forged, frame, sizeof frame);

    forged[6] ^= 1; /* COUNT 1001 */
    expect(open_frame(&keys, links, 2, 1, forged, sizeof forged) == NO_FRAME, "a forged COUNT");
    expect(links[1].highest == 0, "has not moved the window");
    expect(open_frame(&keys, links, 2, 1, frame, sizeof frame) == OPENED, "a frame is opened");
    expect(memcmp(frame + HEAD, "register", 8) == 0, "its body is plain");
    expect(open_frame(&keys, links, 2, 1, again, sizeof again) == SEEN_OR_OLD, "and once only");

    expect(seal(&other, 1001, "downlink", 8, frame) == 0, "the other direction is sealed");
    expect(open_frame(&keys, links, 2, 1, frame, sizeof frame) == ANOTHERS, "and not taken for it");
    printf("sealed.c: %d failed\n", failures);
    return failures != 0;
}
