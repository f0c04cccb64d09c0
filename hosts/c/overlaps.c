/* thawribbon_board_serve over buffers that overlap, or only touch: every two of them, at the distances where that changes. */
#include "first_day.h"

#include "groups.h"
#include "thawribbon.h"

#include <string.h>

/* What it is lent. It writes the first four, so these may overlap none; the others it only reads. */
enum {
    BOARD,
    ANSWER,
    ORDINARY,
    TRUSTED,
    ORDINARY_RULES,
    ORDINARY_MARKS,
    TRUSTED_RULES,
    TRUSTED_MARKS,
    PACKET,
    LENT,
    READ_ONLY = ORDINARY_RULES
};

static const size_t lengths[LENT] = {sizeof(thawribbon_board), sizeof(thawribbon_answer), THAWRIBBON_SPACE, THAWRIBBON_SPACE, THAWRIBBON_SPACE,
                                     THAWRIBBON_SPACE, THAWRIBBON_SPACE, THAWRIBBON_SPACE, 16};

/* The one place that can be written. Wherever the buffers are put, no struct and no packet comes to lie there in marks: so no bit is in both
 * rules and marks, and only an overlap is answered 1. */
enum { PLACE = 0x804 };
static const uint8_t trusted_write[16] = {THAWRIBBON_TRUSTED_WRITE, 0, 0, 1, 1, 0, 7, 0x0F,
                                          0x05, 0x18, PLACE >> 8, PLACE & 0xFF, 0x11, 0x22, 0x33, 0x44};

/* All of them lie in here, at these places. */
enum { FAR = 3 * THAWRIBBON_SPACE };
static union {
    uint64_t aligned;
    uint8_t bytes[(LENT + 1) * FAR];
} memory;
static uint8_t before[sizeof memory.bytes];
static size_t places[LENT];

static uint8_t *placed(size_t which)
{
    return memory.bytes + places[which];
}

static thawribbon_answer *answer(void)
{
    return (thawribbon_answer *)(void *)placed(ANSWER);
}

static void far_apart(void)
{
    size_t which;
    for (which = 0; which < LENT; which++) {
        places[which] = FAR * (which + 1);
    }
}

/* A space whose buffers are at their places. */
static thawribbon_space space(size_t bytes, size_t rules, size_t marks)
{
    thawribbon_space one;
    one.bytes = (thawribbon_bytes *)placed(bytes);
    one.rules = (thawribbon_bytes *)placed(rules);
    one.marks = (thawribbon_bytes *)placed(marks);
    return one;
}

/* Has the board, with everything at its place, answer the trusted write or its first bytes. Every byte that no one sets is 0. */
static thawribbon_outcome serve(size_t packet_length)
{
    thawribbon_board board = {{0, 0x104, 0x00C, THAWRIBBON_EDITION_1}, {1, 0x05, 3}, {NULL, NULL, NULL}, {NULL, NULL, NULL}};
    board.ordinary = space(ORDINARY, ORDINARY_RULES, ORDINARY_MARKS);
    board.trusted = space(TRUSTED, TRUSTED_RULES, TRUSTED_MARKS);
    memset(memory.bytes, 0, sizeof memory.bytes);
    memset(placed(ORDINARY_RULES) + PLACE, 0xFF, 4);
    memset(placed(TRUSTED_RULES) + PLACE, 0xFF, 4);
    memcpy(placed(PACKET), trusted_write, sizeof trusted_write);
    memcpy(placed(BOARD), &board, sizeof board);
    memcpy(before, memory.bytes, sizeof before);
    return thawribbon_board_serve((thawribbon_board *)(void *)placed(BOARD), placed(PACKET), packet_length, answer());
}

/* But for the answer, everything is as it was before; the answer is left out by putting it into what was before. */
static void rest_is_as_before(size_t at)
{
    memcpy(before + places[ANSWER], placed(ANSWER), lengths[ANSWER]);
    expect(memcmp(memory.bytes, before, sizeof before) == 0, "something else was written", at);
}

static void is_done(size_t at)
{
    expect(serve(16) == THAWRIBBON_DONE && answer()->outcome == THAWRIBBON_DONE, "it was not done", at);
    memcpy(before + places[TRUSTED] + PLACE, trusted_write + THAWRIBBON_DATA, 4);
    rest_is_as_before(at);
}

static void is_refused(size_t packet_length, uint8_t number, size_t at)
{
    uint8_t nothing[THAWRIBBON_REPLY];
    memset(nothing, 0xFF, sizeof nothing);
    expect(serve(packet_length) == THAWRIBBON_REFUSED && answer()->outcome == THAWRIBBON_REFUSED, "it was not refused", at);
    expect(answer()->number == number && answer()->length == 0, "another number or length", at);
    expect(memcmp(answer()->completion, nothing, sizeof nothing) == 0, "the completion is not FFh", at);
    rest_is_as_before(at);
}

/* Two of them that just touch, on either side; with a byte in common on either side, with most, and with one start. Structs stay aligned. */
static void two(size_t one, size_t other)
{
    const size_t step = one == BOARD && other == ANSWER ? sizeof(uint64_t) : 1, at = 10 * one + other;
    far_apart();
    places[other] = places[one] - lengths[other];
    is_done(at);
    places[other] += step;
    is_refused(16, THAWRIBBON_BAD_DESCRIPTION, at);
    places[other] = places[one] - lengths[other] / 4;
    is_refused(16, THAWRIBBON_BAD_DESCRIPTION, at);
    places[other] = places[one];
    is_refused(16, THAWRIBBON_BAD_DESCRIPTION, at);
    places[other] = places[one] + lengths[one] - step;
    is_refused(16, THAWRIBBON_BAD_DESCRIPTION, at);
    places[other] += step;
    is_done(at);
}

static void every_two(void)
{
    size_t one, other;
    for (one = 0; one < READ_ONLY; one++) {
        for (other = one + 1; other < LENT; other++) {
            two(one, other);
        }
    }
}

/* What is only read may be the same, or overlap. */
static void same_rules(void)
{
    far_apart();
    places[TRUSTED_RULES] = places[ORDINARY_RULES];
    is_done(0);
    places[TRUSTED_RULES]++;
    is_done(1);
}

static void same_marks(void)
{
    far_apart();
    places[TRUSTED_MARKS] = places[ORDINARY_MARKS];
    is_done(0);
    places[TRUSTED_MARKS]++;
    is_done(1);
    places[TRUSTED_MARKS] = places[TRUSTED_RULES] + 16;
    is_done(2);
    places[PACKET] = places[ORDINARY_MARKS];
    is_done(3);
}

/* A packet without bytes overlaps nothing, wherever its pointer leads. */
static void empty_packets(void)
{
    size_t which;
    for (which = 0; which < PACKET; which++) {
        far_apart();
        places[PACKET] = places[which] + 1;
        is_refused(0, THAWRIBBON_SHORT_PACKET, which);
    }
}

void overlaps(void)
{
    group("board, every two buffers that overlap or touch", every_two);
    group("board, the same rules twice", same_rules);
    group("board, the same marks twice, in rules, and with the packet in them", same_marks);
    group("board, an empty packet in another buffer", empty_packets);
}
