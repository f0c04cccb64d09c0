/* thawribbon_pair_serve over buffers that overlap, or only touch: every two of them, at the distances where that changes; and
 * thawribbon_pair_ask with what is heard in one of them, or right beside it. */
#include "first_day.h"

#include "bench_parts.h"
#include "groups.h"

#include <string.h>

/* What it is lent. It writes the first six, so these may overlap none; the others it only reads. */
enum { PAIR, ANSWER, SPACES, RULES = SPACES + 4, MARKS = RULES + 4, PACKET = MARKS + 4, LENT, READ_ONLY = RULES };

static size_t length_of(size_t which)
{
    switch (which) {
    case PAIR:
        return sizeof(thawribbon_pair);
    case ANSWER:
        return sizeof(thawribbon_answer);
    case PACKET:
        return 16;
    default:
        return THAWRIBBON_SPACE;
    }
}

/* The one place that can be written. Wherever the buffers are put, no struct and no packet comes to lie there in marks: so no bit is in both
 * rules and marks, and only an overlap is answered 1. */
enum { PLACE = 0x804 };
static const uint8_t trusted_write[16] = {THAWRIBBON_TRUSTED_WRITE, 0, 0, 1, 1, 0, 7, 0x0F,
                                          0x05, 0x19, PLACE >> 8, PLACE & 0xFF, 0x11, 0x22, 0x33, 0x44};

/* All of them lie in here, at these places. */
enum { FAR = 3 * THAWRIBBON_SPACE };
static union {
    uint64_t aligned;
    uint8_t bytes[(LENT + 1) * FAR];
} memory;
static uint8_t before[sizeof memory.bytes];
static size_t places[LENT];

static uint8_t *placed(size_t which)
{
    return memory.bytes + places[which];
}

static thawribbon_answer *answer(void)
{
    return (thawribbon_answer *)(void *)placed(ANSWER);
}

static thawribbon_pair *pair(void)
{
    return (thawribbon_pair *)(void *)placed(PAIR);
}

static void far_apart(void)
{
    size_t which;
    for (which = 0; which < LENT; which++) {
        places[which] = FAR * (which + 1);
    }
}

/* One of the four spaces, with its rules and marks, at their places. */
static thawribbon_space space(size_t which)
{
    thawribbon_space one;
    one.bytes = (thawribbon_bytes *)placed(SPACES + which);
    one.rules = (thawribbon_bytes *)placed(RULES + which);
    one.marks = (thawribbon_bytes *)placed(MARKS + which);
    return one;
}

/* Puts everything at its place. Every byte that no one sets is 0. */
static void set_up(void)
{
    thawribbon_pair both = {THAWRIBBON_EDITION_1,
                            {{0, 0x104, 0x00C}, THAWRIBBON_FRESH, {NULL, NULL, NULL}, {NULL, NULL, NULL}},
                            {{1, 0x104, 0x00C}, {1, 0x05, 3}, {NULL, NULL, NULL}, {NULL, NULL, NULL}}};
    size_t which;
    both.primary.ordinary = space(0);
    both.primary.trusted = space(1);
    both.alternate.ordinary = space(2);
    both.alternate.trusted = space(3);
    memset(memory.bytes, 0, sizeof memory.bytes);
    for (which = 0; which < 4; which++) {
        memset(placed(RULES + which) + PLACE, 0xFF, 4);
    }
    memcpy(placed(PACKET), trusted_write, sizeof trusted_write);
    memcpy(placed(PAIR), &both, sizeof both);
    memcpy(before, memory.bytes, sizeof before);
}

/* Has the pair answer the trusted write for its alternate, or the first bytes of it. */
static thawribbon_outcome serve(size_t packet_length)
{
    set_up();
    return thawribbon_pair_serve(pair(), placed(PACKET), packet_length, answer());
}

/* But for the answer, everything is as it was before; the answer is left out by putting it into what was before. */
static void rest_is_as_before(size_t at)
{
    memcpy(before + places[ANSWER], placed(ANSWER), sizeof(thawribbon_answer));
    expect(memcmp(memory.bytes, before, sizeof before) == 0, "something else was written", at);
}

static void is_done(size_t at)
{
    expect(serve(16) == THAWRIBBON_DONE && answer()->outcome == THAWRIBBON_DONE, "it was not done", at);
    memcpy(before + places[SPACES + 3] + PLACE, trusted_write + THAWRIBBON_DATA, 4);
    rest_is_as_before(at);
}

static void is_refused(size_t packet_length, uint8_t number, size_t at)
{
    uint8_t nothing[THAWRIBBON_REPLY];
    memset(nothing, 0xFF, sizeof nothing);
    expect(serve(packet_length) == THAWRIBBON_REFUSED && answer()->outcome == THAWRIBBON_REFUSED, "it was not refused", at);
    expect(answer()->number == number && answer()->length == 0, "another number or length", at);
    expect(memcmp(answer()->completion, nothing, sizeof nothing) == 0, "the completion is not FFh", at);
    rest_is_as_before(at);
}

/* Two of them that just touch, on either side; with a byte in common on either side, with most, and with one start. Structs stay aligned. */
static void two(size_t one, size_t other)
{
    const size_t step = one == PAIR && other == ANSWER ? sizeof(uint64_t) : 1, at = 100 * one + other;
    far_apart();
    places[other] = places[one] - length_of(other);
    is_done(at);
    places[other] += step;
    is_refused(16, THAWRIBBON_BAD_DESCRIPTION, at);
    places[other] = places[one] - length_of(other) / 4;
    is_refused(16, THAWRIBBON_BAD_DESCRIPTION, at);
    places[other] = places[one];
    is_refused(16, THAWRIBBON_BAD_DESCRIPTION, at);
    places[other] = places[one] + length_of(one) - step;
    is_refused(16, THAWRIBBON_BAD_DESCRIPTION, at);
    places[other] += step;
    is_done(at);
}

static void every_two(void)
{
    size_t one, other;
    for (one = 0; one < READ_ONLY; one++) {
        for (other = one + 1; other < LENT; other++) {
            two(one, other);
        }
    }
}

/* What is only read may be the same, or overlap: of one function, and of both. */
static void same_read(void)
{
    size_t one, other;
    for (one = 0; one < 4; one++) {
        for (other = 0; other < 4; other++) {
            far_apart();
            places[RULES + other] = places[RULES + one];
            places[MARKS + other] = places[MARKS + one] + (one != other);
            is_done(10 * one + other);
            places[MARKS + other] = places[RULES + one] + 16;
            places[PACKET] = places[RULES + one];
            is_done(10 * one + other);
        }
    }
}

/* A packet without bytes overlaps nothing, wherever its pointer leads. */
static void empty_packets(void)
{
    size_t which;
    for (which = 0; which < PACKET; which++) {
        far_apart();
        places[PACKET] = places[which] + 1;
        is_refused(0, THAWRIBBON_SHORT_PACKET, which);
    }
}

/* A Type 0 read of the alternate, which changes nothing but what is heard, with that at a place of the memory. */
static void asks_at(size_t place, int overlaps)
{
    const thawribbon_heard shown = {0, THAWRIBBON_SAID_DATA, {0x05, 0x19}, {0x01, 0x00}, 7, {0, 0, 0, 0}};
    const thawribbon_heard heard = overlaps ? nothing_heard(THAWRIBBON_BAD_DESCRIPTION) : shown;
    thawribbon_parts parts = of_kind(THAWRIBBON_TYPE0_READ);
    parts.function = 1;
    set_up();
    memcpy(before + place, &heard, sizeof heard);
    expect(thawribbon_pair_ask(pair(), parts, (thawribbon_heard *)(memory.bytes + place)) ==
               (overlaps ? THAWRIBBON_ASKED_REFUSED : THAWRIBBON_ASKED_DONE),
           "something else became of it", place);
    expect(memcmp(memory.bytes, before, sizeof before) == 0, "something else is written", place);
}

/* What is heard around the first byte and the last of the pair, and of each space, rules and marks. */
static void heard_around(void)
{
    size_t which, n;
    far_apart();
    for (which = 0; which < PACKET; which++) {
        for (n = 0; n <= 2 && which != ANSWER; n++) {
            asks_at(places[which] - sizeof(thawribbon_heard) + n, n != 0);
            asks_at(places[which] + length_of(which) - n, n != 0);
            asks_at(places[which] + n, 1);
        }
    }
}

void pair_overlaps(void)
{
    group("pair in one struct, every two buffers that overlap or touch", every_two);
    group("pair in one struct, rules and marks that are the same or overlap, with the packet in them", same_read);
    group("pair in one struct, an empty packet in another buffer", empty_packets);
    group("ask a pair, what is heard in a buffer or beside it", heard_around);
}
