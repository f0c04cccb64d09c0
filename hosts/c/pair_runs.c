/* Boards of two functions over runs of drawn packets: each function answers as a board by itself, and nothing that is sent to one of them, and
 * nothing that it begins with, shows at the other. */
#include "first_day.h"

#include "bench_board.h"
#include "bench_parts.h"
#include "drawn.h"
#include "groups.h"

#include <string.h>

enum { PRIMARY, ALTERNATE, SIDES, NEITHER = SIDES };
enum { PACKETS = 4000, MOST_BYTES = 20 };

/* What a function lends, all of it its own. */
typedef struct own_side {
    thawribbon_bytes ordinary, ordinary_rules, ordinary_marks, trusted, trusted_rules, trusted_marks;
} own_side;

/* A board with two functions of its own, and what it answered last. */
typedef struct own_pair {
    own_side sides[SIDES];
    thawribbon_pair pair;
    thawribbon_answer answer;
} own_pair;

static own_pair left, right;

static const thawribbon_function described[SIDES] = {{2, 0x104, 0x00C}, {5, 0x208, 0x010}};

static thawribbon_side *side_of(own_pair *own, size_t which)
{
    return which == PRIMARY ? &own->pair.primary : &own->pair.alternate;
}

/* Spaces, rules and marks are drawn, and no bit is in rules and marks. */
static void draw_side(own_side *side)
{
    size_t at;
    for (at = 0; at < THAWRIBBON_SPACE; at++) {
        side->ordinary.at[at] = draw();
        side->trusted.at[at] = draw();
        side->ordinary_rules.at[at] = draw();
        side->ordinary_marks.at[at] = (uint8_t)(draw() & ~side->ordinary_rules.at[at]);
        side->trusted_rules.at[at] = draw();
        side->trusted_marks.at[at] = (uint8_t)(draw() & ~side->trusted_rules.at[at]);
    }
}

/* Has a function lend what is its own, with this description and capture. */
static void lend_side(own_pair *own, size_t which, thawribbon_function function, thawribbon_capture capture)
{
    own_side *side = &own->sides[which];
    const thawribbon_side lends = {function, capture,
                                   {&side->ordinary, &side->ordinary_rules, &side->ordinary_marks},
                                   {&side->trusted, &side->trusted_rules, &side->trusted_marks}};
    *side_of(own, which) = lends;
}

static void draw_pair(own_pair *own, uint32_t edition)
{
    size_t which;
    own->pair.edition = edition;
    for (which = 0; which < SIDES; which++) {
        draw_side(&own->sides[which]);
        lend_side(own, which, described[which], fresh_capture);
    }
}

/* One of so many. */
static int once_in(unsigned many)
{
    return draw() % many == 0;
}

/* A packet with most of its bytes drawn, without a fault most of the time; its bus, device and function are each one of a few. */
static size_t draw_bytes(uint8_t bytes[MOST_BYTES])
{
    const uint8_t code = (uint8_t)(once_in(32) ? draw() : kinds[draw() % KINDS] | (once_in(16) ? 0x80 : 0x00));
    size_t at;
    for (at = 0; at < MOST_BYTES; at++) {
        bytes[at] = draw();
    }
    bytes[0] = code;
    bytes[1] = (uint8_t)(bytes[1] & (once_in(32) ? 0xFF : 0x8F));
    bytes[2] = (uint8_t)(bytes[2] & (once_in(32) ? 0xFF : once_in(8) ? 0xCC : 0x0C));
    bytes[3] = once_in(32) ? bytes[3] : 1;
    bytes[7] = (uint8_t)(bytes[7] & (once_in(32) ? 0xFF : 0x0F));
    bytes[8] = (uint8_t)(0x05 + draw() % 2);
    bytes[9] = (uint8_t)((3 + draw() % 2) * 8 + (once_in(8) ? draw() % 8 : described[draw() % SIDES].function));
    bytes[10] = once_in(2) ? 0x00 : bytes[10];
    return once_in(32) ? (size_t)(draw() % (MOST_BYTES + 1)) : 12U + (is_write(code & 0x7F) ? 4U : 0U) + ((bytes[2] & 0x80) != 0 ? 4U : 0U);
}

/* Whether a packet has one of the faults 3 to 6 under an edition. */
static int is_faulty(uint32_t edition, const uint8_t *bytes, size_t length)
{
    return length < 12 || !is_kind(bytes[0] & 0x7F) || (edition == THAWRIBBON_EDITION_2 && bytes[0] > 0x7F) ||
           length != 12U + (is_write(bytes[0] & 0x7F) ? 4U : 0U) + ((bytes[2] & 0x80) != 0 ? 4U : 0U) || (bytes[1] & 0x70) != 0 ||
           (bytes[2] & 0x33) != 0 || bytes[3] != 1 || (bytes[7] & 0xF0) != 0;
}

/* Whom a packet is for: the primary, the alternate or neither. */
static size_t whom(uint32_t edition, const uint8_t *bytes, size_t length)
{
    if (is_faulty(edition, bytes, length) || (bytes[0] & 0x3F) == 0x05) {
        return NEITHER;
    }
    return (bytes[9] & 7) == described[PRIMARY].function ? PRIMARY : (bytes[9] & 7) == described[ALTERNATE].function ? ALTERNATE : NEITHER;
}

static int same_side(own_pair *one, own_pair *other, size_t which)
{
    return same_capture(side_of(one, which)->capture, side_of(other, which)->capture) &&
           memcmp(&one->sides[which], &other->sides[which], sizeof one->sides[which]) == 0;
}

/* Both answered alike, but for the completer ID where that is left out. */
static int same_answer(const own_pair *one, const own_pair *other, int with_completer)
{
    uint8_t completion[THAWRIBBON_REPLY];
    memcpy(completion, other->answer.completion, sizeof completion);
    if (!with_completer) {
        memcpy(completion + 4, one->answer.completion + 4, 2);
    }
    return one->answer.outcome == other->answer.outcome && one->answer.number == other->answer.number &&
           one->answer.length == other->answer.length && memcmp(one->answer.completion, completion, sizeof completion) == 0;
}

static thawribbon_outcome sent(own_pair *own, const uint8_t *bytes, size_t length)
{
    return thawribbon_pair_serve(&own->pair, bytes, length, &own->answer);
}

/* A function of the other board, as a board by itself. */
static thawribbon_outcome sent_alone(own_pair *own, size_t which, const uint8_t *bytes, size_t length)
{
    thawribbon_side *side = side_of(own, which);
    thawribbon_board board;
    thawribbon_outcome outcome;
    board.description.function = side->description.function;
    board.description.a = side->description.a;
    board.description.b = side->description.b;
    board.description.edition = own->pair.edition;
    board.capture = side->capture;
    board.ordinary = side->ordinary;
    board.trusted = side->trusted;
    outcome = thawribbon_board_serve(&board, bytes, length, &own->answer);
    side->capture = board.capture;
    return outcome;
}

/* What is for a function it answers as a board by itself, and what is for neither the primary does; the other function is as it was. */
static void as_by_itself(uint32_t edition)
{
    size_t n, counted[SIDES + 1][3] = {{0, 0, 0}, {0, 0, 0}, {0, 0, 0}}, which;
    draw_pair(&left, edition);
    right = left;
    lend_side(&right, PRIMARY, described[PRIMARY], fresh_capture);
    lend_side(&right, ALTERNATE, described[ALTERNATE], fresh_capture);
    for (n = 0; n < PACKETS; n++) {
        uint8_t bytes[MOST_BYTES];
        const size_t length = draw_bytes(bytes), named = whom(edition, bytes, length);
        const thawribbon_outcome outcome = sent(&left, bytes, length);
        expect(sent_alone(&right, named == ALTERNATE ? ALTERNATE : PRIMARY, bytes, length) == outcome, "another outcome", n);
        expect(same_answer(&left, &right, 1), "another answer", n);
        expect(same_side(&left, &right, PRIMARY) && same_side(&left, &right, ALTERNATE), "another space or capture", n);
        counted[named][outcome]++;
        if (once_in(64)) {
            thawribbon_pair_reset(&left.pair);
            expect(side_of(&left, PRIMARY)->capture.captured == 0 && side_of(&left, ALTERNATE)->capture.captured == 0, "still captured", n);
            side_of(&right, PRIMARY)->capture = side_of(&right, ALTERNATE)->capture = fresh_capture;
        }
    }
    for (which = 0; which < SIDES; which++) {
        expect(counted[which][THAWRIBBON_DONE] > 400, "too few are done", counted[which][THAWRIBBON_DONE]);
        expect(counted[which][THAWRIBBON_UNSUPPORTED_REQUEST] > 200, "too few are unsupported", counted[which][1]);
        expect(counted[which][THAWRIBBON_REFUSED] == 0, "one that is for a function is refused", which);
    }
    expect(counted[NEITHER][THAWRIBBON_UNSUPPORTED_REQUEST] > 400, "too few for neither are unsupported", counted[NEITHER][1]);
    expect(counted[NEITHER][THAWRIBBON_REFUSED] > 200, "too few are refused", counted[NEITHER][2]);
    expect(counted[NEITHER][THAWRIBBON_DONE] == 0, "one that is for neither is done", 0);
}

static void as_by_itself_1(void)
{
    as_by_itself(THAWRIBBON_EDITION_1);
}

static void as_by_itself_2(void)
{
    as_by_itself(THAWRIBBON_EDITION_2);
}

/* Sends a board drawn packets that are for this function, and nothing else: none, or a few. */
static size_t send_some(own_pair *own, size_t changed)
{
    size_t count = 0, tries = draw() % 8;
    for (; tries != 0; tries--) {
        uint8_t bytes[MOST_BYTES];
        const size_t length = draw_bytes(bytes);
        if (whom(own->pair.edition, bytes, length) == changed) {
            count += sent(own, bytes, length) == THAWRIBBON_DONE;
        }
    }
    return count;
}

/* Two runs that differ in where one function begins (its spaces, rules, marks, places and capture) and in the packets for it, which are drawn
 * anew in each run: the other function is in the same state after every event, and what is for it, and for neither, is answered alike. Where
 * the primary is the changed one, the completer ID of what is for neither is its own, and may differ; nothing else of it does. */
static void isolated(size_t changed, uint32_t edition)
{
    static const thawribbon_function elsewhere[SIDES] = {{2, 0x40C, 0x3F8}, {5, 0x104, 0xFFC}};
    const size_t same = changed == PRIMARY ? ALTERNATE : PRIMARY;
    size_t n, compared = 0, done = 0, differ = 0, changes = 0;
    draw_pair(&left, edition);
    draw_pair(&right, edition);
    right.sides[same] = left.sides[same];
    lend_side(&right, changed, elsewhere[changed], five_three);
    for (n = 0; n < PACKETS; n++) {
        uint8_t bytes[MOST_BYTES];
        const size_t length = draw_bytes(bytes), named = whom(edition, bytes, length);
        changes += send_some(&left, changed) + send_some(&right, changed);
        expect(same_side(&left, &right, same), "what is for one function changed the other", n);
        if (once_in(32)) {
            thawribbon_pair_reset(&left.pair);
            thawribbon_pair_reset(&right.pair);
            expect(same_side(&left, &right, same), "a reset changed it otherwise", n);
        }
        if (named != changed) {
            const int with_completer = named == same || same == PRIMARY;
            const thawribbon_outcome outcome = sent(&left, bytes, length);
            expect(sent(&right, bytes, length) == outcome, "another outcome", n);
            expect(same_answer(&left, &right, with_completer), "another answer", n);
            expect(same_side(&left, &right, same), "another space or capture", n);
            done += outcome == THAWRIBBON_DONE;
            differ += !same_answer(&left, &right, 1);
            compared++;
        }
    }
    expect(compared > 2000 && done > 400, "too few are compared, or done", compared);
    expect(changes > 2000, "too few packets changed the other function", changes);
    expect(!same_side(&left, &right, changed), "the two runs do not differ", 0);
    expect((differ != 0) == (changed == PRIMARY), "completer IDs that should or should not differ", differ);
}

static void primary_changed(void)
{
    isolated(PRIMARY, THAWRIBBON_EDITION_1);
    isolated(PRIMARY, THAWRIBBON_EDITION_2);
}

static void alternate_changed(void)
{
    isolated(ALTERNATE, THAWRIBBON_EDITION_1);
    isolated(ALTERNATE, THAWRIBBON_EDITION_2);
}

void pair_runs(void)
{
    group("pair, 4,000 drawn packets as each function by itself answers them, edition 1", as_by_itself_1);
    group("pair, 4,000 drawn packets as each function by itself answers them, edition 2", as_by_itself_2);
    group("pair, packets for the primary and its start show in nothing of the alternate", primary_changed);
    group("pair, packets for the alternate and its start show in nothing of the primary", alternate_changed);
}
