#include "bench_pair.h"

#include "groups.h"

#include <string.h>

bench_side sides[SIDES];
uint32_t pair_edition;

const thawribbon_capture captured_by[SIDES] = {{1, 0x05, 3}, {1, 0x06, 9}};
const uint8_t trusted_at_004[SIDES][4] = {{0x08, 0x00, 0x00, 0x00}, {0x18, 0x00, 0x00, 0x00}};

size_t other_side(size_t side)
{
    return side == PRIMARY ? ALTERNATE : PRIMARY;
}

static void fresh_side(bench_side *side, thawribbon_function described, uint8_t ordinary_byte, uint8_t trusted_byte)
{
    static const uint8_t all_writable[4] = {0xFF, 0xFF, 0xFF, 0xFF};
    size_t part;
    side->description = described;
    side->kept = fresh_capture;
    for (part = 0; part < PARTS; part++) {
        fill(&side->parts[part], 0x00, THAWRIBBON_SPACE);
    }
    fill(&side->parts[ORDINARY], ordinary_byte, THAWRIBBON_SPACE);
    fill(&side->parts[TRUSTED], trusted_byte, THAWRIBBON_SPACE);
    put(&side->parts[ORDINARY_RULES], 0x004, all_writable, 4);
    put(&side->parts[TRUSTED_RULES], 0x004, all_writable, 4);
}

void fresh_pair(void)
{
    static const thawribbon_function described[SIDES] = {{0, 0x104, 0x00C}, {1, 0x208, 0x010}};
    size_t side;
    pair_edition = THAWRIBBON_EDITION_1;
    fresh_side(&sides[PRIMARY], described[PRIMARY], 0x51, 0x72);
    fresh_side(&sides[ALTERNATE], described[ALTERNATE], 0x93, 0xB4);
    for (side = 0; side < SIDES; side++) {
        put(&sides[side].parts[TRUSTED], 0x004, trusted_at_004[side], 4);
    }
    fill(&packet, 0x00, 0);
    fill(&reply, 0xEE, 18);
}

void both_captured(void)
{
    fresh_pair();
    sides[PRIMARY].kept = captured_by[PRIMARY];
    sides[ALTERNATE].kept = captured_by[ALTERNATE];
}

void send_for(const uint8_t *bytes, size_t count, uint8_t function)
{
    const uint8_t byte_9 = (uint8_t)(0x18 | function);
    send_packet(bytes, count);
    put(&packet, 9, &byte_9, 1);
}

void send_to(const uint8_t *bytes, size_t count, size_t side)
{
    const uint8_t target[2] = {captured_by[side].bus, (uint8_t)(captured_by[side].device * 8 + sides[side].description.function)};
    send_packet(bytes, count);
    put(&packet, 8, target, 2);
}

void send_as(uint8_t byte_0)
{
    put(&packet, 0, &byte_0, 1);
}

void remember_pair(void)
{
    size_t side, part;
    for (side = 0; side < SIDES; side++) {
        for (part = 0; part < PARTS; part++) {
            remember(&sides[side].parts[part]);
        }
    }
    remember(&packet);
    remember(&reply);
}

void pair_as_expected(size_t at)
{
    size_t part;
    for (part = 0; part < PARTS; part++) {
        expect(is_as_expected(&sides[PRIMARY].parts[part]), "a buffer of the primary is not as it should be", at);
        expect(is_as_expected(&sides[ALTERNATE].parts[part]), "a buffer of the alternate is not as it should be", at);
    }
    expect(is_as_expected(&packet), "the packet has changed", at);
    expect(is_as_expected(&reply), "the reply is not as it should be", at);
}

thawribbon_captures kept_by_both(void)
{
    const thawribbon_captures both = {sides[PRIMARY].kept, sides[ALTERNATE].kept};
    return both;
}

int same_captures(thawribbon_captures one, thawribbon_captures other)
{
    return same_capture(one.primary, other.primary) && same_capture(one.alternate, other.alternate);
}

static thawribbon_space space_of(bench_side *side, size_t part)
{
    const thawribbon_space space = {(thawribbon_bytes *)lent(&side->parts[part]), (thawribbon_bytes *)lent(&side->parts[part + 1]),
                                    (thawribbon_bytes *)lent(&side->parts[part + 2])};
    return space;
}

static thawribbon_side side_of(bench_side *side)
{
    thawribbon_side one;
    one.description = side->description;
    one.capture = side->kept;
    one.ordinary = space_of(side, ORDINARY);
    one.trusted = space_of(side, TRUSTED);
    return one;
}

thawribbon_pair pair_of_sides(void)
{
    thawribbon_pair pair;
    pair.edition = pair_edition;
    pair.primary = side_of(&sides[PRIMARY]);
    pair.alternate = side_of(&sides[ALTERNATE]);
    return pair;
}

static thawribbon_pair_served serve(void)
{
    buffer *one = sides[PRIMARY].parts, *two = sides[ALTERNATE].parts;
    return thawribbon_serve_pair(pair_edition, sides[PRIMARY].description, sides[ALTERNATE].description, kept_by_both(),
                                 lent(&one[ORDINARY]), one[ORDINARY].length, lent(&one[ORDINARY_RULES]), one[ORDINARY_RULES].length,
                                 lent(&one[ORDINARY_MARKS]), one[ORDINARY_MARKS].length, lent(&one[TRUSTED]), one[TRUSTED].length,
                                 lent(&one[TRUSTED_RULES]), one[TRUSTED_RULES].length, lent(&one[TRUSTED_MARKS]), one[TRUSTED_MARKS].length,
                                 lent(&two[ORDINARY]), two[ORDINARY].length, lent(&two[ORDINARY_RULES]), two[ORDINARY_RULES].length,
                                 lent(&two[ORDINARY_MARKS]), two[ORDINARY_MARKS].length, lent(&two[TRUSTED]), two[TRUSTED].length,
                                 lent(&two[TRUSTED_RULES]), two[TRUSTED_RULES].length, lent(&two[TRUSTED_MARKS]), two[TRUSTED_MARKS].length,
                                 lent(&packet), packet.length, lent(&reply), reply.length);
}

void pair_refuses(uint8_t number, size_t at)
{
    thawribbon_pair_served served;
    remember_pair();
    served = serve();
    expect(served.number == number, "another number", at);
    expect(served.length == 0, "a length that is not 0", at);
    expect(same_captures(served.kept, kept_by_both()), "other captures than were given", at);
    pair_as_expected(at);
}

size_t completed(uint8_t completion[THAWRIBBON_REPLY], size_t by, thawribbon_capture capture, uint8_t status, const uint8_t *data)
{
    const uint8_t *sent = lent(&packet), has_data = data != NULL;
    const uint8_t header[12] = {has_data ? 0x4A : 0x0A, 0, 0, has_data, capture.captured != 0 ? capture.bus : 0,
                                (uint8_t)((capture.captured != 0 ? capture.device * 8 : 0) + sides[by].description.function),
                                status, 4, sent[4], sent[5], sent[6], 0};
    memcpy(completion, header, sizeof header);
    if (has_data) {
        memcpy(completion + THAWRIBBON_DATA, data, 4);
    }
    return has_data ? 16 : 12;
}

/* A capture as it is handed out. */
static thawribbon_capture told(thawribbon_capture given)
{
    thawribbon_capture capture = fresh_capture;
    if (given.captured != 0) {
        capture = given;
        capture.captured = 1;
    }
    return capture;
}

/* The packet is served with this status and data by a function that has this capture then; all else was said before. */
static void answers_so(size_t by, thawribbon_capture after, uint8_t status, const uint8_t *data, size_t at)
{
    uint8_t completion[THAWRIBBON_REPLY];
    const size_t length = completed(completion, by, after, status, data);
    thawribbon_pair_served served;
    should_hold(&reply, 0, completion, length);
    served = serve();
    sides[by].kept = told(after);
    sides[other_side(by)].kept = told(sides[other_side(by)].kept);
    expect(served.number == THAWRIBBON_SERVED, "another number than 0", at);
    expect(served.length == length, "another length", at);
    expect(same_captures(served.kept, kept_by_both()), "other captures", at);
    pair_as_expected(at);
}

void pair_is_unsupported(size_t by, size_t at)
{
    remember_pair();
    answers_so(by, sides[by].kept, THAWRIBBON_STATUS_UNSUPPORTED, NULL, at);
}

void pair_reads(size_t by, const uint8_t data[4], size_t at)
{
    remember_pair();
    answers_so(by, sides[by].kept, THAWRIBBON_STATUS_SUCCESSFUL, data, at);
}

void pair_writes(size_t by, thawribbon_capture after, size_t part, size_t at)
{
    remember_pair();
    if (part != PARTS) {
        should_hold(&sides[by].parts[part], 0x004, landed, 4);
    }
    answers_so(by, after, THAWRIBBON_STATUS_SUCCESSFUL, NULL, at);
}
