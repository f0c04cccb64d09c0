/* The inline helpers of thawribbon.h for a board of two functions: they give what the functions under them give, and touch nothing else. */
#include "first_day.h"

#include "bench_pair.h"
#include "bench_parts.h"
#include "drawn.h"
#include "groups.h"

#include <string.h>

/* A pair, an answer and what is heard, each with a guard before and after it. */
static struct {
    uint8_t guard_0[16];
    thawribbon_pair pair;
    uint8_t guard_1[16];
    thawribbon_answer answer;
    uint8_t guard_2[16];
    thawribbon_heard heard;
    uint8_t guard_3[16];
} held;

static void guards_hold(size_t at)
{
    uint8_t guards[16];
    memset(guards, 0xA7, sizeof guards);
    expect(memcmp(held.guard_0, guards, sizeof guards) == 0, "something was written before the pair", at);
    expect(memcmp(held.guard_1, guards, sizeof guards) == 0, "something was written between pair and answer", at);
    expect(memcmp(held.guard_2, guards, sizeof guards) == 0, "something was written between answer and what is heard", at);
    expect(memcmp(held.guard_3, guards, sizeof guards) == 0, "something was written after what is heard", at);
}

/* The pair of the bench in one struct, over the same guarded buffers; answer and what is heard hold what nobody wrote. */
static void hold_pair(void)
{
    memset(&held, 0xA7, sizeof held);
    held.pair = pair_of_sides();
}

static int same_space(thawribbon_space one, thawribbon_space other)
{
    return one.bytes == other.bytes && one.rules == other.rules && one.marks == other.marks;
}

static int same_side(const thawribbon_side *one, const thawribbon_side *other)
{
    return one->description.function == other->description.function && one->description.a == other->description.a &&
           one->description.b == other->description.b && same_capture(one->capture, other->capture) &&
           same_space(one->ordinary, other->ordinary) && same_space(one->trusted, other->trusted);
}

static int same_pair(const thawribbon_pair *one, const thawribbon_pair *other)
{
    return one->edition == other->edition && same_side(&one->primary, &other->primary) && same_side(&one->alternate, &other->alternate);
}

/* The completion is these bytes, and FFh past them: where there is none, in all of it. */
static void completion_is(const uint8_t *bytes, size_t length, size_t at)
{
    uint8_t whole[THAWRIBBON_REPLY];
    memset(whole, 0xFF, sizeof whole);
    if (length != 0) {
        memcpy(whole, bytes, length);
    }
    expect(held.answer.length == length, "another length", at);
    expect(memcmp(held.answer.completion, whole, sizeof whole) == 0, "another completion", at);
}

/* The pair answers the lent packet so, and is this one then; what the spaces should hold was said before. */
static void pair_answers(thawribbon_outcome outcome, uint8_t number, const uint8_t *bytes, size_t length, thawribbon_pair after, size_t at)
{
    expect(thawribbon_pair_serve(&held.pair, lent(&packet), packet.length, &held.answer) == outcome, "another outcome", at);
    expect(held.answer.outcome == outcome, "another outcome in the answer", at);
    expect(held.answer.number == number, "another number", at);
    completion_is(bytes, length, at);
    expect(same_pair(&held.pair, &after), "the pair is not as it should be", at);
    pair_as_expected(at);
    guards_hold(at);
}

static void is_refused(uint8_t number, size_t at)
{
    remember_pair();
    pair_answers(THAWRIBBON_REFUSED, number, NULL, 0, held.pair, at);
    expect(thawribbon_data(&held.answer) == NULL, "data of a refusal", at);
}

/* A packet is served by this function, with this status and data; it has this capture then. */
static void is_served(size_t by, thawribbon_capture after, uint8_t status, const uint8_t *data, size_t at)
{
    uint8_t completion[THAWRIBBON_REPLY];
    const size_t length = completed(completion, by, after, status, data);
    thawribbon_pair expected = held.pair;
    *(by == PRIMARY ? &expected.primary.capture : &expected.alternate.capture) = after;
    pair_answers(status == THAWRIBBON_STATUS_SUCCESSFUL ? THAWRIBBON_DONE : THAWRIBBON_UNSUPPORTED_REQUEST, THAWRIBBON_SERVED, completion, length,
                 expected, at);
    expect((thawribbon_data(&held.answer) == NULL) == (data == NULL), "data where there is none, or none where there is", at);
}

/* P1 to P3 at each function: not done, done, and done with data; then a reset, and not done again at either. */
static void first_packets(void)
{
    size_t side;
    for (side = 0; side < SIDES; side++) {
        fresh_pair();
        hold_pair();
        send_to(trusted_read, 12, side);
        remember_pair();
        is_served(side, fresh_capture, THAWRIBBON_STATUS_UNSUPPORTED, NULL, 1);
        send_to(write_packet, 16, side);
        remember_pair();
        should_hold(&sides[side].parts[ORDINARY], 0x004, landed, 4);
        is_served(side, captured_by[side], THAWRIBBON_STATUS_SUCCESSFUL, NULL, 2);
        send_to(trusted_read, 12, side);
        remember_pair();
        is_served(side, captured_by[side], THAWRIBBON_STATUS_SUCCESSFUL, trusted_at_004[side], 3);
        send_for(write_packet, 16, 7);
        remember_pair();
        is_served(PRIMARY, held.pair.primary.capture, THAWRIBBON_STATUS_UNSUPPORTED, NULL, 4);
    }
    both_captured();
    hold_pair();
    thawribbon_pair_reset(&held.pair);
    fresh_pair();
    expect(same_captures(kept_by_both(), (thawribbon_captures){held.pair.primary.capture, held.pair.alternate.capture}), "still captured", 5);
    for (side = 0; side < SIDES; side++) {
        send_to(trusted_read, 12, side);
        remember_pair();
        is_served(side, fresh_capture, THAWRIBBON_STATUS_UNSUPPORTED, NULL, 6);
    }
}

/* A packet of every length for each function, one number twice, and no edition: after every refusal the pair is as it was. */
static void refused_packets(void)
{
    size_t n, side;
    for (n = 0; n < LENGTHS * SIDES; n++) {
        const size_t length = tried_length(n % LENGTHS);
        side = n / LENGTHS;
        both_captured();
        hold_pair();
        send_to(write_packet, 16, side);
        resize(&packet, length);
        if (length != 16) {
            is_refused(length < 12 ? THAWRIBBON_SHORT_PACKET : THAWRIBBON_WRONG_LENGTH, length);
        }
        held.pair.alternate.description.function = 0;
        is_refused(THAWRIBBON_BAD_DESCRIPTION, length);
        held.pair.alternate.description.function = 1;
        held.pair.edition = 0;
        is_refused(THAWRIBBON_BAD_DESCRIPTION, length);
    }
    for (n = 0; n < POINTERS; n++) {
        fresh_pair();
        hold_pair();
        lend_instead(&packet, pointer_to_nothing(n));
        is_refused(THAWRIBBON_SHORT_PACKET, n);
    }
}

/* A buffer that was forgotten is NULL, and is refused with 1, whichever function is named: each by itself, and all of a function. */
static void forgotten_buffers(void)
{
    size_t part, side;
    for (part = 0; part <= PARTS; part++) {
        for (side = 0; side < SIDES; side++) {
            thawribbon_side *forgetful;
            thawribbon_space *spaces[2];
            size_t n;
            both_captured();
            hold_pair();
            forgetful = side == PRIMARY ? &held.pair.primary : &held.pair.alternate;
            spaces[0] = &forgetful->ordinary;
            spaces[1] = &forgetful->trusted;
            for (n = 0; n < 2; n++) {
                spaces[n]->bytes = part == n * 3 || part == PARTS ? NULL : spaces[n]->bytes;
                spaces[n]->rules = part == n * 3 + 1 || part == PARTS ? NULL : spaces[n]->rules;
                spaces[n]->marks = part == n * 3 + 2 || part == PARTS ? NULL : spaces[n]->marks;
            }
            send_to(write_packet, 16, side);
            is_refused(THAWRIBBON_BAD_DESCRIPTION, part);
            send_to(write_packet, 16, other_side(side));
            is_refused(THAWRIBBON_BAD_DESCRIPTION, part);
        }
    }
}

/* All four spaces may have the marks that the header has ready. */
static void no_marks(void)
{
    size_t side;
    for (side = 0; side < SIDES; side++) {
        fresh_pair();
        hold_pair();
        held.pair.primary.ordinary.marks = held.pair.primary.trusted.marks = &thawribbon_no_marks;
        held.pair.alternate.ordinary.marks = held.pair.alternate.trusted.marks = &thawribbon_no_marks;
        send_to(write_packet, 16, side);
        remember_pair();
        should_hold(&sides[side].parts[ORDINARY], 0x004, landed, 4);
        is_served(side, captured_by[side], THAWRIBBON_STATUS_SUCCESSFUL, NULL, side);
    }
}

/* Packets of the bench with some of their bytes drawn anew, for either function most of the time. */
static void draw_packet(void)
{
    uint8_t bytes[16];
    memcpy(bytes, write_packet, 16);
    bytes[0] = draw() % 16 == 0 ? draw() : kinds[draw() % KINDS];
    bytes[2] = (uint8_t)(draw() % 8 == 0 ? 0x40 : 0x00);
    bytes[7] = (uint8_t)(draw() % 16 == 0 ? draw() : draw() & 0x0F);
    bytes[9] = (uint8_t)(0x18 | (draw() % 8 == 0 ? draw() & 7 : draw() & 1));
    bytes[11] = (uint8_t)(draw() % 4 == 0 ? draw() : 0x04);
    bytes[12] = draw();
    send_packet(bytes, draw() % 16 == 0 ? (size_t)(draw() % 17) : is_write(bytes[0] & 0x7F) ? 16U : 12U);
}

/* Drawn packets, each answered first by the helper and then by thawribbon_serve_pair from the same state: both do the same. */
static void same_as_serve(void)
{
    static bench_side then[SIDES];
    size_t n, side, part, outcomes[3] = {0, 0, 0};
    fresh_pair();
    hold_pair();
    for (n = 0; n < 2000; n++) {
        thawribbon_pair_served served;
        thawribbon_outcome outcome;
        buffer *one = sides[PRIMARY].parts, *two = sides[ALTERNATE].parts;
        draw_packet();
        sides[PRIMARY].kept = held.pair.primary.capture;
        sides[ALTERNATE].kept = held.pair.alternate.capture;
        memcpy(then, sides, sizeof then);
        outcome = thawribbon_pair_serve(&held.pair, lent(&packet), packet.length, &held.answer);
        remember_pair();
        for (side = 0; side < SIDES; side++) {
            for (part = 0; part < PARTS; part++) {
                memcpy(sides[side].parts[part].held, then[side].parts[part].held, sizeof then[side].parts[part].held);
            }
        }
        fill(&reply, 0x00, THAWRIBBON_REPLY);
        served = thawribbon_serve_pair(pair_edition, sides[PRIMARY].description, sides[ALTERNATE].description, kept_by_both(),
                                       lent(&one[ORDINARY]), 4096, lent(&one[ORDINARY_RULES]), 4096, lent(&one[ORDINARY_MARKS]), 4096,
                                       lent(&one[TRUSTED]), 4096, lent(&one[TRUSTED_RULES]), 4096, lent(&one[TRUSTED_MARKS]), 4096,
                                       lent(&two[ORDINARY]), 4096, lent(&two[ORDINARY_RULES]), 4096, lent(&two[ORDINARY_MARKS]), 4096,
                                       lent(&two[TRUSTED]), 4096, lent(&two[TRUSTED_RULES]), 4096, lent(&two[TRUSTED_MARKS]), 4096,
                                       lent(&packet), packet.length, lent(&reply), reply.length);
        remember(&reply);
        pair_as_expected(n);
        expect(same_captures(served.kept, (thawribbon_captures){held.pair.primary.capture, held.pair.alternate.capture}), "other captures", n);
        expect(served.number == held.answer.number, "another number", n);
        expect(thawribbon_pair_outcome_of(served, lent(&reply)) == outcome, "another outcome", n);
        completion_is(lent(&reply), served.length, n);
        guards_hold(n);
        outcomes[outcome]++;
    }
    expect(outcomes[THAWRIBBON_DONE] > 200, "too few packets were done", outcomes[THAWRIBBON_DONE]);
    expect(outcomes[THAWRIBBON_UNSUPPORTED_REQUEST] > 200, "too few were unsupported", outcomes[THAWRIBBON_UNSUPPORTED_REQUEST]);
    expect(outcomes[THAWRIBBON_REFUSED] > 200, "too few were refused", outcomes[THAWRIBBON_REFUSED]);
}

/* Only number 0 with status 00h is done; the status of a refusal is not looked at. */
static void outcomes_told(void)
{
    unsigned number, status;
    for (number = 0; number < 256; number++) {
        thawribbon_pair_served served = {12, 0, {THAWRIBBON_FRESH, THAWRIBBON_FRESH}};
        served.number = (uint8_t)number;
        if (number != 0) {
            expect(thawribbon_pair_outcome_of(served, NULL) == THAWRIBBON_REFUSED, "another outcome of a refusal", number);
            continue;
        }
        for (status = 0; status < 256; status++) {
            uint8_t completion[12] = {0x0A};
            completion[THAWRIBBON_STATUS] = (uint8_t)status;
            expect(thawribbon_pair_outcome_of(served, completion) == (status == 0 ? THAWRIBBON_DONE : THAWRIBBON_UNSUPPORTED_REQUEST),
                   "another outcome of a status", status);
        }
    }
}

/* The pair is asked, and this is heard; what the spaces should hold was said before. */
static void hears(thawribbon_parts parts, thawribbon_asked asked, thawribbon_heard heard, size_t at)
{
    expect(thawribbon_pair_ask(&held.pair, parts, &held.heard) == asked, "something else became of it", at);
    expect(same_heard(held.heard, heard), "something else is heard", at);
    pair_as_expected(at);
    guards_hold(at);
}

/* P1, P2 and P3 asked of each function; parts that are no request; and a pair that is badly described. */
static void asked(void)
{
    uint8_t function;
    for (function = 0; function < 2; function++) {
        const uint8_t id = (uint8_t)(0x18 | function);
        const thawribbon_heard p1 = {0, THAWRIBBON_SAID_UNSUPPORTED, {0, function}, {0x01, 0x00}, 8, {0, 0, 0, 0}};
        const thawribbon_heard p2 = {0, THAWRIBBON_SAID_DONE, {0x05, id}, {0x01, 0x00}, 7, {0, 0, 0, 0}};
        const thawribbon_heard p3 = {0, THAWRIBBON_SAID_DATA, {0x05, id}, {0x01, 0x00}, 8, {trusted_at_004[function][0], 0, 0, 0}};
        thawribbon_parts read = read_parts, write = write_parts;
        read.function = write.function = function;
        fresh_pair();
        hold_pair();
        remember_pair();
        hears(read, THAWRIBBON_ASKED_UNSUPPORTED, p1, 1);
        should_hold(&sides[function].parts[ORDINARY], 0x004, landed, 4);
        hears(write, THAWRIBBON_ASKED_DONE, p2, 2);
        hears(read, THAWRIBBON_ASKED_DONE, p3, 3);
        write.enables = 16;
        hears(write, THAWRIBBON_ASKED_REFUSED, nothing_heard(THAWRIBBON_BAD_DESCRIPTION), 4);
        held.pair.primary.trusted.marks = NULL;
        hears(read, THAWRIBBON_ASKED_REFUSED, nothing_heard(THAWRIBBON_BAD_DESCRIPTION), 5);
        hold_pair();
        held.pair.alternate.description.function = 0;
        hears(read, THAWRIBBON_ASKED_REFUSED, nothing_heard(THAWRIBBON_BAD_DESCRIPTION), 6);
        expect(held.pair.alternate.capture.captured == 0, "something is captured", 6);
    }
}

/* Drawn requests: what is heard of a pair is what the functions under it give, one after the other. */
static void same_as_steps(void)
{
    size_t n, counted[4] = {0, 0, 0, 0};
    fresh_pair();
    hold_pair();
    for (n = 0; n < 4000; n++) {
        thawribbon_pair other = held.pair;
        thawribbon_parts parts = of_kind(kinds[draw() % KINDS]);
        uint8_t bytes[THAWRIBBON_REQUEST];
        thawribbon_answer answer;
        thawribbon_heard heard = nothing_heard(1);
        thawribbon_asked expected = THAWRIBBON_ASKED_REFUSED, again;
        parts.offset = (uint32_t)(draw() % 8) * 4;
        parts.enables = (uint8_t)(draw() % 17);
        parts.function = (uint8_t)(draw() % 8 == 0 ? draw() & 7 : draw() & 1);
        parts.tag = draw();
        if (thawribbon_write_request(parts, bytes, sizeof bytes).number == 0) {
            expect(thawribbon_pair_serve(&other, bytes, packet_of(parts, bytes), &answer) != THAWRIBBON_REFUSED, "it is refused", n);
            expected = thawribbon_hear(parts, answer.completion, answer.length, &heard);
        }
        again = thawribbon_pair_ask(&held.pair, parts, &held.heard);
        expect(again == expected && same_heard(held.heard, heard), "something else is heard", n);
        expect(same_pair(&held.pair, &other), "the pair is not as it should be", n);
        counted[again]++;
    }
    expect(counted[THAWRIBBON_ASKED_DONE] > 400, "too few are done", counted[THAWRIBBON_ASKED_DONE]);
    expect(counted[THAWRIBBON_ASKED_UNSUPPORTED] > 400, "too few are unsupported", counted[THAWRIBBON_ASKED_UNSUPPORTED]);
    expect(counted[THAWRIBBON_ASKED_REFUSED] > 100, "too few are refused", counted[THAWRIBBON_ASKED_REFUSED]);
    expect(counted[THAWRIBBON_ASKED_OTHER] == 0, "a pair answers another request", counted[THAWRIBBON_ASKED_OTHER]);
}

/* What a record with this function and this device is said to name, given what the two functions have captured. */
static thawribbon_named named_by(uint8_t function, uint8_t device)
{
    const thawribbon_capture one = held.pair.primary.capture, other = held.pair.alternate.capture;
    if (function != held.pair.alternate.description.function) {
        return THAWRIBBON_NAMED_OTHER;
    }
    if (one.captured == 0 && other.captured == 0) {
        return THAWRIBBON_NAMED_UNCAPTURED;
    }
    return (one.captured == 0 || one.device == device) && (other.captured == 0 || other.device == device) ? THAWRIBBON_NAMED_ALTERNATE
                                                                                                            : THAWRIBBON_NAMED_OTHER;
}

/* Every function and device in a record, for an alternate of every number: fresh, one captured, both, and both with different devices. */
static void every_record(void)
{
    static const thawribbon_capture captures_of[5][SIDES] = {{THAWRIBBON_FRESH, THAWRIBBON_FRESH}, {{1, 0x05, 3}, {0, 0x05, 4}},
                                                             {{0, 0x05, 4}, {0xFF, 0x05, 3}}, {{1, 0x05, 3}, {1, 0x06, 3}},
                                                             {{1, 0x05, 3}, {1, 0x05, 4}}};
    uint8_t record[12] = {0x09, 0x00, 0x0C, 0x00, 0xC0, 0x1E, 0xC0, 0x00, 0x02, 0x00, 0x02, 0x03};
    unsigned function, device, own;
    size_t n, counted[4] = {0, 0, 0, 0};
    for (n = 0; n < 5; n++) {
        fresh_pair();
        for (function = 0; function < 8; function++) {
            for (device = 0; device < 32; device++) {
                record[10] = (uint8_t)(1 << function);
                record[11] = (uint8_t)device;
                put(&sides[PRIMARY].parts[ORDINARY], 0x0F4, record, 12);
                remember_pair();
                hold_pair();
                held.pair.primary.capture = captures_of[n][PRIMARY];
                held.pair.alternate.capture = captures_of[n][ALTERNATE];
                for (own = 0; own < 8; own++) {
                    thawribbon_alternate said = {7, 7, 7};
                    thawribbon_named named;
                    held.pair.alternate.description.function = (uint8_t)own;
                    named = thawribbon_pair_dual_bdf(&held.pair, 0x0F4, &said);
                    expect(named == named_by((uint8_t)function, (uint8_t)device), "it names something else", device);
                    expect(said.number == 0 && said.function == function && said.device == device, "another record", device);
                    counted[named]++;
                }
                pair_as_expected(device);
                guards_hold(device);
            }
        }
    }
    expect(counted[THAWRIBBON_NAMED_ALTERNATE] == 3 * 8 && counted[THAWRIBBON_NAMED_UNCAPTURED] == 8 * 32, "other counts", counted[0]);
    expect(counted[THAWRIBBON_NAMED_REFUSED] == 0, "a record is refused", counted[THAWRIBBON_NAMED_REFUSED]);
}

/* No record there, none anywhere, one with two bits in its vector, one that runs out, and no space: refused, with the number of
 * thawribbon_dual_bdf and nothing else. The alternate's spaces and the primary's trusted one do not count. */
static void no_record(void)
{
    static const uint8_t record[12] = {0x09, 0x00, 0x0C, 0x00, 0xC0, 0x1E, 0xC0, 0x00, 0x02, 0x00, 0x02, 0x03};
    static const uint8_t two_bits = 0x03;
    static const size_t places[6] = {0x040, 0x044, 0x042, 0x080, 0x0FC, SIZE_MAX};
    static const uint8_t numbers[6] = {10, 8, 1, 8, 9, 1};
    thawribbon_alternate said;
    size_t n;
    both_captured();
    hold_pair();
    put(&sides[PRIMARY].parts[ORDINARY], 0x040, record, 12);
    put(&sides[PRIMARY].parts[ORDINARY], 0x04A, &two_bits, 1);
    put(&sides[PRIMARY].parts[ORDINARY], 0x0FC, record, 12);
    put(&sides[PRIMARY].parts[TRUSTED], 0x080, record, 12);
    put(&sides[ALTERNATE].parts[ORDINARY], 0x080, record, 12);
    for (n = 0; n < 7; n++) {
        const uint8_t number = n < 6 ? numbers[n] : 1;
        said.function = said.device = said.number = 0xA7;
        held.pair.primary.ordinary.bytes = n < 6 ? held.pair.primary.ordinary.bytes : NULL;
        expect(thawribbon_pair_dual_bdf(&held.pair, n < 6 ? places[n] : 0x040, &said) == THAWRIBBON_NAMED_REFUSED, "it is not refused", n);
        expect(said.number == number && said.function == 0 && said.device == 0, "another number, or more than it", n);
        expect(strcmp(thawribbon_named_text(THAWRIBBON_NAMED_REFUSED, &said), thawribbon_text(number)) == 0, "another text", n);
    }
}

/* What a record names, each in words of its own. */
static void named_texts(void)
{
    static const thawribbon_named all[4] = {THAWRIBBON_NAMED_ALTERNATE, THAWRIBBON_NAMED_UNCAPTURED, THAWRIBBON_NAMED_OTHER,
                                            THAWRIBBON_NAMED_REFUSED};
    const thawribbon_alternate record = {8, 0, 0};
    size_t one, other;
    for (one = 0; one < 4; one++) {
        expect(strlen(thawribbon_named_text(all[one], &record)) > 10, "hardly a text", one);
        for (other = one + 1; other < 4; other++) {
            expect(strcmp(thawribbon_named_text(all[one], &record), thawribbon_named_text(all[other], &record)) != 0, "one text for two", one);
        }
    }
    expect(strstr(thawribbon_text(THAWRIBBON_BAD_DESCRIPTION), "the two functions of a board have one number") != NULL, "no word of it", 0);
}

void pair_helpers(void)
{
    group("pair in one struct, its first packets and a reset", first_packets);
    group("pair in one struct, packets that are refused", refused_packets);
    group("pair in one struct, forgotten buffers", forgotten_buffers);
    group("pair in one struct, spaces without marks", no_marks);
    group("pair in one struct, 2,000 drawn packets as thawribbon_serve_pair answers them", same_as_serve);
    group("helpers, the outcome of every number and status at a pair", outcomes_told);
    group("ask a pair, P1, P2 and P3 at each function, and what is refused", asked);
    group("ask a pair, 4,000 drawn requests as the functions under it answer them", same_as_steps);
    group("pair in one struct, what every Dual-BDF record names", every_record);
    group("pair in one struct, no Dual-BDF record", no_record);
    group("helpers, a text for everything that a record names", named_texts);
}
