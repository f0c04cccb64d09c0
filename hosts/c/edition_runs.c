/* Boards that differ in their edition alone, side by side and through the helpers: runs of packets with bit 7 of byte 0 clear and set, what
 * a switch lets through, and what the asking side writes. */
#include "first_day.h"

#include "bench_board.h"
#include "bench_parts.h"
#include "drawn.h"
#include "groups.h"

#include <string.h>

/* A board with two spaces of its own, and what it answered last. Rules and marks are the same for all. */
typedef struct own_board {
    thawribbon_bytes ordinary, trusted;
    thawribbon_board board;
    thawribbon_answer answer;
} own_board;

static own_board one, two, other_one, other_two;
static thawribbon_bytes own_rules, own_marks;

enum { PACKETS = 4000, BIT_7 = 0x80 };

/* A fresh board of this edition over spaces of its own that hold what the first board's do. */
static void set_up(own_board *own, uint32_t edition)
{
    const thawribbon_description described = {0, 0x104, 0x00C, edition};
    own->ordinary = one.ordinary;
    own->trusted = one.trusted;
    own->board.description = described;
    own->board.capture = thawribbon_fresh();
    own->board.ordinary.bytes = &own->ordinary;
    own->board.trusted.bytes = &own->trusted;
    own->board.ordinary.rules = own->board.trusted.rules = &own_rules;
    own->board.ordinary.marks = own->board.trusted.marks = &own_marks;
    memset(&own->answer, 0, sizeof own->answer);
}

/* Spaces, rules and marks are drawn, and no bit is in rules and marks. The boards are of edition 1, 2, 1 and 1. */
static void set_up_all(void)
{
    size_t at;
    for (at = 0; at < THAWRIBBON_SPACE; at++) {
        one.ordinary.at[at] = draw();
        one.trusted.at[at] = draw();
        own_rules.at[at] = draw();
        own_marks.at[at] = (uint8_t)(draw() & ~own_rules.at[at]);
    }
    set_up(&one, THAWRIBBON_EDITION_1);
    set_up(&two, THAWRIBBON_EDITION_2);
    set_up(&other_one, THAWRIBBON_EDITION_1);
    set_up(&other_two, THAWRIBBON_EDITION_1);
}

/* A packet with some of its bytes drawn anew, for 05h, device 3 and function 0 most of the time; bit 7 of byte 0 is clear. */
static size_t draw_bytes(uint8_t bytes[20])
{
    const uint8_t code = (uint8_t)(draw() % 16 == 0 ? draw() & 0x7F : kinds[draw() % KINDS]);
    memcpy(bytes, write_packet, 16);
    memset(bytes + 16, 0, 4);
    bytes[0] = code;
    bytes[1] = (uint8_t)(draw() & 0x8F);
    bytes[2] = (uint8_t)(draw() % 16 == 0 ? draw() : draw() & (draw() % 4 == 0 ? 0xCC : 0x0C));
    bytes[6] = draw();
    bytes[7] = (uint8_t)(draw() % 8 == 0 ? draw() : draw() & 0x0F);
    bytes[8] = draw() % 8 == 0 ? draw() : 0x05;
    bytes[9] = draw() % 8 == 0 ? draw() : 0x18;
    bytes[10] = draw();
    bytes[11] = draw();
    bytes[12] = draw();
    bytes[15] = draw();
    return draw() % 8 == 0 ? (size_t)(draw() % 21) : 12U + (is_write(code) ? 4U : 0U) + ((bytes[2] & 0x80) != 0 ? 4U : 0U);
}

static thawribbon_outcome sent(own_board *own, const uint8_t *bytes, size_t length)
{
    return thawribbon_board_serve(&own->board, bytes, length, &own->answer);
}

static int same_state(const own_board *left, const own_board *right)
{
    return same_capture(left->board.capture, right->board.capture) &&
           memcmp(&left->ordinary, &right->ordinary, sizeof left->ordinary) == 0 &&
           memcmp(&left->trusted, &right->trusted, sizeof left->trusted) == 0;
}

static int same_answer(const own_board *left, const own_board *right)
{
    return left->answer.outcome == right->answer.outcome && left->answer.number == right->answer.number &&
           left->answer.length == right->answer.length &&
           memcmp(left->answer.completion, right->answer.completion, THAWRIBBON_REPLY) == 0;
}

/* Both boards answered alike, and are alike then. */
static void are_alike(const own_board *left, const own_board *right, size_t at)
{
    expect(same_answer(left, right), "another answer", at);
    expect(same_state(left, right), "another space or capture", at);
}

/* Packets with bit 7 clear, the empty one too, and resets: both editions answer alike. */
static void alike_without_bit_7(void)
{
    size_t n, outcomes[3] = {0, 0, 0};
    set_up_all();
    for (n = 0; n < PACKETS; n++) {
        uint8_t bytes[20];
        const size_t length = draw_bytes(bytes);
        if (draw() % 16 == 0) {
            thawribbon_board_reset(&one.board);
            thawribbon_board_reset(&two.board);
        }
        outcomes[sent(&one, bytes, length)]++;
        expect(sent(&two, bytes, length) == one.answer.outcome, "another outcome", n);
        are_alike(&one, &two, n);
    }
    expect(outcomes[THAWRIBBON_DONE] > 400, "too few packets were done", outcomes[THAWRIBBON_DONE]);
    expect(outcomes[THAWRIBBON_UNSUPPORTED_REQUEST] > 400, "too few were unsupported", outcomes[THAWRIBBON_UNSUPPORTED_REQUEST]);
    expect(outcomes[THAWRIBBON_REFUSED] > 400, "too few were refused", outcomes[THAWRIBBON_REFUSED]);
    expect(memcmp(&one.ordinary, &other_one.ordinary, sizeof one.ordinary) != 0, "nothing was written", 0);
    expect(memcmp(&one.trusted, &other_one.trusted, sizeof one.trusted) != 0, "nothing trusted was written", 0);
}

/* A packet of 12 bytes or more with bit 7 set, at a board of edition 2: refused with 4. */
static void is_refused_for_bit_7(size_t at)
{
    uint8_t nothing[THAWRIBBON_REPLY];
    memset(nothing, 0xFF, sizeof nothing);
    expect(two.answer.outcome == THAWRIBBON_REFUSED, "it is not refused", at);
    expect(two.answer.number == THAWRIBBON_UNKNOWN_TYPE && two.answer.length == 0, "another number or length", at);
    expect(memcmp(two.answer.completion, nothing, sizeof nothing) == 0, "the completion is not FFh", at);
}

/* Packets of which half have bit 7 set. Edition 1 answers as another board of edition 1 that is sent them with bit 7 clear. Edition 2
 * refuses those of 12 bytes or more with 4, and is otherwise as a board of edition 1 that is never sent them. */
static void with_bit_7(void)
{
    size_t n, refused = 0, done = 0;
    set_up_all();
    for (n = 0; n < PACKETS; n++) {
        uint8_t bytes[20], cleared[20];
        const size_t length = draw_bytes(bytes);
        memcpy(cleared, bytes, sizeof cleared);
        bytes[0] |= (uint8_t)(draw() & BIT_7);
        done += sent(&one, bytes, length) == THAWRIBBON_DONE && bytes[0] >= BIT_7;
        (void)sent(&other_one, cleared, length);
        are_alike(&one, &other_one, n);
        (void)sent(&two, bytes, length);
        if (bytes[0] >= BIT_7 && length >= 12) {
            is_refused_for_bit_7(n);
            expect(same_state(&two, &other_two), "a refused packet changed something", n);
            refused++;
        } else {
            (void)sent(&other_two, bytes, length);
            are_alike(&two, &other_two, n);
        }
    }
    expect(refused > 1000, "too few have bit 7", refused);
    expect(done > 200, "too few with bit 7 are done under edition 1", done);
}

/* A packet for bus 05h comes through a switch, whose only port is for that bus: it leaves with this byte 0, and no other byte alters. */
static thawribbon_leaving let_through(const uint8_t *bytes, size_t length, uint8_t byte_0, size_t at)
{
    static const thawribbon_port port = {0x05, 0x05, 1};
    thawribbon_leaving through;
    expect(thawribbon_ports_route(&port, 1, bytes, length, &through) == THAWRIBBON_LEAVES, "it does not leave", at);
    expect(through.length == length && through.bytes[0] == byte_0, "another length or byte 0", at);
    expect(memcmp(through.bytes + 1, bytes + 1, length - 1) == 0, "a byte altered on the way", at);
    return through;
}

/* A Type 1 write and read, and a trusted write and read, with bit 7 and then without. With it, edition 1 serves what comes through, and
 * edition 2 answers 4 and stays as it was; without it both serve it. */
static void through_a_switch(void)
{
    static const uint8_t sends[4] = {THAWRIBBON_TYPE1_WRITE, THAWRIBBON_TYPE1_READ, THAWRIBBON_TRUSTED_WRITE, THAWRIBBON_TRUSTED_READ};
    static const uint8_t leaves[4] = {THAWRIBBON_TYPE0_WRITE, THAWRIBBON_TYPE0_READ, THAWRIBBON_TRUSTED_WRITE, THAWRIBBON_TRUSTED_READ};
    uint8_t bytes[16];
    size_t n;
    set_up_all();
    memcpy(bytes, write_packet, 16);
    for (n = 0; n < 4; n++) {
        const size_t length = is_write(sends[n]) ? 16 : 12;
        thawribbon_leaving through;
        bytes[0] = (uint8_t)(sends[n] | BIT_7);
        through = let_through(bytes, length, (uint8_t)(leaves[n] | BIT_7), n);
        expect(sent(&one, through.bytes, through.length) == THAWRIBBON_DONE, "edition 1 has not done it", n);
        expect(sent(&two, through.bytes, through.length) == THAWRIBBON_REFUSED, "edition 2 has not refused it", n);
        is_refused_for_bit_7(n);
        expect(same_state(&two, &other_two), "a refused packet changed something", n);
    }
    expect(same_capture(one.board.capture, five_three), "edition 1 has captured something else", 0);
    for (n = 0; n < 4; n++) {
        const size_t length = is_write(sends[n]) ? 16 : 12;
        thawribbon_leaving through;
        bytes[0] = sends[n];
        through = let_through(bytes, length, leaves[n], n);
        expect(sent(&one, through.bytes, through.length) == THAWRIBBON_DONE, "edition 1 has not done it again", n);
        expect(sent(&two, through.bytes, through.length) == THAWRIBBON_DONE, "edition 2 has not done it", n);
    }
    are_alike(&one, &two, 4);
}

/* Drawn parts of every kind: what is written for them has bit 7 clear, and both editions answer it alike, by its bytes and asked. */
static void what_is_written(void)
{
    static const uint32_t offsets[6] = {0x000, 0x004, 0x00C, 0x104, 0x804, 0xFFC};
    size_t n, counted[4] = {0, 0, 0, 0};
    set_up_all();
    for (n = 0; n < PACKETS; n++) {
        thawribbon_parts parts = of_kind(kinds[draw() % KINDS]);
        uint8_t bytes[THAWRIBBON_REQUEST];
        thawribbon_heard left, right;
        size_t length;
        thawribbon_asked asked;
        parts.offset = offsets[draw() % 6];
        parts.enables = (uint8_t)(draw() & 0x0F);
        parts.function = (uint8_t)(draw() % 8 == 0 ? draw() & 7 : 0);
        parts.device = (uint8_t)(draw() % 8 == 0 ? draw() & 31 : 3);
        parts.tag = draw();
        parts.data[0] = draw();
        length = thawribbon_write_request(parts, bytes, sizeof bytes).length;
        expect(length != 0 && bytes[0] == parts.kind && bytes[0] < BIT_7, "bit 7 is set, or nothing is written", n);
        expect(sent(&one, bytes, length) == sent(&two, bytes, length), "another outcome", n);
        are_alike(&one, &two, n);
        asked = thawribbon_board_ask(&one.board, parts, &left);
        expect(thawribbon_board_ask(&two.board, parts, &right) == asked && same_heard(left, right), "something else is heard", n);
        expect(same_state(&one, &two), "another space or capture", n);
        counted[asked]++;
    }
    expect(counted[THAWRIBBON_ASKED_DONE] > 400, "too few are done", counted[THAWRIBBON_ASKED_DONE]);
    expect(counted[THAWRIBBON_ASKED_UNSUPPORTED] > 400, "too few are unsupported", counted[THAWRIBBON_ASKED_UNSUPPORTED]);
    expect(counted[THAWRIBBON_ASKED_REFUSED] == 0, "a board refused one", counted[THAWRIBBON_ASKED_REFUSED]);
}

/* A board with a number that is no edition refuses every packet and every request with 1, and is as it was then. */
static void boards_without(void)
{
    static const uint32_t none[6] = {0, 3, 255, 256 + 1, 256 + 2, UINT32_MAX};
    thawribbon_heard heard;
    size_t n, length;
    set_up_all();
    for (n = 0; n < sizeof none / sizeof none[0]; n++) {
        two.board.description.edition = none[n];
        for (length = 0; length <= 16; length++) {
            expect(sent(&two, write_packet, length) == THAWRIBBON_REFUSED, "it is not refused", n);
            expect(two.answer.number == THAWRIBBON_BAD_DESCRIPTION && two.answer.length == 0, "another number or length", n);
        }
        expect(thawribbon_board_ask(&two.board, write_parts, &heard) == THAWRIBBON_ASKED_REFUSED, "it is not refused when asked", n);
        expect(same_heard(heard, nothing_heard(THAWRIBBON_BAD_DESCRIPTION)), "something else is heard", n);
        expect(same_state(&two, &other_two) && two.board.description.edition == none[n], "the board has changed", n);
    }
    two.board.description.edition = THAWRIBBON_EDITION_2;
    expect(sent(&two, write_packet, 16) == THAWRIBBON_DONE, "with an edition it is not done", n);
}

/* The texts of 1 and 4 speak of the editions, and no other does. */
static void edition_texts(void)
{
    unsigned number;
    for (number = 0; number <= 14; number++) {
        const int speaks = number == THAWRIBBON_BAD_DESCRIPTION || number == THAWRIBBON_UNKNOWN_TYPE;
        expect((strstr(thawribbon_text(number), "edition") != NULL) == speaks, "another text", number);
    }
}

void edition_runs(void)
{
    group("editions, 4,000 drawn packets with bit 7 clear, and resets, are answered alike", alike_without_bit_7);
    group("editions, 4,000 drawn packets of which half have bit 7 set", with_bit_7);
    group("editions, what a switch lets through with bit 7 set", through_a_switch);
    group("editions, 4,000 drawn requests that are written are answered alike", what_is_written);
    group("board, numbers that are no edition", boards_without);
    group("helpers, the texts that speak of editions", edition_texts);
}
