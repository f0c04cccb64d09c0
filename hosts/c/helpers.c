/* The inline helpers of thawribbon.h for a board: they give what the functions under them give, and touch nothing else. */
#include "first_day.h"

#include "bench_board.h"
#include "drawn.h"
#include "groups.h"

#include <limits.h>
#include <stdio.h>
#include <string.h>

/* A board and an answer, each with a guard before and after it. */
static struct {
    uint8_t before[16];
    thawribbon_board board;
    uint8_t between[16];
    thawribbon_answer answer;
    uint8_t after[16];
} held;

static const uint8_t guards[16] = {0xA7, 0xA7, 0xA7, 0xA7, 0xA7, 0xA7, 0xA7, 0xA7, 0xA7, 0xA7, 0xA7, 0xA7, 0xA7, 0xA7, 0xA7, 0xA7};

static thawribbon_bytes *space_bytes(buffer *one)
{
    return (thawribbon_bytes *)lent(one);
}

/* The board of the bench sheet in one struct, over the same guarded buffers; the answer holds what nobody wrote. */
static void hold_board(void)
{
    fresh_board();
    memset(&held, 0xA7, sizeof held);
    held.board.description = description;
    held.board.capture = thawribbon_fresh();
    held.board.ordinary.bytes = space_bytes(&ordinary);
    held.board.ordinary.rules = space_bytes(&ordinary_rules);
    held.board.ordinary.marks = space_bytes(&ordinary_marks);
    held.board.trusted.bytes = space_bytes(&trusted);
    held.board.trusted.rules = space_bytes(&trusted_rules);
    held.board.trusted.marks = space_bytes(&trusted_marks);
}

static int same_space(thawribbon_space one, thawribbon_space other)
{
    return one.bytes == other.bytes && one.rules == other.rules && one.marks == other.marks;
}

static int same_board(const thawribbon_board *one, const thawribbon_board *other)
{
    return one->description.function == other->description.function && one->description.a == other->description.a &&
           one->description.b == other->description.b && one->description.edition == other->description.edition &&
           same_capture(one->capture, other->capture) && same_space(one->ordinary, other->ordinary) &&
           same_space(one->trusted, other->trusted);
}

static void guards_hold(size_t at)
{
    expect(memcmp(held.before, guards, sizeof guards) == 0, "something was written before the board", at);
    expect(memcmp(held.between, guards, sizeof guards) == 0, "something was written between board and answer", at);
    expect(memcmp(held.after, guards, sizeof guards) == 0, "something was written after the answer", at);
}

/* The completion is these bytes, and FFh past them: where there is none, in all of it. */
static void completion_is(const uint8_t *bytes, size_t length, size_t at)
{
    uint8_t whole[THAWRIBBON_REPLY];
    memset(whole, 0xFF, sizeof whole);
    if (length != 0) {
        memcpy(whole, bytes, length);
    }
    expect(held.answer.length == length, "another length", at);
    expect(memcmp(held.answer.completion, whole, sizeof whole) == 0, "another completion", at);
}

/* The board answers the lent packet so, and has this capture then; what the spaces should hold was said before. */
static void board_answers(thawribbon_outcome outcome, uint8_t number, const uint8_t *bytes, size_t length, thawribbon_capture after, size_t at)
{
    thawribbon_board expected = held.board;
    expected.capture = after;
    expect(thawribbon_board_serve(&held.board, lent(&packet), packet.length, &held.answer) == outcome, "another outcome", at);
    expect(held.answer.outcome == outcome, "another outcome in the answer", at);
    expect(held.answer.number == number, "another number", at);
    completion_is(bytes, length, at);
    expect(same_board(&held.board, &expected), "the board is not as it should be", at);
    all_as_expected(at);
    guards_hold(at);
}

static void board_refuses(uint8_t number, size_t at)
{
    remember_all();
    board_answers(THAWRIBBON_REFUSED, number, NULL, 0, held.board.capture, at);
    expect(thawribbon_data(&held.answer) == NULL, "data of a refusal", at);
}

/* P1 to P3: not done, done, and done with data; then a reset, and not done again. */
static void first_packets(void)
{
    hold_board();
    send_packet(trusted_read, 12);
    remember_all();
    board_answers(THAWRIBBON_UNSUPPORTED_REQUEST, 0, unsupported, 12, fresh_capture, 1);
    expect(thawribbon_data(&held.answer) == NULL, "data of an Unsupported Request", 1);

    send_packet(write_packet, 16);
    remember_all();
    should_hold(&ordinary, 0x004, landed, 4);
    board_answers(THAWRIBBON_DONE, 0, written, 12, five_three, 2);
    expect(thawribbon_data(&held.answer) == NULL, "data of a write", 2);

    send_packet(trusted_read, 12);
    remember_all();
    board_answers(THAWRIBBON_DONE, 0, read_back, 16, five_three, 3);
    expect(thawribbon_data(&held.answer) == held.answer.completion + 12, "data at another place", 3);

    thawribbon_board_reset(&held.board);
    all_as_expected(4);
    remember_all();
    board_answers(THAWRIBBON_UNSUPPORTED_REQUEST, 0, unsupported, 12, fresh_capture, 4);
}

/* A packet of every length, and a description that is none: after every refusal the board is as it was. */
static void refused_packets(void)
{
    size_t n;
    for (n = 0; n < LENGTHS; n++) {
        size_t length = tried_length(n);
        hold_board();
        held.board.capture = five_three;
        send_packet(write_packet, 16);
        resize(&packet, length);
        if (length != 16) {
            board_refuses(length < 12 ? THAWRIBBON_SHORT_PACKET : THAWRIBBON_WRONG_LENGTH, length);
        }
        held.board.description.function = 8;
        board_refuses(THAWRIBBON_BAD_DESCRIPTION, length);
    }
    for (n = 0; n < POINTERS; n++) {
        hold_board();
        lend_instead(&packet, pointer_to_nothing(n));
        board_refuses(THAWRIBBON_SHORT_PACKET, n);
    }
}

/* A buffer that was forgotten is NULL, and is refused with 1: each by itself, and all. */
static void forgotten_buffers(void)
{
    size_t n;
    for (n = 0; n < 7; n++) {
        hold_board();
        send_packet(write_packet, 16);
        if (n == 0 || n == 6) {
            held.board.ordinary.bytes = NULL;
        }
        if (n == 1 || n == 6) {
            held.board.ordinary.rules = NULL;
        }
        if (n == 2 || n == 6) {
            held.board.ordinary.marks = NULL;
        }
        if (n == 3 || n == 6) {
            held.board.trusted.bytes = NULL;
        }
        if (n == 4 || n == 6) {
            held.board.trusted.rules = NULL;
        }
        if (n == 5 || n == 6) {
            held.board.trusted.marks = NULL;
        }
        board_refuses(THAWRIBBON_BAD_DESCRIPTION, n);
    }
}

/* The marks that the header has ready are zeros, and both spaces may have them. */
static void no_marks(void)
{
    static const thawribbon_bytes zeros = {{0}};
    expect(memcmp(&thawribbon_no_marks, &zeros, sizeof zeros) == 0, "a bit is marked", 0);
    hold_board();
    held.board.ordinary.marks = &thawribbon_no_marks;
    held.board.trusted.marks = &thawribbon_no_marks;
    send_packet(write_packet, 16);
    remember_all();
    should_hold(&ordinary, 0x004, landed, 4);
    board_answers(THAWRIBBON_DONE, 0, written, 12, five_three, 0);
}

/* A small generator of packets: those of the bench sheet with some of their bytes drawn anew. */
static void draw_packet(void)
{
    static const uint8_t types[8] = {0x04, 0x44, 0x05, 0x45, 0x1B, 0x5B, 0xC4, 0x00};
    uint8_t bytes[20] = {0};
    uint8_t length;
    memcpy(bytes, write_packet, 16);
    bytes[0] = types[draw() % 8];
    length = (bytes[0] & 0x40) != 0 ? 16 : 12;
    bytes[2] = (uint8_t)(draw() % 4 == 0 ? 0x40 : 0x00);
    bytes[7] = (uint8_t)(draw() % 8 == 0 ? draw() : draw() & 0x0F);
    bytes[9] = (uint8_t)(draw() % 8 == 0 ? draw() : 0x18);
    bytes[10] = (uint8_t)(draw() & 0x0F);
    bytes[11] = draw();
    bytes[12] = draw();
    send_packet(bytes, draw() % 8 == 0 ? (size_t)(draw() % 21) : length);
}

/* Drawn packets, each answered first by the helper and then by thawribbon_serve from the same state: both do the same. */
static void same_as_serve(void)
{
    static buffer ordinary_then, trusted_then;
    size_t n, outcomes[3] = {0, 0, 0};
    hold_board();
    fill(&ordinary_rules, 0xF2, THAWRIBBON_SPACE);
    fill(&ordinary_marks, 0x0C, THAWRIBBON_SPACE);
    fill(&trusted_rules, 0x1F, THAWRIBBON_SPACE);
    fill(&trusted_marks, 0xC0, THAWRIBBON_SPACE);
    for (n = 0; n < 4000; n++) {
        thawribbon_served served;
        thawribbon_outcome outcome;
        draw_packet();
        kept = held.board.capture;
        ordinary_then = ordinary;
        trusted_then = trusted;
        outcome = thawribbon_board_serve(&held.board, lent(&packet), packet.length, &held.answer);
        memcpy(ordinary.expected, ordinary.held, sizeof ordinary.held);
        memcpy(trusted.expected, trusted.held, sizeof trusted.held);
        memcpy(ordinary.held, ordinary_then.held, sizeof ordinary.held);
        memcpy(trusted.held, trusted_then.held, sizeof trusted.held);
        fill(&reply, 0x00, THAWRIBBON_REPLY);
        served = thawribbon_serve(description, kept, lent(&ordinary), ordinary.length, lent(&ordinary_rules), ordinary_rules.length,
                                  lent(&ordinary_marks), ordinary_marks.length, lent(&trusted), trusted.length, lent(&trusted_rules),
                                  trusted_rules.length, lent(&trusted_marks), trusted_marks.length, lent(&packet), packet.length,
                                  lent(&reply), reply.length);
        expect(is_as_expected(&ordinary) && is_as_expected(&trusted), "another space", n);
        expect(same_capture(served.capture, held.board.capture), "another capture", n);
        expect(served.number == held.answer.number, "another number", n);
        expect(thawribbon_outcome_of(served, lent(&reply)) == outcome, "another outcome", n);
        completion_is(lent(&reply), served.length, n);
        guards_hold(n);
        outcomes[outcome]++;
    }
    expect(outcomes[THAWRIBBON_DONE] > 400, "too few packets were done", outcomes[THAWRIBBON_DONE]);
    expect(outcomes[THAWRIBBON_UNSUPPORTED_REQUEST] > 400, "too few were unsupported", outcomes[THAWRIBBON_UNSUPPORTED_REQUEST]);
    expect(outcomes[THAWRIBBON_REFUSED] > 400, "too few were refused", outcomes[THAWRIBBON_REFUSED]);
}

/* Only number 0 with status 00h is done; the status of a refusal is not looked at. */
static void outcomes_told(void)
{
    unsigned number, status;
    for (number = 0; number < 256; number++) {
        thawribbon_served served = {12, 0, THAWRIBBON_FRESH};
        served.number = (uint8_t)number;
        if (number != 0) {
            expect(thawribbon_outcome_of(served, NULL) == THAWRIBBON_REFUSED, "another outcome of a refusal", number);
            continue;
        }
        for (status = 0; status < 256; status++) {
            uint8_t completion[12] = {0x0A};
            completion[THAWRIBBON_STATUS] = (uint8_t)status;
            expect(thawribbon_outcome_of(served, completion) == (status == 0 ? THAWRIBBON_DONE : THAWRIBBON_UNSUPPORTED_REQUEST),
                   "another outcome of a status", status);
        }
    }
}

/* The fifteen numbers 0 to 6, 8 to 14 and 18 have a text each, of their own; any other, 7 among them, has that of no number. */
static void texts(void)
{
    static const unsigned numbers[15] = {0, 1, 2, 3, 4, 5, 6, 8, 9, 10, 11, 12, 13, 14, 18}, none[6] = {7, 15, 17, 19, 255, UINT_MAX};
    size_t one, other;
    for (one = 0; one < 15; one++) {
        expect(strlen(thawribbon_text(numbers[one])) > 10, "hardly a text", numbers[one]);
        expect(strcmp(thawribbon_text(numbers[one]), thawribbon_text(7)) != 0, "a number has the text of none", numbers[one]);
        for (other = one + 1; other < 15; other++) {
            expect(strcmp(thawribbon_text(numbers[one]), thawribbon_text(numbers[other])) != 0, "two numbers have one text", numbers[one]);
        }
    }
    for (one = 0; one < 6; one++) {
        expect(strcmp(thawribbon_text(none[one]), "a number that is no answer") == 0, "another text", none[one]);
    }
}

static void answer_texts(void)
{
    thawribbon_answer answer = {THAWRIBBON_DONE, 0, 12, {0x0A}};
    unsigned number;
    expect(strcmp(thawribbon_answer_text(&answer), "the access was done") == 0, "another text of what is done", 0);
    answer.outcome = THAWRIBBON_UNSUPPORTED_REQUEST;
    expect(strncmp(thawribbon_answer_text(&answer), "Unsupported Request", 19) == 0, "another text of what is unsupported", 0);
    answer.outcome = THAWRIBBON_REFUSED;
    for (number = 1; number <= 18; number++) {
        answer.number = (uint8_t)number;
        expect(strcmp(thawribbon_answer_text(&answer), thawribbon_text(number)) == 0, "another text of a refusal", number);
    }
}

/* A fresh capture as an initialiser and as a value, also where something was captured. */
static void fresh_captures(void)
{
    thawribbon_capture capture = five_three;
    capture = thawribbon_fresh();
    expect(same_capture(capture, fresh_capture), "something is captured", 0);
}

static void version(void)
{
    char text[40];
    (void)snprintf(text, sizeof text, "%d.%d.%d", THAWRIBBON_VERSION_MAJOR, THAWRIBBON_VERSION_MINOR, THAWRIBBON_VERSION_PATCH);
    expect(strcmp(text, THAWRIBBON_VERSION) == 0, "the version's text is not its numbers", 0);
}

void helpers(void)
{
    group("board, its first packets and a reset", first_packets);
    group("board, packets that are refused", refused_packets);
    group("board, forgotten buffers", forgotten_buffers);
    group("board, spaces without marks", no_marks);
    group("board, 4,000 drawn packets as thawribbon_serve answers them", same_as_serve);
    group("helpers, the outcome of every number and status", outcomes_told);
    group("helpers, a text for every number", texts);
    group("helpers, a text for every answer", answer_texts);
    group("helpers, a fresh capture", fresh_captures);
    group("helpers, the version", version);
}
