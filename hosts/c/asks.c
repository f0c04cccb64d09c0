/* The inline helpers of thawribbon.h for the asking side: what is heard of a request, from bytes and from a board. */
#include "first_day.h"

#include "bench_board.h"
#include "bench_parts.h"
#include "drawn.h"
#include "groups.h"

#include <string.h>

/* A board and what is heard, each with a guard before and after it. */
static struct {
    uint8_t before[16];
    thawribbon_board board;
    uint8_t between[16];
    thawribbon_heard heard;
    uint8_t after[16];
} held;

static void hold_board(void)
{
    const thawribbon_space one = {(thawribbon_bytes *)lent(&ordinary), (thawribbon_bytes *)lent(&ordinary_rules),
                                  (thawribbon_bytes *)lent(&ordinary_marks)};
    const thawribbon_space other = {(thawribbon_bytes *)lent(&trusted), (thawribbon_bytes *)lent(&trusted_rules),
                                    (thawribbon_bytes *)lent(&trusted_marks)};
    fresh_board();
    memset(&held, 0xA7, sizeof held);
    held.board.description = description;
    held.board.capture = thawribbon_fresh();
    held.board.ordinary = one;
    held.board.trusted = other;
}

static void guards_hold(size_t at)
{
    uint8_t guards[16];
    memset(guards, 0xA7, sizeof guards);
    expect(memcmp(held.before, guards, sizeof guards) == 0, "something was written before the board", at);
    expect(memcmp(held.between, guards, sizeof guards) == 0, "something was written between board and what is heard", at);
    expect(memcmp(held.after, guards, sizeof guards) == 0, "something was written after what is heard", at);
}

/* The board is asked, and this is heard; what the spaces should hold was said before. */
static void hears(thawribbon_parts parts, thawribbon_asked asked, thawribbon_heard heard, size_t at)
{
    expect(thawribbon_board_ask(&held.board, parts, &held.heard) == asked, "something else became of it", at);
    expect(same_heard(held.heard, heard), "something else is heard", at);
    all_as_expected(at);
    guards_hold(at);
}

/* P1, P2 and P3. */
static void bench_asked(void)
{
    const thawribbon_heard p1 = {0, THAWRIBBON_SAID_UNSUPPORTED, {0, 0}, {0x01, 0x00}, 8, {0, 0, 0, 0}};
    const thawribbon_heard p2 = {0, THAWRIBBON_SAID_DONE, {0x05, 0x18}, {0x01, 0x00}, 7, {0, 0, 0, 0}};
    const thawribbon_heard p3 = {0, THAWRIBBON_SAID_DATA, {0x05, 0x18}, {0x01, 0x00}, 8, {0x08, 0, 0, 0}};
    hold_board();
    remember_all();
    hears(read_parts, THAWRIBBON_ASKED_UNSUPPORTED, p1, 1);
    should_hold(&ordinary, 0x004, landed, 4);
    hears(write_parts, THAWRIBBON_ASKED_DONE, p2, 2);
    expect(same_capture(held.board.capture, five_three), "another capture", 2);
    hears(read_parts, THAWRIBBON_ASKED_DONE, p3, 3);
}

/* The parts of each kind, made and by their places: all bytes enabled, and requester and tag 0. A board that is asked for them answers. */
static void parts_made(void)
{
    const thawribbon_heard p2 = {0, THAWRIBBON_SAID_DONE, {0x05, 0x18}, {0x01, 0x00}, 7, {0, 0, 0, 0}};
    thawribbon_parts made;
    size_t n;
    for (n = 0; n < KINDS; n++) {
        const thawribbon_parts read = {0xA9C, kinds[n], {0, 0}, 0, 0xB7, 0x1E, 5, 0x0F, {0, 0, 0, 0}};
        const thawribbon_parts write = {0xA9C, kinds[n], {0, 0}, 0, 0xB7, 0x1E, 5, 0x0F, {0xD1, 0xD2, 0xD3, 0xD4}};
        made = thawribbon_read_parts(kinds[n], 0xB7, 0x1E, 5, 0xA9C);
        expect(memcmp(&made, &read, sizeof made) == 0, "other parts of a read", n);
        made = thawribbon_write_parts(kinds[n], 0xB7, 0x1E, 5, 0xA9C, write.data);
        expect(memcmp(&made, &write, sizeof made) == 0, "other parts of a write", n);
    }
    made = thawribbon_write_parts(write_parts.kind, 0x05, 3, 0, 0x004, write_parts.data);
    made.requester[0] = 0x01;
    made.tag = 7;
    expect(memcmp(&made, &write_parts, sizeof made) == 0, "other parts than P2's", 0);
    hold_board();
    remember_all();
    should_hold(&ordinary, 0x004, landed, 4);
    hears(made, THAWRIBBON_ASKED_DONE, p2, 0);
    hears(thawribbon_read_parts(0x04, 0x05, 3, 0, 0x1000), THAWRIBBON_ASKED_REFUSED, nothing_heard(1), 1);
}

/* Parts that are no request, a board that is badly described, and one that lacks a buffer: nothing has changed. */
static void asked_in_vain(void)
{
    thawribbon_parts parts = write_parts;
    hold_board();
    remember_all();
    parts.enables = 16;
    hears(parts, THAWRIBBON_ASKED_REFUSED, nothing_heard(1), 0);
    held.board.description.a = 0x100;
    hears(write_parts, THAWRIBBON_ASKED_REFUSED, nothing_heard(1), 1);
    held.board.description.a = 0x104;
    held.board.trusted.marks = NULL;
    hears(write_parts, THAWRIBBON_ASKED_REFUSED, nothing_heard(1), 2);
    held.board.trusted.rules = NULL;
    hears(write_parts, THAWRIBBON_ASKED_REFUSED, nothing_heard(1), 3);
    expect(same_capture(held.board.capture, fresh_capture), "something is captured", 3);
}

/* Drawn requests: what is heard of a board is what the functions under it give, one after the other. */
static void same_as_steps(void)
{
    size_t n, counted[4] = {0, 0, 0, 0};
    hold_board();
    for (n = 0; n < 4000; n++) {
        thawribbon_board other = held.board;
        thawribbon_parts parts = of_kind(kinds[draw() % KINDS]);
        uint8_t bytes[THAWRIBBON_REQUEST];
        thawribbon_answer answer;
        thawribbon_heard heard = nothing_heard(1);
        thawribbon_asked asked = THAWRIBBON_ASKED_REFUSED, again;
        parts.offset = (uint32_t)(draw() % 8) * 4;
        parts.enables = (uint8_t)(draw() % 17);
        parts.function = (uint8_t)(draw() % 8 == 0);
        parts.tag = draw();
        if (thawribbon_write_request(parts, bytes, sizeof bytes).number == 0) {
            expect(thawribbon_board_serve(&other, bytes, packet_of(parts, bytes), &answer) != THAWRIBBON_REFUSED, "it is refused", n);
            asked = thawribbon_hear(parts, answer.completion, answer.length, &heard);
        }
        again = thawribbon_board_ask(&held.board, parts, &held.heard);
        expect(again == asked && same_heard(held.heard, heard), "something else is heard", n);
        expect(same_capture(held.board.capture, other.capture), "another capture", n);
        counted[again]++;
    }
    expect(counted[THAWRIBBON_ASKED_DONE] > 400, "too few are done", counted[THAWRIBBON_ASKED_DONE]);
    expect(counted[THAWRIBBON_ASKED_UNSUPPORTED] > 400, "too few are unsupported", counted[THAWRIBBON_ASKED_UNSUPPORTED]);
    expect(counted[THAWRIBBON_ASKED_REFUSED] > 100, "too few are refused", counted[THAWRIBBON_ASKED_REFUSED]);
    expect(counted[THAWRIBBON_ASKED_OTHER] == 0, "a board answers another request", counted[THAWRIBBON_ASKED_OTHER]);
}

/* A completion for these parts, with success, or with Unsupported Request, becomes this. */
static void becomes(thawribbon_parts parts, const uint8_t *bytes, size_t length, thawribbon_asked asked, size_t at)
{
    thawribbon_heard heard;
    const thawribbon_heard read = thawribbon_read_completion(bytes, length);
    expect(thawribbon_hear(parts, bytes, length, &heard) == asked, "something else became of it", at);
    expect(same_heard(heard, read), "something else is heard than is read", at);
}

/* Another bit in the requester or the tag, and data where none belongs, or the other way round. */
static void others_requests(void)
{
    size_t n, bit;
    for (n = 0; n < KINDS; n++) {
        const int is_one = is_write(kinds[n]);
        thawribbon_parts parts = of_kind(kinds[n]), other;
        parts.tag = 8;
        becomes(parts, read_back, 16, is_one ? THAWRIBBON_ASKED_OTHER : THAWRIBBON_ASKED_DONE, n);
        becomes(parts, unsupported, 12, THAWRIBBON_ASKED_UNSUPPORTED, n);
        for (bit = 0; bit < 24; bit++) {
            other = parts;
            *(bit < 16 ? &other.requester[bit / 8] : &other.tag) ^= (uint8_t)(1 << bit % 8);
            becomes(other, read_back, 16, THAWRIBBON_ASKED_OTHER, bit);
            becomes(other, unsupported, 12, THAWRIBBON_ASKED_OTHER, bit);
        }
        parts.tag = 7;
        becomes(parts, written, 12, is_one ? THAWRIBBON_ASKED_DONE : THAWRIBBON_ASKED_OTHER, n);
        becomes(parts, written, 11, THAWRIBBON_ASKED_REFUSED, n);
        becomes(parts, NULL, 0, THAWRIBBON_ASKED_REFUSED, n);
    }
}

static void asked_texts(void)
{
    thawribbon_heard heard = nothing_heard(0);
    unsigned number;
    expect(strcmp(thawribbon_asked_text(THAWRIBBON_ASKED_DONE, &heard), "the access was done") == 0, "another text of what is done", 0);
    expect(strncmp(thawribbon_asked_text(THAWRIBBON_ASKED_UNSUPPORTED, &heard), "Unsupported Request", 19) == 0, "another text of UR", 0);
    expect(strstr(thawribbon_asked_text(THAWRIBBON_ASKED_OTHER, &heard), "another request") != NULL, "another text of another's", 0);
    for (number = 1; number <= 6; number++) {
        heard.number = (uint8_t)number;
        expect(strcmp(thawribbon_asked_text(THAWRIBBON_ASKED_REFUSED, &heard), thawribbon_text(number)) == 0, "another text", number);
    }
}

void asks(void)
{
    group("ask, P1, P2 and P3", bench_asked);
    group("ask, parts that are made", parts_made);
    group("ask, what is refused", asked_in_vain);
    group("ask, 4,000 drawn requests as the functions under it answer them", same_as_steps);
    group("ask, completions of other requests", others_requests);
    group("helpers, a text for everything that is heard", asked_texts);
}
