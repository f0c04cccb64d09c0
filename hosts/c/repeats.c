/* Packets that come twice, and writes that are swapped: the same packet at once again is answered alike and leaves what one leaves, at a board, at
 * one of two functions, at a switch and on the asking side; two writes that differ in their enables may come in either order, or as one. And
 * what comes between counts. */
#include "first_day.h"

#include "bench_board.h"
#include "bench_parts.h"
#include "drawn.h"
#include "groups.h"

#include <string.h>

enum { PRIMARY, ALTERNATE, SIDES };
enum { ORDINARY, ORDINARY_RULES, ORDINARY_MARKS, TRUSTED, TRUSTED_RULES, TRUSTED_MARKS, PARTS };
enum { PACKETS = 4000, MOST_BYTES = 20, WORD = 4 };

/* Who is sent a packet: the primary as a board by itself, or both functions. */
typedef enum subject { BOARD, PAIR } subject;

/* Two functions with all that they lend, and what was answered and heard last. */
typedef struct own_boards {
    thawribbon_bytes parts[SIDES][PARTS];
    thawribbon_pair pair;
    thawribbon_answer answer;
    thawribbon_heard heard;
} own_boards;

/* One gets each packet once, the other twice; or each of them gets two writes in its own order, and the third one write. */
static own_boards once, twice, joined;

static const thawribbon_function described[SIDES] = {{0, 0x104, 0x00C}, {1, 0x208, 0x010}};
static const uint32_t both_editions[2] = {THAWRIBBON_EDITION_1, THAWRIBBON_EDITION_2};

static thawribbon_side *side_of(own_boards *own, size_t which)
{
    return which == PRIMARY ? &own->pair.primary : &own->pair.alternate;
}

/* Has a board lend what is its own. */
static void lend(own_boards *own, uint32_t edition)
{
    size_t which;
    own->pair.edition = edition;
    for (which = 0; which < SIDES; which++) {
        thawribbon_bytes *parts = own->parts[which];
        const thawribbon_side lends = {described[which], fresh_capture,
                                       {&parts[ORDINARY], &parts[ORDINARY_RULES], &parts[ORDINARY_MARKS]},
                                       {&parts[TRUSTED], &parts[TRUSTED_RULES], &parts[TRUSTED_MARKS]}};
        *side_of(own, which) = lends;
    }
}

/* Spaces, rules and marks are drawn, and no bit is in rules and marks; all three have the same, and have captured nothing. */
static void set_up(uint32_t edition)
{
    size_t which, part, at;
    for (which = 0; which < SIDES; which++) {
        for (part = 0; part < PARTS; part++) {
            for (at = 0; at < THAWRIBBON_SPACE; at++) {
                once.parts[which][part].at[at] = draw();
            }
        }
        for (at = 0; at < THAWRIBBON_SPACE; at++) {
            once.parts[which][ORDINARY_MARKS].at[at] &= (uint8_t)~once.parts[which][ORDINARY_RULES].at[at];
            once.parts[which][TRUSTED_MARKS].at[at] &= (uint8_t)~once.parts[which][TRUSTED_RULES].at[at];
        }
    }
    memcpy(twice.parts, once.parts, sizeof once.parts);
    memcpy(joined.parts, once.parts, sizeof once.parts);
    lend(&once, edition);
    lend(&twice, edition);
    lend(&joined, edition);
}

static thawribbon_board board_of(own_boards *own)
{
    thawribbon_board board;
    board.description.function = own->pair.primary.description.function;
    board.description.a = own->pair.primary.description.a;
    board.description.b = own->pair.primary.description.b;
    board.description.edition = own->pair.edition;
    board.capture = own->pair.primary.capture;
    board.ordinary = own->pair.primary.ordinary;
    board.trusted = own->pair.primary.trusted;
    return board;
}

static thawribbon_outcome sent(own_boards *own, subject whom, const uint8_t *bytes, size_t length)
{
    thawribbon_board board = board_of(own);
    thawribbon_outcome outcome;
    if (whom == PAIR) {
        return thawribbon_pair_serve(&own->pair, bytes, length, &own->answer);
    }
    outcome = thawribbon_board_serve(&board, bytes, length, &own->answer);
    own->pair.primary.capture = board.capture;
    return outcome;
}

static thawribbon_asked asked_of(own_boards *own, subject whom, thawribbon_parts parts)
{
    thawribbon_board board = board_of(own);
    thawribbon_asked asked;
    if (whom == PAIR) {
        return thawribbon_pair_ask(&own->pair, parts, &own->heard);
    }
    asked = thawribbon_board_ask(&board, parts, &own->heard);
    own->pair.primary.capture = board.capture;
    return asked;
}

static int same_state(const own_boards *one, const own_boards *other)
{
    return same_capture(one->pair.primary.capture, other->pair.primary.capture) &&
           same_capture(one->pair.alternate.capture, other->pair.alternate.capture) &&
           memcmp(one->parts, other->parts, sizeof one->parts) == 0;
}

static int same_answer(const thawribbon_answer *one, const thawribbon_answer *other)
{
    return one->outcome == other->outcome && one->number == other->number && one->length == other->length &&
           memcmp(one->completion, other->completion, THAWRIBBON_REPLY) == 0;
}

/* One of so many. */
static int once_in(unsigned many)
{
    return draw() % many == 0;
}

/* A packet with most of its bytes drawn, without a fault most of the time; its bus, device and function are each one of a few. */
static size_t draw_bytes(uint8_t bytes[MOST_BYTES])
{
    const uint8_t code = (uint8_t)(once_in(32) ? draw() : kinds[draw() % KINDS] | (once_in(16) ? 0x80 : 0x00));
    size_t at;
    for (at = 0; at < MOST_BYTES; at++) {
        bytes[at] = draw();
    }
    bytes[0] = code;
    bytes[1] = (uint8_t)(bytes[1] & (once_in(32) ? 0xFF : 0x8F));
    bytes[2] = (uint8_t)(bytes[2] & (once_in(32) ? 0xFF : once_in(8) ? 0xCC : 0x0C));
    bytes[3] = once_in(32) ? bytes[3] : 1;
    bytes[7] = (uint8_t)(bytes[7] & (once_in(32) ? 0xFF : 0x0F));
    bytes[8] = (uint8_t)(0x05 + once_in(8));
    bytes[9] = (uint8_t)((3 + once_in(8)) * 8 + (once_in(8) ? draw() % 8 : draw() % SIDES));
    if (once_in(8)) {
        bytes[10] = 0x01; /* A of the primary, or B of it */
        bytes[11] = 0x04;
    } else if (once_in(8)) {
        bytes[10] = 0x00;
        bytes[11] = 0x0C;
    }
    return once_in(32) ? (size_t)(draw() % (MOST_BYTES + 1)) : 12U + (is_write(code & 0x7F) ? 4U : 0U) + ((bytes[2] & 0x80) != 0 ? 4U : 0U);
}

/* Drawn packets, and resets between them: one board gets each once, and the other twice, or more often. */
static void repeated(subject whom, uint32_t edition)
{
    size_t n, outcomes[3] = {0, 0, 0};
    set_up(edition);
    for (n = 0; n < PACKETS; n++) {
        uint8_t bytes[MOST_BYTES];
        const size_t length = draw_bytes(bytes);
        size_t more = once_in(8) ? (size_t)(draw() % 4) : 1;
        outcomes[sent(&once, whom, bytes, length)]++;
        expect(sent(&twice, whom, bytes, length) == once.answer.outcome, "another outcome", n);
        expect(same_answer(&once.answer, &twice.answer) && same_state(&once, &twice), "two boards that are alike answer otherwise", n);
        for (; more != 0; more--) {
            expect(sent(&twice, whom, bytes, length) == once.answer.outcome, "another outcome when it is repeated", n);
            expect(same_answer(&once.answer, &twice.answer), "another answer when it is repeated", n);
            expect(same_state(&once, &twice), "a repeated packet leaves something else", n);
        }
        if (once_in(32)) {
            thawribbon_pair_reset(&once.pair);
            thawribbon_pair_reset(&twice.pair);
        }
    }
    expect(outcomes[THAWRIBBON_DONE] > 400, "too few packets were done", outcomes[THAWRIBBON_DONE]);
    expect(outcomes[THAWRIBBON_UNSUPPORTED_REQUEST] > 400, "too few were unsupported", outcomes[THAWRIBBON_UNSUPPORTED_REQUEST]);
    expect(outcomes[THAWRIBBON_REFUSED] > 200, "too few were refused", outcomes[THAWRIBBON_REFUSED]);
    for (n = 0; n < (whom == PAIR ? SIDES : 1); n++) {
        expect(memcmp(once.parts[n], joined.parts[n], sizeof once.parts[n]) != 0, "nothing was written", n);
    }
}

static void repeated_1(void)
{
    repeated(BOARD, THAWRIBBON_EDITION_1);
}

static void repeated_2(void)
{
    repeated(BOARD, THAWRIBBON_EDITION_2);
}

static void pair_repeated_1(void)
{
    repeated(PAIR, THAWRIBBON_EDITION_1);
}

static void pair_repeated_2(void)
{
    repeated(PAIR, THAWRIBBON_EDITION_2);
}

/* The function of the archive itself: the same packet twice, each time with a reply of so many bytes. */
static void served_twice(const uint8_t *bytes, size_t length, size_t size)
{
    uint8_t replies[2][MOST_BYTES + 1];
    thawribbon_served served[2];
    size_t n;
    memset(replies, 0xEE, sizeof replies);
    for (n = 0; n < 2; n++) {
        const thawribbon_board board = board_of(&once);
        served[n] = thawribbon_serve(board.description, board.capture, board.ordinary.bytes->at, THAWRIBBON_SPACE, board.ordinary.rules->at,
                                     THAWRIBBON_SPACE, board.ordinary.marks->at, THAWRIBBON_SPACE, board.trusted.bytes->at, THAWRIBBON_SPACE,
                                     board.trusted.rules->at, THAWRIBBON_SPACE, board.trusted.marks->at, THAWRIBBON_SPACE, bytes, length,
                                     replies[n], size);
        once.pair.primary.capture = served[n].capture;
        if (n == 0) {
            memcpy(twice.parts, once.parts, sizeof once.parts);
        }
    }
    expect(served[0].number == served[1].number && served[0].length == served[1].length, "another number or length", size);
    expect(served[0].number == (size < THAWRIBBON_REPLY ? THAWRIBBON_NO_ROOM : THAWRIBBON_SERVED), "another number than 2 or 0", size);
    expect(same_capture(served[0].capture, served[1].capture), "another capture", size);
    expect(memcmp(replies[0], replies[1], sizeof replies[0]) == 0, "another reply", size);
    expect(memcmp(twice.parts, once.parts, sizeof once.parts) == 0, "something else is left", size);
}

static void every_reply(void)
{
    size_t edition, size, kind;
    for (edition = 0; edition < 2; edition++) {
        set_up(both_editions[edition]);
        for (size = 0; size <= MOST_BYTES; size++) {
            for (kind = 0; kind < KINDS; kind++) {
                uint8_t bytes[THAWRIBBON_REQUEST];
                const size_t length = packet_of(of_kind(kinds[kind]), bytes);
                if (kind == 0) {
                    once.pair.primary.capture = fresh_capture;
                }
                served_twice(bytes, length, size);
            }
        }
    }
}

/* A switch keeps nothing: a packet leaves twice by the same port with the same bytes, or twice not. What has left is served twice. */
static void at_a_switch(void)
{
    static const thawribbon_port ports[2] = {{0x05, 0x05, 1}, {0x06, 0x09, 0}};
    size_t n, verdicts[3] = {0, 0, 0}, done = 0;
    set_up(THAWRIBBON_EDITION_1);
    for (n = 0; n < PACKETS; n++) {
        uint8_t bytes[MOST_BYTES];
        const size_t length = draw_bytes(bytes);
        thawribbon_leaving first, second;
        thawribbon_verdict verdict, again;
        bytes[8] = (uint8_t)(bytes[8] + (once_in(4) ? draw() % 8 : 0));
        verdict = thawribbon_ports_route(ports, 2, bytes, length, &first);
        again = thawribbon_ports_route(ports, 2, bytes, length, &second);
        expect(verdict == again && first.number == second.number && first.port == second.port, "another verdict, number or port", n);
        expect(first.length == second.length && memcmp(first.bytes, second.bytes, sizeof first.bytes) == 0, "other bytes", n);
        verdicts[verdict]++;
        if (verdict == THAWRIBBON_LEAVES) {
            done += sent(&once, BOARD, first.bytes, first.length) == THAWRIBBON_DONE;
            expect(sent(&twice, BOARD, first.bytes, first.length) == sent(&twice, BOARD, second.bytes, second.length), "another outcome", n);
            expect(same_answer(&once.answer, &twice.answer) && same_state(&once, &twice), "another answer or state behind it", n);
        }
    }
    expect(verdicts[THAWRIBBON_LEAVES] > 400, "too few leave", verdicts[THAWRIBBON_LEAVES]);
    expect(verdicts[0] != 0 && verdicts[1] != 0 && verdicts[2] != 0, "a verdict is never given", 0);
    expect(done > 200, "too few are done behind it", done);
}

/* The same parts again are written as the same bytes, and are heard as the same, at boards of both editions. */
static void asked_again(subject whom)
{
    size_t n, counted[4] = {0, 0, 0, 0};
    for (n = 0; n < PACKETS; n++) {
        thawribbon_parts parts = of_kind(kinds[draw() % KINDS]);
        uint8_t bytes[2][THAWRIBBON_REQUEST];
        thawribbon_written wrote[2];
        thawribbon_asked asked;
        if (n % (PACKETS / 2) == 0) {
            set_up(both_editions[n / (PACKETS / 2)]);
        }
        parts.offset = once_in(8) ? 0x104 : (uint32_t)(draw() % 16) * 4;
        parts.enables = (uint8_t)(once_in(16) ? 16 : draw() % 16);
        parts.function = (uint8_t)(draw() % 3);
        parts.tag = draw();
        parts.data[0] = draw();
        memset(bytes, 0xEE, sizeof bytes);
        wrote[0] = thawribbon_write_request(parts, bytes[0], THAWRIBBON_REQUEST);
        wrote[1] = thawribbon_write_request(parts, bytes[1], THAWRIBBON_REQUEST);
        expect(wrote[0].number == wrote[1].number && wrote[0].length == wrote[1].length, "another number or length", n);
        expect(memcmp(bytes[0], bytes[1], sizeof bytes[0]) == 0, "other bytes are written", n);
        asked = asked_of(&once, whom, parts);
        counted[asked]++;
        expect(asked_of(&twice, whom, parts) == asked && asked_of(&twice, whom, parts) == asked, "something else became of it", n);
        expect(same_heard(once.heard, twice.heard), "something else is heard", n);
        expect(same_state(&once, &twice), "a request that is asked again leaves something else", n);
    }
    expect(counted[THAWRIBBON_ASKED_DONE] > 400, "too few are done", counted[THAWRIBBON_ASKED_DONE]);
    expect(counted[THAWRIBBON_ASKED_UNSUPPORTED] > 400, "too few are unsupported", counted[THAWRIBBON_ASKED_UNSUPPORTED]);
    expect(counted[THAWRIBBON_ASKED_REFUSED] > 100, "too few are refused", counted[THAWRIBBON_ASKED_REFUSED]);
    expect(counted[THAWRIBBON_ASKED_OTHER] == 0, "a board answers another request", counted[THAWRIBBON_ASKED_OTHER]);
}

static void board_asked_again(void)
{
    asked_again(BOARD);
}

static void pair_asked_again(void)
{
    asked_again(PAIR);
}

/* A write of a kind for a function, at an offset, with this data, these enables and this tag. */
static void write_of(uint8_t bytes[16], uint8_t kind, size_t function, size_t offset, const uint8_t data[WORD], unsigned enables, uint8_t tag)
{
    memcpy(bytes, write_packet, 16);
    bytes[0] = kind;
    bytes[6] = tag;
    bytes[7] = (uint8_t)enables;
    bytes[9] = (uint8_t)(0x18 + function);
    bytes[10] = (uint8_t)(offset / 256);
    bytes[11] = (uint8_t)(offset % 256);
    memcpy(bytes + THAWRIBBON_DATA, data, WORD);
}

/* Gives the word at an offset of a space of a function the same drawn bytes on all three boards, and a capture. */
static void draw_word(size_t which, size_t part, size_t offset, thawribbon_capture capture)
{
    own_boards *const all[3] = {&once, &twice, &joined};
    uint8_t word[WORD];
    size_t n;
    for (n = 0; n < WORD; n++) {
        word[n] = draw();
    }
    for (n = 0; n < 3; n++) {
        memcpy(all[n]->parts[which][part].at + offset, word, WORD);
        side_of(all[n], which)->capture = capture;
    }
}

/* Two writes that differ in their enables and tags, in one order on the first board and in the other on the second; on the third one write
 * with both sets of enables. Gives whether something has changed. */
static int swapped(subject whom, size_t which, uint8_t kind, size_t offset, unsigned one, unsigned other)
{
    const size_t part = kind == THAWRIBBON_TYPE0_WRITE ? ORDINARY : TRUSTED;
    const uint8_t data[WORD] = {draw(), draw(), draw(), draw()};
    uint8_t before[WORD], first[16], second[16], together[16];
    thawribbon_answer answer;
    draw_word(which, part, offset, part == ORDINARY && once_in(2) ? fresh_capture : five_three);
    memcpy(before, once.parts[which][part].at + offset, WORD);
    write_of(first, kind, which, offset, data, one, 1);
    write_of(second, kind, which, offset, data, other, 2);
    write_of(together, kind, which, offset, data, one | other, 1);
    expect(sent(&once, whom, first, 16) == THAWRIBBON_DONE, "the first is not done", offset);
    answer = once.answer;
    expect(sent(&once, whom, second, 16) == THAWRIBBON_DONE, "the second is not done", offset);
    expect(sent(&twice, whom, second, 16) == THAWRIBBON_DONE, "the second is not done first", offset);
    expect(same_answer(&once.answer, &twice.answer), "another answer to the second", offset);
    expect(sent(&twice, whom, first, 16) == THAWRIBBON_DONE, "the first is not done behind it", offset);
    expect(same_answer(&answer, &twice.answer), "another answer to the first", offset);
    expect(sent(&joined, whom, together, 16) == THAWRIBBON_DONE, "one write is not done", offset);
    expect(same_answer(&answer, &joined.answer), "another answer to one write", offset);
    expect(same_state(&once, &twice), "the two orders leave other things", offset);
    expect(same_state(&once, &joined), "one write leaves something else", offset);
    return memcmp(before, once.parts[which][part].at + offset, WORD) != 0;
}

/* Every two enables, in both spaces, at drawn offsets other than A. */
static void every_two_enables(subject whom, uint32_t edition)
{
    const size_t count = whom == PAIR ? SIDES : 1;
    size_t which, changed = 0;
    unsigned pair;
    set_up(edition);
    for (pair = 0; pair < 256; pair++) {
        for (which = 0; which < count; which++) {
            const size_t offset = (size_t)(draw() % 16) * 256 + (size_t)(draw() % 64) * 4;
            const size_t elsewhere = offset == described[which].a ? 0x010 : offset;
            changed += (size_t)swapped(whom, which, THAWRIBBON_TYPE0_WRITE, elsewhere, pair % 16, pair / 16);
            changed += (size_t)swapped(whom, which, THAWRIBBON_TRUSTED_WRITE, offset, pair % 16, pair / 16);
        }
    }
    expect(changed > 400 * count, "too few change something", changed);
}

static void board_swapped(void)
{
    every_two_enables(BOARD, THAWRIBBON_EDITION_1);
    every_two_enables(BOARD, THAWRIBBON_EDITION_2);
}

static void pair_swapped(void)
{
    every_two_enables(PAIR, THAWRIBBON_EDITION_1);
    every_two_enables(PAIR, THAWRIBBON_EDITION_2);
}

/* At A each is done and captures, and nothing changes, in the trusted space neither. */
static void at_a(uint32_t edition)
{
    static thawribbon_bytes untouched[SIDES];
    size_t which, changed = 0;
    unsigned pair;
    set_up(edition);
    for (which = 0; which < SIDES; which++) {
        untouched[which] = once.parts[which][TRUSTED];
    }
    for (pair = 0; pair < 256; pair++) {
        for (which = 0; which < SIDES; which++) {
            changed += (size_t)swapped(PAIR, which, THAWRIBBON_TYPE0_WRITE, described[which].a, pair % 16, pair / 16);
            expect(same_capture(side_of(&once, which)->capture, five_three), "a write at A has not captured", pair);
        }
    }
    expect(changed == 0, "a write at A changed something", changed);
    for (which = 0; which < SIDES; which++) {
        expect(memcmp(&once.parts[which][TRUSTED], &untouched[which], sizeof untouched[which]) == 0, "a write at A went to B", which);
    }
}

static void swapped_at_a(void)
{
    at_a(THAWRIBBON_EDITION_1);
    at_a(THAWRIBBON_EDITION_2);
}

/* Reads, an Unsupported Request and a refusal between a packet and its repeat change nothing. */
static void what_changes_nothing(void)
{
    size_t n, done = 0;
    set_up(THAWRIBBON_EDITION_1);
    for (n = 0; n < PACKETS; n++) {
        uint8_t bytes[MOST_BYTES], read[12], poisoned[16];
        const size_t length = draw_bytes(bytes);
        thawribbon_answer answer;
        memcpy(read, write_packet, 12);
        read[0] = (uint8_t)(once_in(2) ? THAWRIBBON_TYPE0_READ : THAWRIBBON_TRUSTED_READ);
        read[10] = (uint8_t)(draw() % 16);
        read[11] = draw();
        memcpy(poisoned, write_packet, 16);
        poisoned[2] = 0x40;
        poisoned[8] = 0x07;
        done += sent(&twice, PAIR, bytes, length) == THAWRIBBON_DONE;
        answer = twice.answer;
        (void)sent(&twice, PAIR, read, 12);
        expect(sent(&twice, PAIR, poisoned, 16) == THAWRIBBON_UNSUPPORTED_REQUEST, "a poisoned write is done", n);
        expect(sent(&twice, PAIR, poisoned, 15) == THAWRIBBON_REFUSED, "a write without its last byte is not refused", n);
        (void)sent(&twice, PAIR, bytes, length);
        expect(same_answer(&answer, &twice.answer), "another answer", n);
        (void)sent(&once, PAIR, bytes, length);
        expect(same_state(&once, &twice), "something else is left", n);
    }
    expect(done > 400, "too few are done", done);
}

/* The bytes at 010h of a space of the first board are these. */
static void holds(size_t part, uint8_t byte, const char *what, size_t at)
{
    const uint8_t word[WORD] = {byte, byte, byte, byte};
    expect(memcmp(once.parts[PRIMARY][part].at + 0x010, word, WORD) == 0, what, at);
}

/* An old write that is repeated after a newer one puts the old data back; so does the one of two that comes last. */
static void old_data(void)
{
    static const uint8_t old[WORD] = {2, 2, 2, 2}, newer[WORD] = {6, 6, 6, 6};
    static const uint8_t write_kinds[2] = {THAWRIBBON_TYPE0_WRITE, THAWRIBBON_TRUSTED_WRITE};
    static const size_t spaces[2] = {ORDINARY, TRUSTED};
    uint8_t first[16], second[16];
    thawribbon_answer answer;
    size_t n;
    for (n = 0; n < 2; n++) {
        set_up(THAWRIBBON_EDITION_1);
        side_of(&once, PRIMARY)->capture = five_three;
        memset(once.parts[PRIMARY][spaces[n] + 1].at + 0x010, 0xFF, WORD); /* the rules */
        memset(once.parts[PRIMARY][spaces[n] + 2].at + 0x010, 0x00, WORD);
        write_of(first, write_kinds[n], PRIMARY, 0x010, old, 0x0F, 1);
        write_of(second, write_kinds[n], PRIMARY, 0x010, newer, 0x0F, 2);
        expect(sent(&once, BOARD, first, 16) == THAWRIBBON_DONE, "not done", n);
        answer = once.answer;
        expect(sent(&once, BOARD, second, 16) == THAWRIBBON_DONE, "the newer one is not done", n);
        holds(spaces[n], 6, "the newer write has not landed", n);
        expect(sent(&once, BOARD, first, 16) == THAWRIBBON_DONE && same_answer(&once.answer, &answer), "its repeat is answered otherwise", n);
        holds(spaces[n], 2, "the old data is not back", n);
    }
}

/* Another capture and a reset between: a trusted read is unsupported, an ordinary one has another completer, and an ordinary write captures
 * its own again. */
static void capture_between(void)
{
    uint8_t bytes[12], other[16];
    thawribbon_answer answer;
    size_t n;
    memcpy(other, write_packet, 16);
    other[8] = 0x06;
    for (n = 0; n < 2; n++) {
        set_up(THAWRIBBON_EDITION_2);
        expect(sent(&once, BOARD, write_packet, 16) == THAWRIBBON_DONE, "a write is not done", n);
        answer = once.answer;
        expect(sent(&once, BOARD, trusted_read, 12) == THAWRIBBON_DONE, "a trusted read is not done", n);
        memcpy(bytes, trusted_read, 12);
        bytes[0] = THAWRIBBON_TYPE0_READ;
        expect(sent(&once, BOARD, bytes, 12) == THAWRIBBON_DONE && once.answer.completion[4] == 0x05, "another completer at first", n);
        if (n == 0) {
            expect(sent(&once, BOARD, other, 16) == THAWRIBBON_DONE, "another's write is not done", n);
        } else {
            thawribbon_pair_reset(&once.pair);
        }
        expect(sent(&once, BOARD, trusted_read, 12) == THAWRIBBON_UNSUPPORTED_REQUEST, "a trusted read is done", n);
        expect(sent(&once, BOARD, bytes, 12) == THAWRIBBON_DONE && once.answer.completion[4] == (n == 0 ? 0x06 : 0x00), "another completer", n);
        expect(sent(&once, BOARD, write_packet, 16) == THAWRIBBON_DONE && same_answer(&once.answer, &answer), "another answer to the write", n);
        expect(sent(&once, BOARD, trusted_read, 12) == THAWRIBBON_DONE, "a trusted read is not done again", n);
    }
}

/* An error that a board sets anew between is cleared by the repeat, and the answer does not tell. */
static void error_between(void)
{
    static const uint8_t both[WORD] = {3, 3, 3, 3};
    uint8_t clears[16];
    thawribbon_answer answer;
    set_up(THAWRIBBON_EDITION_1);
    memset(once.parts[PRIMARY][ORDINARY].at + 0x010, 3, WORD);
    memset(once.parts[PRIMARY][ORDINARY_RULES].at + 0x010, 0x00, WORD);
    memset(once.parts[PRIMARY][ORDINARY_MARKS].at + 0x010, 0xFF, WORD);
    write_of(clears, THAWRIBBON_TYPE0_WRITE, PRIMARY, 0x010, both, 0x0F, 1);
    expect(sent(&once, BOARD, clears, 16) == THAWRIBBON_DONE, "it is not done", 0);
    holds(ORDINARY, 0, "the errors are not cleared", 0);
    answer = once.answer;
    memset(once.parts[PRIMARY][ORDINARY].at + 0x010, 1, WORD);
    expect(sent(&once, BOARD, clears, 16) == THAWRIBBON_DONE && same_answer(&once.answer, &answer), "another answer", 1);
    holds(ORDINARY, 0, "an error that came between is kept", 1);
}

void repeats(void)
{
    group("repeated, 4,000 drawn packets at a board, edition 1", repeated_1);
    group("repeated, 4,000 drawn packets at a board, edition 2", repeated_2);
    group("repeated, 4,000 drawn packets at a board of two functions, edition 1", pair_repeated_1);
    group("repeated, 4,000 drawn packets at a board of two functions, edition 2", pair_repeated_2);
    group("repeated, every kind with a reply of every size", every_reply);
    group("repeated, 4,000 drawn packets at a switch, and behind it", at_a_switch);
    group("repeated, 4,000 drawn requests asked of a board", board_asked_again);
    group("repeated, 4,000 drawn requests asked of a board of two functions", pair_asked_again);
    group("swapped, every two enables at a board, and as one write", board_swapped);
    group("swapped, every two enables at a board of two functions, and as one write", pair_swapped);
    group("swapped, every two enables at A", swapped_at_a);
    group("repeated, with what changes nothing between", what_changes_nothing);
    group("repeated after a newer write, the old data is back", old_data);
    group("repeated after another capture or a reset", capture_between);
    group("repeated after an error that the board set", error_between);
}
