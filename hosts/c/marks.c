/* Bits that are cleared by writing 1, through thawribbon_serve: what a write leaves of them, what leaves them alone, and which are refused. */
#include "first_day.h"

#include "bench_board.h"
#include "drawn.h"
#include "groups.h"

#include <string.h>

/* The two spaces, each with its rules and its marks, and the writes and reads for it. */
enum { SPACES = 2, ORDINARY = 0, TRUSTED = 1 };
static buffer *const spaces[SPACES] = {&ordinary, &trusted};
static buffer *const rules[SPACES] = {&ordinary_rules, &trusted_rules};
static buffer *const marked[SPACES] = {&ordinary_marks, &trusted_marks};
static const uint8_t writes[SPACES] = {THAWRIBBON_TYPE0_WRITE, THAWRIBBON_TRUSTED_WRITE};
static const uint8_t reads[SPACES] = {THAWRIBBON_TYPE0_READ, THAWRIBBON_TRUSTED_READ};
static const uint8_t ones[4] = {0xFF, 0xFF, 0xFF, 0xFF}, zeros[4] = {0, 0, 0, 0};

/* A board that has captured, with P2's packet on its way, as a write to this space. */
static void write_to(size_t which)
{
    fresh_board();
    kept = five_three;
    send_packet(write_packet, 16);
    put(&packet, 0, &writes[which], 1);
}

/* The same, with all bits of both spaces at 004h marked and 1, none of them writable, and this data. */
static void write_to_marked(size_t which, const uint8_t data[4])
{
    size_t one;
    write_to(which);
    put(&packet, THAWRIBBON_DATA, data, 4);
    for (one = 0; one < SPACES; one++) {
        put(spaces[one], 0x004, ones, 4);
        put(rules[one], 0x004, zeros, 4);
        put(marked[one], 0x004, ones, 4);
    }
}

/* A bit in the rules and in the marks of one space is refused; in the rules of one space and in the marks of the other it is none's fault. */
static void one_bit(size_t which, size_t at, uint8_t bit)
{
    write_to(which);
    lent(rules[which])[at] |= bit;
    lent(marked[which])[at] |= bit;
    refuses(THAWRIBBON_BAD_DESCRIPTION, at);
    lent(marked[which])[at] = 0;
    lent(rules[1 - which])[at] = 0;
    lent(marked[1 - which])[at] = bit;
    answers(written, 12, five_three, spaces[which], landed, at);
}

/* One bit in each byte of each space, and each bit of the first byte and of the last. */
static void doubly_marked(void)
{
    size_t which, at, bit;
    for (which = 0; which < SPACES; which++) {
        for (at = 0; at < THAWRIBBON_SPACE; at++) {
            one_bit(which, at, (uint8_t)(1 << at % 8));
        }
        for (bit = 0; bit < 8; bit++) {
            one_bit(which, 0, (uint8_t)(1 << bit));
            one_bit(which, THAWRIBBON_SPACE - 1, (uint8_t)(1 << bit));
        }
    }
}

/* 1 is the lowest number: it is given before those of the reply and of the packet. */
static void doubly_marked_first(void)
{
    size_t which;
    for (which = 0; which < SPACES; which++) {
        write_to(which);
        lent(marked[which])[0x007] = 0x80;
        resize(&reply, 15);
        refuses(THAWRIBBON_BAD_DESCRIPTION, which);
        resize(&packet, 11);
        refuses(THAWRIBBON_BAD_DESCRIPTION, which);
    }
}

/* What a write leaves of a byte that is enabled, bit by bit. */
static uint8_t left(uint8_t old, uint8_t rule, uint8_t mark, uint8_t data)
{
    unsigned bit, result = 0;
    for (bit = 0; bit < 8; bit++) {
        const unsigned was = old >> bit & 1U, sent = data >> bit & 1U;
        const unsigned becomes = (rule >> bit & 1U) != 0 ? sent : (mark >> bit & 1U) != 0 && sent == 1 ? 0 : was;
        result |= becomes << bit;
    }
    return (uint8_t)result;
}

/* Drawn words, rules, marks and data, under each of the enables. All else of both spaces is marked, and stays. */
static void drawn_writes(void)
{
    size_t n, byte;
    for (n = 0; n < 4000; n++) {
        const size_t which = n % SPACES;
        const uint8_t enables = (uint8_t)(n / SPACES % 16);
        uint8_t old[4], rule[4], mark[4], data[4], expected[4];
        for (byte = 0; byte < 4; byte++) {
            old[byte] = draw();
            rule[byte] = draw();
            mark[byte] = (uint8_t)(draw() & ~rule[byte]);
            data[byte] = draw();
            expected[byte] = (enables >> byte & 1) != 0 ? left(old[byte], rule[byte], mark[byte], data[byte]) : old[byte];
        }
        write_to(which);
        fill(&ordinary_marks, 0xFF, THAWRIBBON_SPACE);
        fill(&trusted_marks, 0xFF, THAWRIBBON_SPACE);
        put(marked[1 - which], 0x004, zeros, 4);
        put(spaces[which], 0x004, old, 4);
        put(rules[which], 0x004, rule, 4);
        put(marked[which], 0x004, mark, 4);
        put(&packet, 7, &enables, 1);
        put(&packet, THAWRIBBON_DATA, data, 4);
        answers(written, 12, five_three, spaces[which], expected, n);
    }
}

/* Old FFh, rule F0h, mark 0Ch, data A5h gives ABh: four bits are written, of two one is cleared, and two can be changed by nobody. */
static void one_byte(void)
{
    static const uint8_t rule[4] = {0xF0, 0xF0, 0xF0, 0xF0}, mark[4] = {0x0C, 0x0C, 0x0C, 0x0C};
    static const uint8_t data[4] = {0xA5, 0xA5, 0xA5, 0xA5}, expected[4] = {0xAB, 0xAB, 0xAB, 0xAB};
    size_t which;
    for (which = 0; which < SPACES; which++) {
        write_to(which);
        put(spaces[which], 0x004, ones, 4);
        put(rules[which], 0x004, rule, 4);
        put(marked[which], 0x004, mark, 4);
        put(&packet, THAWRIBBON_DATA, data, 4);
        answers(written, 12, five_three, spaces[which], expected, which);
    }
}

/* A read of 004h of a space shows these bytes, and changes none. */
static void shows(size_t which, const uint8_t bytes[4], size_t at)
{
    uint8_t completion[16];
    memcpy(completion, read_back, 16);
    memcpy(completion + THAWRIBBON_DATA, bytes, 4);
    send_packet(trusted_read, 12);
    put(&packet, 0, &reads[which], 1);
    answers(completion, 16, five_three, NULL, NULL, at);
}

/* An error status bit: it is read, cleared by writing 1, and read again. Its neighbour, which is written 0, stays. */
static void status_bit(void)
{
    static const uint8_t both[4] = {0x00, 0x00, 0x06, 0x00}, lower[4] = {0x00, 0x00, 0x02, 0x00}, upper[4] = {0x00, 0x00, 0x04, 0x00};
    size_t which;
    for (which = 0; which < SPACES; which++) {
        write_to_marked(which, lower);
        put(spaces[which], 0x004, both, 4);
        shows(which, both, which);
        send_packet(write_packet, 16);
        put(&packet, 0, &writes[which], 1);
        put(&packet, THAWRIBBON_DATA, lower, 4);
        answers(written, 12, five_three, spaces[which], upper, which);
        shows(which, upper, which);
    }
}

/* What is done and leaves a marked bit alone: data 0, no byte enabled, a read; and what is refused. */
static void done_and_kept(void)
{
    const uint8_t none = 0x00;
    size_t which;
    for (which = 0; which < SPACES; which++) {
        write_to_marked(which, zeros);
        answers(written, 12, five_three, NULL, NULL, which);
        write_to_marked(which, ones);
        put(&packet, 7, &none, 1);
        answers(written, 12, five_three, NULL, NULL, which);
        shows(which, ones, which);
        write_to_marked(which, ones);
        resize(&packet, 15);
        refuses(THAWRIBBON_WRONG_LENGTH, which);
        write_to_marked(which, ones);
        resize(&reply, 15);
        refuses(THAWRIBBON_NO_ROOM, which);
    }
}

/* A byte of the write is set, and it is an Unsupported Request then, which leaves every marked bit alone. */
static void is_unsupported(size_t which, size_t at, uint8_t byte)
{
    uint8_t completion[12];
    memcpy(completion, written, 12);
    completion[THAWRIBBON_STATUS] = THAWRIBBON_STATUS_UNSUPPORTED;
    write_to_marked(which, ones);
    put(&packet, at, &byte, 1);
    answers(completion, 12, five_three, NULL, NULL, at);
}

/* The five causes of an Unsupported Request, as far as a write can have them. */
static void unsupported_and_kept(void)
{
    uint8_t completion[12];
    is_unsupported(ORDINARY, 0, THAWRIBBON_TYPE1_WRITE);
    is_unsupported(ORDINARY, 9, 0x19);
    is_unsupported(ORDINARY, 2, 0x40);
    is_unsupported(TRUSTED, 2, 0x40);
    is_unsupported(TRUSTED, 8, 0x06);
    is_unsupported(TRUSTED, 9, 0x19);
    is_unsupported(TRUSTED, 9, 0x20);
    memcpy(completion, unsupported, 12);
    completion[10] = write_packet[6];
    write_to_marked(TRUSTED, ones);
    kept = fresh_capture;
    answers(completion, 12, fresh_capture, NULL, NULL, 12);
}

/* An ordinary write at A is done, captures, and clears nothing: neither there nor at B, whatever is marked. */
static void at_a(void)
{
    static const uint8_t place[2] = {0x01, 0x04};
    size_t one;
    write_to_marked(ORDINARY, ones);
    kept = fresh_capture;
    put(&packet, 10, place, 2);
    for (one = 0; one < SPACES; one++) {
        fill(spaces[one], 0xFF, THAWRIBBON_SPACE);
        fill(rules[one], 0x00, THAWRIBBON_SPACE);
        fill(marked[one], 0xFF, THAWRIBBON_SPACE);
    }
    answers(written, 12, five_three, NULL, NULL, 0);
}

void marks(void)
{
    group("serve, a bit in rules and marks", doubly_marked);
    group("serve, a bit in rules and marks before all other numbers", doubly_marked_first);
    group("serve, marked bits and others under every enable", drawn_writes);
    group("serve, marked and writable bits in one byte", one_byte);
    group("serve, an error status bit that is read, cleared and read again", status_bit);
    group("serve, marked bits that are kept though it is done, or refused", done_and_kept);
    group("serve, marked bits that Unsupported Requests keep", unsupported_and_kept);
    group("serve, marked bits that a write at A keeps", at_a);
}
