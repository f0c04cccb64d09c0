/* Packets through thawribbon_serve: P1 to P8, buffers of every length, pointers to nothing, and which number is given. */
#include "first_day.h"

#include "bench_board.h"
#include "groups.h"

#include <string.h>

static void p1(void)
{
    fresh_board();
    send_packet(trusted_read, 12);
    answers(unsupported, 12, fresh_capture, NULL, NULL, 0);
}

static void p2(void)
{
    fresh_board();
    send_packet(write_packet, 16);
    answers(written, 12, five_three, &ordinary, landed, 0);
}

static void p3(void)
{
    p2();
    send_packet(trusted_read, 12);
    answers(read_back, 16, five_three, NULL, NULL, 0);
}

static void p4(void)
{
    fresh_board();
    refuses(THAWRIBBON_SHORT_PACKET, 0);
}

static void p5(void)
{
    fresh_board();
    send_packet(write_packet, 15);
    refuses(THAWRIBBON_WRONG_LENGTH, 0);
}

static void p6(void)
{
    const uint8_t zero = 0x00;
    fresh_board();
    send_packet(trusted_read, 12);
    put(&packet, 0, &zero, 1);
    refuses(THAWRIBBON_UNKNOWN_TYPE, 0);
}

static void p7(void)
{
    const uint8_t enables = 0x1F;
    fresh_board();
    send_packet(trusted_read, 12);
    put(&packet, 7, &enables, 1);
    refuses(THAWRIBBON_WRONG_FIELD, 0);
}

/* Old 0Fh, rule F0h, data A5h gives AFh: in the ordinary space, then in the trusted one. */
static void p8(void)
{
    static const uint8_t old[4] = {0x0F, 0x0F, 0x0F, 0x0F}, rule[4] = {0xF0, 0xF0, 0xF0, 0xF0};
    static const uint8_t new_data[4] = {0xA5, 0xA5, 0xA5, 0xA5}, merged[4] = {0xAF, 0xAF, 0xAF, 0xAF};
    const uint8_t trusted_write = 0x5B;
    fresh_board();
    put(&ordinary, 0x004, old, 4);
    put(&ordinary_rules, 0x004, rule, 4);
    put(&trusted, 0x004, old, 4);
    put(&trusted_rules, 0x004, rule, 4);
    send_packet(write_packet, 16);
    put(&packet, 12, new_data, 4);
    answers(written, 12, five_three, &ordinary, merged, 0);
    put(&packet, 0, &trusted_write, 1);
    answers(written, 12, five_three, &trusted, merged, 1);
}

/* P2's packet is served where the space has 4,096 bytes, and refused with 1 otherwise. */
static void every_length_of(buffer *one)
{
    size_t n;
    for (n = 0; n < LENGTHS; n++) {
        size_t length = tried_length(n);
        fresh_board();
        send_packet(write_packet, 16);
        resize(one, length);
        if (length == THAWRIBBON_SPACE) {
            answers(written, 12, five_three, &ordinary, landed, length);
        } else {
            refuses(THAWRIBBON_BAD_DESCRIPTION, length);
        }
    }
}

static void ordinary_lengths(void)
{
    every_length_of(&ordinary);
}

static void ordinary_rules_lengths(void)
{
    every_length_of(&ordinary_rules);
}

static void ordinary_marks_lengths(void)
{
    every_length_of(&ordinary_marks);
}

static void trusted_lengths(void)
{
    every_length_of(&trusted);
}

static void trusted_rules_lengths(void)
{
    every_length_of(&trusted_rules);
}

static void trusted_marks_lengths(void)
{
    every_length_of(&trusted_marks);
}

static void packet_lengths(void)
{
    size_t n;
    for (n = 0; n < LENGTHS; n++) {
        size_t length = tried_length(n);
        fresh_board();
        send_packet(write_packet, 16);
        resize(&packet, length);
        if (length < 12) {
            refuses(THAWRIBBON_SHORT_PACKET, length);
        } else if (length != 16) {
            refuses(THAWRIBBON_WRONG_LENGTH, length);
        } else {
            answers(written, 12, five_three, &ordinary, landed, length);
        }
    }
}

static void reply_lengths(void)
{
    size_t n;
    for (n = 0; n < LENGTHS; n++) {
        size_t length = tried_length(n);
        fresh_board();
        kept = five_three;
        fill(&reply, 0xEE, length);
        send_packet(trusted_read, 12);
        if (length < THAWRIBBON_REPLY) {
            refuses(THAWRIBBON_NO_ROOM, length);
        } else {
            answers(read_back, 16, five_three, NULL, NULL, length);
        }
        send_packet(write_packet, 16);
        if (length < THAWRIBBON_REPLY) {
            refuses(THAWRIBBON_NO_ROOM, length);
        } else {
            answers(written, 12, five_three, &ordinary, landed, length);
        }
        description.function = 8;
        refuses(THAWRIBBON_BAD_DESCRIPTION, length);
    }
}

/* Each buffer with length 0 and NULL, 1 or the last address there is, by itself and then all of them. */
static void serve_nothing(void)
{
    enum { ALL = 8 };
    static buffer *const all[ALL] = {&ordinary, &ordinary_rules, &ordinary_marks, &trusted,
                                     &trusted_rules, &trusted_marks, &packet, &reply};
    static const uint8_t numbers[ALL] = {1, 1, 1, 1, 1, 1, 3, 2};
    size_t one, n;
    for (n = 0; n < POINTERS; n++) {
        for (one = 0; one < ALL; one++) {
            fresh_board();
            kept = five_three;
            send_packet(write_packet, 16);
            lend_instead(all[one], pointer_to_nothing(n));
            refuses(numbers[one], one);
        }
        for (one = 0; one < ALL; one++) {
            lend_instead(all[one], pointer_to_nothing(n));
        }
        refuses(THAWRIBBON_BAD_DESCRIPTION, ALL);
    }
}

/* Causes of 1 to 6 at once, each there or not: the lowest is given. */
static void lowest_number(void)
{
    const uint8_t zero = 0x00, enables = 0x1F;
    unsigned causes;
    for (causes = 1; causes < 64; causes++) {
        uint8_t lowest = 1;
        while ((causes >> (lowest - 1) & 1) == 0) {
            lowest++;
        }
        fresh_board();
        send_packet(write_packet, 16);
        if ((causes & 32) != 0) {
            put(&packet, 7, &enables, 1);
        }
        if ((causes & 16) != 0) {
            resize(&packet, 17);
        }
        if ((causes & 8) != 0) {
            put(&packet, 0, &zero, 1);
        }
        if ((causes & 4) != 0) {
            resize(&packet, 11);
        }
        if ((causes & 2) != 0) {
            resize(&reply, 15);
        }
        if ((causes & 1) != 0) {
            description.function = 8;
        }
        refuses(lowest, causes);
    }
}

/* Both rules may be the same bytes, and both marks, and the packet may lie among the rules: they are only read. */
static void overlapping_rules(void)
{
    thawribbon_served served;
    fresh_board();
    put(&ordinary_rules, 0x800, write_packet, 16);
    remember_all();
    should_hold(&ordinary, 0x004, landed, 4);
    should_hold(&reply, 0, written, 12);
    served = thawribbon_serve(description, kept, lent(&ordinary), ordinary.length, lent(&ordinary_rules), ordinary_rules.length,
                              lent(&ordinary_marks), ordinary_marks.length, lent(&trusted), trusted.length, lent(&ordinary_rules),
                              ordinary_rules.length, lent(&ordinary_marks), ordinary_marks.length, lent(&ordinary_rules) + 0x800, 16,
                              lent(&reply), reply.length);
    expect(served.number == THAWRIBBON_SERVED && served.length == 12, "another answer", 0);
    expect(same_capture(served.capture, five_three), "another capture", 0);
    all_as_expected(0);
}

/* Rules and marks of a space without either may be the same zeros. */
static void same_zeros(void)
{
    thawribbon_served served;
    fresh_board();
    send_packet(write_packet, 16);
    fill(&ordinary_rules, 0x00, THAWRIBBON_SPACE);
    remember_all();
    should_hold(&reply, 0, written, 12);
    served = thawribbon_serve(description, kept, lent(&ordinary), ordinary.length, lent(&ordinary_rules), ordinary_rules.length,
                              lent(&ordinary_rules), ordinary_rules.length, lent(&trusted), trusted.length, lent(&ordinary_rules),
                              ordinary_rules.length, lent(&ordinary_rules), ordinary_rules.length, lent(&packet), packet.length,
                              lent(&reply), reply.length);
    expect(served.number == THAWRIBBON_SERVED && served.length == 12, "another answer", 0);
    all_as_expected(0);
}

void packets(void)
{
    group("P1", p1);
    group("P2", p2);
    group("P3", p3);
    group("P4", p4);
    group("P5", p5);
    group("P6", p6);
    group("P7", p7);
    group("P8", p8);
    group("serve, ordinary spaces of every length", ordinary_lengths);
    group("serve, ordinary rules of every length", ordinary_rules_lengths);
    group("serve, ordinary marks of every length", ordinary_marks_lengths);
    group("serve, trusted spaces of every length", trusted_lengths);
    group("serve, trusted rules of every length", trusted_rules_lengths);
    group("serve, trusted marks of every length", trusted_marks_lengths);
    group("serve, packets of every length", packet_lengths);
    group("serve, replies of every length", reply_lengths);
    group("serve, NULL and other pointers with length 0", serve_nothing);
    group("serve, the lowest number", lowest_number);
    group("serve, rules and packet that overlap, and marks that are the same", overlapping_rules);
    group("serve, rules and marks that are the same zeros", same_zeros);
}
