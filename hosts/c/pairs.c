/* Packets to a board of two functions, through thawribbon_serve_pair and thawribbon_reset_pair: whom each goes to, whose completer ID an
 * Unsupported Request has, each cause of each number at either function, and what each has captured. */
#include "first_day.h"

#include "bench_pair.h"
#include "bench_parts.h"
#include "groups.h"

#include <string.h>

static const uint8_t ordinary_bytes[SIDES][4] = {{0x51, 0x51, 0x51, 0x51}, {0x93, 0x93, 0x93, 0x93}};

/* P1 to P3 at each function, and the other one beside it: it has captured nothing from them, and takes no trusted request. */
static void first_packets(void)
{
    size_t side;
    for (side = 0; side < SIDES; side++) {
        fresh_pair();
        send_to(trusted_read, 12, side);
        pair_is_unsupported(side, 1);
        send_to(write_packet, 16, side);
        pair_writes(side, captured_by[side], ORDINARY, 2);
        send_to(trusted_read, 12, side);
        pair_reads(side, trusted_at_004[side], 3);
        send_to(trusted_read, 12, other_side(side));
        pair_is_unsupported(other_side(side), 4);
        send_to(write_packet, 16, other_side(side));
        pair_writes(other_side(side), captured_by[other_side(side)], ORDINARY, 5);
        send_to(trusted_read, 12, side);
        pair_reads(side, trusted_at_004[side], 6);
    }
}

/* A trusted request has to name what the function itself has captured: with the bus and the device of the other it is unsupported. */
static void captures_apart(void)
{
    size_t side;
    for (side = 0; side < SIDES; side++) {
        const thawribbon_capture others = captured_by[other_side(side)];
        const uint8_t byte_9 = (uint8_t)(others.device * 8 + side);
        both_captured();
        send_to(trusted_read, 12, side);
        put(&packet, 8, &others.bus, 1);
        pair_is_unsupported(side, 1);
        put(&packet, 9, &byte_9, 1);
        pair_is_unsupported(side, 2);
        send_as(THAWRIBBON_TYPE0_READ);
        pair_reads(side, ordinary_bytes[side], 3);
        sides[side].kept = fresh_capture;
        send_as(THAWRIBBON_TRUSTED_READ);
        pair_is_unsupported(side, 4);
    }
}

/* A packet of a kind that names a function, on a pair where each has captured: the function does it that has the number and, where the
 * request is trusted, captured the bus and the device. A Type 1 request, and one for neither, are unsupported, with the primary's ID. */
static void goes_to(uint8_t kind, uint8_t function, size_t bus_of, size_t at)
{
    const int is_trusted = (kind & 0x3F) == 0x1B, is_type1 = (kind & 0x3F) == 0x05, writes = is_write(kind & 0x7F);
    const int for_primary = function == sides[PRIMARY].description.function, for_alternate = function == sides[ALTERNATE].description.function;
    const size_t by = for_alternate && !is_type1 ? ALTERNATE : PRIMARY;
    const uint8_t byte_9 = (uint8_t)(captured_by[bus_of].device * 8 + function);
    send_to(write_packet, writes ? 16 : 12, bus_of);
    send_as(kind);
    put(&packet, 9, &byte_9, 1);
    if (is_type1 || (!for_primary && !for_alternate) || (is_trusted && bus_of != by)) {
        pair_is_unsupported(by, at);
    } else if (writes) {
        pair_writes(by, captured_by[is_trusted ? by : bus_of], is_trusted ? TRUSTED : ORDINARY, at);
    } else {
        pair_reads(by, is_trusted ? trusted_at_004[by] : ordinary_bytes[by], at);
    }
}

/* Every two numbers, every number that a packet names, every kind, and the bus and device of either. */
static void every_two_numbers(void)
{
    uint8_t one, other, named;
    size_t kind, bus_of;
    for (one = 0; one < 8; one++) {
        for (other = 0; other < 8; other++) {
            for (named = 0; named < 8 && one != other; named++) {
                for (kind = 0; kind < KINDS; kind++) {
                    for (bus_of = 0; bus_of < SIDES; bus_of++) {
                        both_captured();
                        sides[PRIMARY].description.function = one;
                        sides[ALTERNATE].description.function = other;
                        goes_to(kinds[kind], named, bus_of, one * 100U + other * 10U + named);
                    }
                }
            }
        }
    }
}

/* What is unsupported at each function, with its own ID: nothing captured, another address, a poisoned write; and Type 1 and what names
 * neither, with the primary's: fresh, after either has captured, and after both have. */
static void unsupported_ids(void)
{
    static const uint8_t poison = 0x40;
    size_t side, captured, kind;
    for (captured = 0; captured < 4; captured++) {
        both_captured();
        for (side = 0; side < SIDES; side++) {
            sides[side].kept = (captured >> side & 1) != 0 ? captured_by[side] : fresh_capture;
        }
        for (side = 0; side < SIDES; side++) {
            send_to(write_packet, 16, side);
            put(&packet, 2, &poison, 1);
            pair_is_unsupported(side, captured);
            send_as(THAWRIBBON_TRUSTED_WRITE);
            pair_is_unsupported(side, captured);
            send_for(trusted_read, 12, sides[side].description.function);
            put(&packet, 8, &poison, 1);
            pair_is_unsupported(side, captured);
            for (kind = 0; kind < KINDS; kind++) {
                send_to(write_packet, is_write(kinds[kind]) ? 16 : 12, side);
                send_as(kinds[kind]);
                if ((kinds[kind] & 0x3F) == 0x05) {
                    pair_is_unsupported(PRIMARY, captured);
                }
                send_for(write_packet, is_write(kinds[kind]) ? 16 : 12, 7);
                send_as(kinds[kind]);
                pair_is_unsupported(PRIMARY, captured);
            }
        }
    }
}

/* P2's packet for either function, and for neither, is refused with 1. */
static void is_badly_described(size_t at)
{
    uint8_t function;
    for (function = 0; function < 3; function++) {
        send_for(write_packet, 16, function);
        pair_refuses(THAWRIBBON_BAD_DESCRIPTION, at);
    }
    send_for(write_packet, 11, 0);
    pair_refuses(THAWRIBBON_BAD_DESCRIPTION, at);
}

static void equal_numbers(void)
{
    unsigned number;
    for (number = 0; number < 256; number++) {
        both_captured();
        sides[PRIMARY].description.function = sides[ALTERNATE].description.function = (uint8_t)number;
        is_badly_described(number);
        send_for(trusted_read, 12, (uint8_t)(number & 7));
        pair_refuses(THAWRIBBON_BAD_DESCRIPTION, number);
    }
}

static void numbers_over_7(void)
{
    unsigned number;
    size_t side;
    for (number = 8; number < 256; number++) {
        for (side = 0; side < SIDES; side++) {
            both_captured();
            sides[side].description.function = (uint8_t)number;
            is_badly_described(number);
        }
    }
}

/* P2's packet for each function is served where every part of both has 4,096 bytes, and refused with 1 otherwise. */
static void part_lengths(void)
{
    size_t part, n, side;
    for (part = 0; part < SIDES * PARTS; part++) {
        for (n = 0; n < LENGTHS; n++) {
            const size_t length = tried_length(n);
            both_captured();
            resize(&sides[part / PARTS].parts[part % PARTS], length);
            if (length != THAWRIBBON_SPACE) {
                is_badly_described(part * 10000 + length);
                continue;
            }
            for (side = 0; side < SIDES; side++) {
                send_to(write_packet, 16, side);
                pair_writes(side, captured_by[side], ORDINARY, part * 10000 + length);
            }
        }
    }
}

/* Places that are outside their range, of either function, and the ends of the ranges. */
static void a_and_b(void)
{
    static const uint32_t bad_a[7] = {0x000, 0x100, 0x103, 0x105, 0xFFD, 0x1000, 0x10104};
    static const uint32_t bad_b[7] = {0x000, 0x008, 0x00B, 0x00D, 0xFFD, 0x1000, 0x1000C};
    static const uint32_t good_a[4] = {0x104, 0x108, 0x800, 0xFFC}, good_b[4] = {0x00C, 0x010, 0x800, 0xFFC};
    size_t side, n;
    for (side = 0; side < SIDES; side++) {
        for (n = 0; n < 7; n++) {
            both_captured();
            sides[side].description.a = bad_a[n];
            is_badly_described(bad_a[n]);
            both_captured();
            sides[side].description.b = bad_b[n];
            is_badly_described(bad_b[n]);
        }
        for (n = 0; n < 4; n++) {
            const uint8_t at_a[2] = {(uint8_t)(good_a[n] >> 8), (uint8_t)good_a[n]};
            both_captured();
            sides[side].description.a = good_a[n];
            sides[side].description.b = good_b[n];
            put(&sides[side].parts[TRUSTED], good_b[n], landed, 4);
            send_to(trusted_read, 12, side);
            send_as(THAWRIBBON_TYPE0_READ);
            put(&packet, 10, at_a, 2);
            pair_reads(side, landed, n);
        }
    }
}

/* A bit in the rules and in the marks of one of the four spaces is refused; in the rules of one and in the marks of another it is not. */
static void doubly_marked(void)
{
    static const size_t rules[4] = {ORDINARY_RULES, TRUSTED_RULES, PARTS + ORDINARY_RULES, PARTS + TRUSTED_RULES};
    size_t one, other, at;
    for (one = 0; one < 4; one++) {
        for (other = 0; other < 4; other++) {
            for (at = 0x008; at < THAWRIBBON_SPACE; at = at < 4092 ? at + 61 : at + 1) {
                const uint8_t bit = (uint8_t)(1 << at % 8);
                both_captured();
                put(&sides[rules[one] / PARTS].parts[rules[one] % PARTS], at, &bit, 1);
                put(&sides[rules[other] / PARTS].parts[rules[other] % PARTS + 1], at, &bit, 1);
                if (one == other) {
                    is_badly_described(at);
                } else {
                    send_to(write_packet, 16, ALTERNATE);
                    pair_writes(ALTERNATE, captured_by[ALTERNATE], ORDINARY, at);
                }
            }
        }
    }
}

/* A device over 31 counts where it is captured, by either function, and whichever is named. */
static void captured_devices(void)
{
    unsigned device;
    size_t side;
    for (device = 0; device < 256; device++) {
        for (side = 0; side < SIDES; side++) {
            both_captured();
            sides[side].kept.device = (uint8_t)device;
            if (device > 31) {
                is_badly_described(device);
            }
            sides[side].kept.captured = 0;
            send_to(write_packet, 16, other_side(side));
            pair_writes(other_side(side), captured_by[other_side(side)], ORDINARY, device);
        }
    }
}

/* Values of captured, of both functions: a refusal hands all of it back; a packet that is served gives 0 or 1. */
static void captured_values(void)
{
    unsigned one, other;
    for (one = 0; one < 256; one += 5) {
        for (other = 0; other < 256; other += 3) {
            both_captured();
            sides[PRIMARY].kept.captured = (uint8_t)one;
            sides[ALTERNATE].kept.captured = (uint8_t)other;
            send_to(trusted_read, 11, ALTERNATE);
            pair_refuses(THAWRIBBON_SHORT_PACKET, one);
            send_to(trusted_read, 12, ALTERNATE);
            if (other == 0) {
                pair_is_unsupported(ALTERNATE, one);
            } else {
                pair_reads(ALTERNATE, trusted_at_004[ALTERNATE], one);
            }
        }
    }
}

static void other_editions(void)
{
    static const uint32_t none[8] = {0, 3, 255, 256 + 1, 256 + 2, 0x10000 + 1, UINT32_MAX - 1, UINT32_MAX};
    size_t n;
    for (n = 0; n < sizeof none / sizeof none[0]; n++) {
        both_captured();
        pair_edition = none[n];
        is_badly_described(n);
    }
}

/* Bit 7 of byte 0 under both editions: edition 1 ignores it, for whomever the packet is, and edition 2 refuses it. */
static void bit_7(void)
{
    uint32_t edition;
    uint8_t named;
    size_t kind;
    for (edition = THAWRIBBON_EDITION_1; edition <= THAWRIBBON_EDITION_2; edition++) {
        for (named = 0; named < 3; named++) {
            for (kind = 0; kind < KINDS; kind++) {
                both_captured();
                pair_edition = edition;
                goes_to(kinds[kind], named, named == 1 ? ALTERNATE : PRIMARY, kind);
                both_captured();
                pair_edition = edition;
                if (edition == THAWRIBBON_EDITION_1) {
                    goes_to(kinds[kind] | 0x80, named, named == 1 ? ALTERNATE : PRIMARY, kind);
                } else {
                    send_for(write_packet, is_write(kinds[kind]) ? 16 : 12, named);
                    send_as(kinds[kind] | 0x80);
                    pair_refuses(THAWRIBBON_UNKNOWN_TYPE, kind);
                }
            }
        }
    }
}

/* A reply under 16 bytes is refused with 2, whoever is named, and also where 12 bytes would be written. */
static void reply_lengths(void)
{
    size_t n, side;
    for (n = 0; n < LENGTHS; n++) {
        const size_t length = tried_length(n);
        for (side = 0; side < SIDES; side++) {
            both_captured();
            fill(&reply, 0xEE, length);
            send_for(write_packet, 16, 7);
            if (length < THAWRIBBON_REPLY) {
                pair_refuses(THAWRIBBON_NO_ROOM, length);
                send_to(trusted_read, 12, side);
                pair_refuses(THAWRIBBON_NO_ROOM, length);
                send_to(trusted_read, 11, side);
                pair_refuses(THAWRIBBON_NO_ROOM, length);
            } else {
                pair_is_unsupported(PRIMARY, length);
                send_to(trusted_read, 12, side);
                pair_reads(side, trusted_at_004[side], length);
            }
        }
    }
}

/* 3 to 6 with byte 9 naming the primary, the alternate and neither: packets of every length, every byte 0, every bit of the fixed fields. */
static void faulty_packets(void)
{
    static const uint8_t fields[4][2] = {{1, 0x70}, {2, 0x33}, {3, 0xFF}, {7, 0xF0}};
    uint8_t named, bit;
    unsigned byte_0;
    size_t n;
    both_captured();
    for (named = 0; named < 8; named++) {
        for (n = 0; n < LENGTHS; n++) {
            send_for(write_packet, 16, named);
            resize(&packet, tried_length(n));
            if (packet.length != 16) {
                pair_refuses(packet.length < 12 ? THAWRIBBON_SHORT_PACKET : THAWRIBBON_WRONG_LENGTH, packet.length);
            }
        }
        for (byte_0 = 0; byte_0 < 256; byte_0++) {
            send_for(write_packet, 16, named);
            send_as((uint8_t)byte_0);
            if (!is_kind((uint8_t)(byte_0 & 0x7F))) {
                pair_refuses(THAWRIBBON_UNKNOWN_TYPE, byte_0);
            }
        }
        for (n = 0; n < 4; n++) {
            for (bit = 0; bit < 8; bit++) {
                const uint8_t turned = (uint8_t)(write_packet[fields[n][0]] ^ 1 << bit);
                send_for(write_packet, 16, named);
                put(&packet, fields[n][0], &turned, 1);
                if ((fields[n][1] >> bit & 1) != 0) {
                    pair_refuses(THAWRIBBON_WRONG_FIELD, n);
                }
            }
        }
    }
}

/* Causes of 1 to 6 at once, each there or not, with that of 1 at either function or at both, and byte 9 naming each: the lowest is given. */
static void lowest_number(void)
{
    const uint8_t zero = 0x00, enables = 0x1F;
    unsigned causes;
    uint8_t named;
    size_t where;
    for (causes = 1; causes < 64; causes++) {
        for (named = 0; named < 3; named++) {
            for (where = 0; where < 3; where++) {
                uint8_t lowest = 1;
                while ((causes >> (lowest - 1) & 1) == 0) {
                    lowest++;
                }
                both_captured();
                send_for(write_packet, 16, named);
                if ((causes & 32) != 0) {
                    put(&packet, 7, &enables, 1);
                }
                if ((causes & 16) != 0) {
                    resize(&packet, 17);
                }
                if ((causes & 8) != 0) {
                    put(&packet, 0, &zero, 1);
                }
                if ((causes & 4) != 0) {
                    resize(&packet, 11);
                }
                if ((causes & 2) != 0) {
                    resize(&reply, 15);
                }
                if ((causes & 1) != 0) {
                    sides[where < 2 ? where : PRIMARY].description.function = (uint8_t)(where < 2 ? 8 : 1);
                }
                pair_refuses(lowest, causes);
            }
        }
    }
}

/* Each buffer with length 0 and NULL, 1 or the last address there is, by itself and then all of them. */
static void serve_nothing(void)
{
    size_t one, n, side;
    for (n = 0; n < POINTERS; n++) {
        for (one = 0; one < SIDES * PARTS; one++) {
            both_captured();
            lend_instead(&sides[one / PARTS].parts[one % PARTS], pointer_to_nothing(n));
            is_badly_described(one);
        }
        for (side = 0; side < SIDES; side++) {
            both_captured();
            send_to(write_packet, 16, side);
            lend_instead(&reply, pointer_to_nothing(n));
            pair_refuses(THAWRIBBON_NO_ROOM, side);
            lend_instead(&packet, pointer_to_nothing(n));
            pair_refuses(THAWRIBBON_NO_ROOM, side);
            fill(&reply, 0xEE, 18);
            pair_refuses(THAWRIBBON_SHORT_PACKET, side);
        }
        for (one = 0; one < SIDES * PARTS; one++) {
            lend_instead(&sides[one / PARTS].parts[one % PARTS], pointer_to_nothing(n));
        }
        pair_refuses(THAWRIBBON_BAD_DESCRIPTION, n);
    }
}

/* All four spaces may have the same rules and the same marks, and the packet may lie among them: they are only read. */
static void same_rules(void)
{
    buffer *rules = &sides[PRIMARY].parts[ORDINARY_RULES], *marks = &sides[PRIMARY].parts[ORDINARY_MARKS], *parts;
    uint8_t completion[THAWRIBBON_REPLY];
    thawribbon_pair_served served;
    size_t length;
    both_captured();
    parts = sides[ALTERNATE].parts;
    send_to(write_packet, 16, ALTERNATE);
    put(rules, 0x800, lent(&packet), 16);
    remember_pair();
    should_hold(&parts[ORDINARY], 0x004, landed, 4);
    length = completed(completion, ALTERNATE, captured_by[ALTERNATE], THAWRIBBON_STATUS_SUCCESSFUL, NULL);
    should_hold(&reply, 0, completion, length);
    served = thawribbon_serve_pair(pair_edition, sides[PRIMARY].description, sides[ALTERNATE].description, kept_by_both(),
                                   lent(&sides[PRIMARY].parts[ORDINARY]), 4096, lent(rules), 4096, lent(marks), 4096,
                                   lent(&sides[PRIMARY].parts[TRUSTED]), 4096, lent(rules), 4096, lent(marks), 4096,
                                   lent(&parts[ORDINARY]), 4096, lent(rules), 4096, lent(marks), 4096,
                                   lent(&parts[TRUSTED]), 4096, lent(rules), 4096, lent(marks), 4096,
                                   lent(rules) + 0x800, 16, lent(&reply), reply.length);
    expect(served.number == THAWRIBBON_SERVED && served.length == 12, "another answer", 0);
    expect(same_captures(served.kept, kept_by_both()), "other captures", 0);
    pair_as_expected(0);
}

static void reset(void)
{
    const thawribbon_captures nothing = {THAWRIBBON_FRESH, THAWRIBBON_FRESH};
    unsigned one, other;
    size_t side;
    for (one = 0; one < 256; one++) {
        for (other = 0; other < 256; other++) {
            thawribbon_captures given = {{0, 0xFF, 0xFF}, {0, 0x05, 3}};
            given.primary.captured = (uint8_t)one;
            given.alternate.captured = (uint8_t)other;
            expect(same_captures(thawribbon_reset_pair(given), nothing), "something is captured", one);
        }
    }
    for (side = 0; side < SIDES; side++) {
        thawribbon_captures after;
        both_captured();
        after = thawribbon_reset_pair(kept_by_both());
        sides[PRIMARY].kept = after.primary;
        sides[ALTERNATE].kept = after.alternate;
        send_to(trusted_read, 12, side);
        pair_is_unsupported(side, 256);
        pair_is_unsupported(side, 257);
    }
}

/* The alternate by the record that the primary shows: three reads of the primary give a Dual-BDF record, it has the alternate's function and
 * the device of both, and requests for these are served by the alternate. */
static void by_the_record(void)
{
    static const uint8_t record[12] = {0x09, 0x00, 0x0C, 0x00, 0xC0, 0x1E, 0xC0, 0x00, 0x02, 0x00, 0x02, 0x03};
    static uint8_t seen[THAWRIBBON_SPACE];
    thawribbon_alternate alternate;
    uint8_t offset, target;
    fresh_pair();
    put(&sides[PRIMARY].parts[ORDINARY], 0x040, record, 12);
    for (offset = 0x40; offset < 0x4C; offset = (uint8_t)(offset + 4)) {
        send_for(trusted_read, 12, 0);
        send_as(THAWRIBBON_TYPE0_READ);
        put(&packet, 11, &offset, 1);
        pair_reads(PRIMARY, record + (offset - 0x40), offset);
        memcpy(seen + offset, lent(&reply) + THAWRIBBON_DATA, 4);
    }
    alternate = thawribbon_dual_bdf(seen, sizeof seen, 0x040);
    expect(alternate.number == THAWRIBBON_SERVED, "no record", alternate.number);
    expect(alternate.function == sides[ALTERNATE].description.function && alternate.device == 3, "another function or device", 0);
    target = (uint8_t)(alternate.device * 8 + alternate.function);
    send_packet(write_packet, 16);
    put(&packet, 9, &target, 1);
    pair_writes(ALTERNATE, five_three, ORDINARY, 0);
    send_packet(trusted_read, 12);
    put(&packet, 9, &target, 1);
    pair_reads(ALTERNATE, trusted_at_004[ALTERNATE], 1);
}

void pairs(void)
{
    group("pair, P1 to P3 at each function", first_packets);
    group("pair, captures apart", captures_apart);
    group("pair, every two function numbers, every one that is named, and every kind", every_two_numbers);
    group("pair, what is unsupported, and whose ID it has", unsupported_ids);
    group("pair, equal function numbers", equal_numbers);
    group("pair, function numbers over 7", numbers_over_7);
    group("pair, each of the twelve buffers of every length", part_lengths);
    group("pair, A and B of each function", a_and_b);
    group("pair, a bit in the rules and the marks of each space", doubly_marked);
    group("pair, every captured device", captured_devices);
    group("pair, values of captured", captured_values);
    group("pair, numbers that are no edition", other_editions);
    group("pair, bit 7 of byte 0 under both editions", bit_7);
    group("pair, replies of every length", reply_lengths);
    group("pair, packets with a fault for each function and for none", faulty_packets);
    group("pair, the lowest number", lowest_number);
    group("pair, NULL and other pointers with length 0", serve_nothing);
    group("pair, the same rules and marks four times, with the packet in them", same_rules);
    group("pair, reset", reset);
    group("pair, the alternate by the primary's Dual-BDF record", by_the_record);
}
