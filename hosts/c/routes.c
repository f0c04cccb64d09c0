/* Packets through thawribbon_route: what leaves by which port, lengths, lists of ports, and which number is given. */
#include "first_day.h"

#include "bench_switch.h"
#include "groups.h"

#include <string.h>

static const uint8_t types[6] = {0x04, 0x44, 0x05, 0x45, 0x1B, 0x5B};

static int is_type0(uint8_t byte_0)
{
    return (byte_0 & 0x3F) == 0x04;
}

static int is_trusted(uint8_t byte_0)
{
    return (byte_0 & 0x3F) == 0x1B;
}

/* The lent packet, which has no fault, is routed by the lent list as document 02 says. */
static void is_routed(size_t at)
{
    const uint8_t byte_0 = lent(&packet)[0], bus = lent(&packet)[8];
    const thawribbon_port *list = lent_ports();
    size_t place = 0;
    while (place < ports_count() && (bus < list[place].secondary || bus > list[place].subordinate)) {
        place++;
    }
    if (is_type0(byte_0)) {
        is_not_routed(THAWRIBBON_UNKNOWN_TYPE, at);
    } else if (place == ports_count()) {
        has_no_port(at);
    } else if (is_trusted(byte_0) && list[place].tcs == 0) {
        is_not_routed(THAWRIBBON_UNKNOWN_TYPE, at);
    } else if (!is_trusted(byte_0) && bus == list[place].secondary) {
        leaves_by(place, (uint8_t)(byte_0 - 1), at);
    } else {
        leaves_by(place, byte_0, at);
    }
}

/* One of each: as Type 0 behind the port, unchanged further down, trusted, for no port, and refused with each number that a router gives. */
static void one_of_each(void)
{
    fresh_switch();
    leaves_by(0, 0x44, 0);
    send_request(0x45, 0x00, 0x06);
    leaves_by(0, 0x45, 1);
    send_request(0x05, 0x00, 0x0A);
    leaves_by(2, 0x04, 2);
    send_request(0x5B, 0x00, 0x05);
    leaves_by(0, 0x5B, 3);
    send_request(0x1B, 0x00, 0x0C);
    leaves_by(2, 0x1B, 4);
    send_request(0x5B, 0x00, 0x08);
    is_not_routed(THAWRIBBON_UNKNOWN_TYPE, 5);
    send_request(0x45, 0x00, 0x08);
    leaves_by(1, 0x44, 6);
    send_request(0x45, 0x00, 0x09);
    has_no_port(7);
    send_request(0x1B, 0x00, 0x04);
    has_no_port(8);
    send_request(0x44, 0x00, 0x05);
    is_not_routed(THAWRIBBON_UNKNOWN_TYPE, 9);
}

/* Every bus, with each type, with bit 7 of byte 0, poisoned, and with a digest. */
static void every_bus(void)
{
    unsigned bus, flags;
    size_t type;
    fresh_switch();
    for (bus = 0; bus < 256; bus++) {
        for (type = 0; type < 6; type++) {
            for (flags = 0; flags < 8; flags++) {
                send_request((uint8_t)(types[type] | (flags & 4) << 5), (uint8_t)((flags & 3) << 6), (uint8_t)bus);
                is_routed(bus);
            }
        }
    }
}

/* Every first byte, on a packet as long as its type wants it, and on one that is 4 bytes longer. */
static void every_first_byte(void)
{
    unsigned first;
    for (first = 0; first < 256; first++) {
        const int known = memchr(types, (int)(first & 0x7F), sizeof types) != NULL;
        fresh_switch();
        send_request((uint8_t)first, 0x00, 0x05);
        if (known) {
            is_routed(first);
        } else {
            is_not_routed(THAWRIBBON_UNKNOWN_TYPE, first);
        }
        resize(&packet, packet.length + 4);
        is_not_routed(known ? THAWRIBBON_WRONG_LENGTH : THAWRIBBON_UNKNOWN_TYPE, first);
    }
}

/* Each bit of the longest packet, turned: a fixed field is refused, and whatever else it is goes along. */
static void every_bit(void)
{
    static const uint8_t fixed[20] = {0x00, 0x70, 0x33, 0xFF, 0x00, 0x00, 0x00, 0xF0};
    static const uint8_t sent[3] = {0x45, 0x5B, 0xDB};
    unsigned place, bit;
    size_t n;
    for (n = 0; n < 3; n++) {
        for (place = 1; place < 20; place++) {
            for (bit = 0; bit < 8; bit++) {
                fresh_switch();
                send_request(sent[n], 0x80, 0x05);
                lent(&packet)[place] ^= (uint8_t)(1U << bit);
                if (place == 2 && bit == 7) {
                    is_not_routed(THAWRIBBON_WRONG_LENGTH, place);
                } else if ((fixed[place] >> bit & 1) != 0) {
                    is_not_routed(THAWRIBBON_WRONG_FIELD, place);
                } else {
                    is_routed(place);
                }
            }
        }
    }
}

/* A packet of every length, in a buffer of every length. */
static void lengths_of(uint8_t byte_0, uint8_t byte_2, size_t packet_length, size_t leaving_length)
{
    size_t whole;
    fresh_switch();
    send_request(byte_0, byte_2, 0x05);
    whole = packet.length;
    resize(&packet, packet_length);
    fill(&leaving, 0xEE, leaving_length);
    if (leaving_length < THAWRIBBON_LEAVING) {
        is_not_routed(THAWRIBBON_NO_ROOM, leaving_length);
    } else if (packet_length < 12) {
        is_not_routed(THAWRIBBON_SHORT_PACKET, packet_length);
    } else if (packet_length != whole) {
        is_not_routed(THAWRIBBON_WRONG_LENGTH, packet_length);
    } else {
        is_routed(packet_length);
    }
}

static void every_length(void)
{
    size_t type, packet_length, leaving_length;
    for (type = 0; type < 6; type++) {
        for (packet_length = 0; packet_length <= 24; packet_length++) {
            for (leaving_length = 0; leaving_length <= 24; leaving_length++) {
                lengths_of(types[type], 0x00, packet_length, leaving_length);
                lengths_of(types[type], 0x80, packet_length, leaving_length);
            }
        }
        for (packet_length = 4090; packet_length <= MOST; packet_length++) {
            lengths_of(types[type], 0x80, packet_length, 20);
            lengths_of(types[type], 0x80, 20, packet_length);
        }
    }
}

/* NULL and other pointers with length 0, each buffer by itself, and all of them. The empty list is a good one. */
static void route_nothing(void)
{
    size_t n;
    for (n = 0; n < POINTERS; n++) {
        fresh_switch();
        lend_instead(&ports, pointer_to_nothing(n));
        has_no_port(n);
        fresh_switch();
        lend_instead(&packet, pointer_to_nothing(n));
        is_not_routed(THAWRIBBON_SHORT_PACKET, n);
        fresh_switch();
        lend_instead(&leaving, pointer_to_nothing(n));
        is_not_routed(THAWRIBBON_NO_ROOM, n);
        lend_instead(&ports, pointer_to_nothing(n));
        lend_instead(&packet, pointer_to_nothing(n));
        is_not_routed(THAWRIBBON_NO_ROOM, n);
    }
}

/* Causes of 1 to 6 at once, each there or not. The first is given; then 4 for what is not passed on; then no port has the bus. */
static void causes_of(unsigned causes, uint8_t byte_0, uint8_t bus)
{
    static const thawribbon_port meeting[2] = {{0x05, 0x08, 1}, {0x08, 0x09, 1}};
    uint8_t first = 1;
    fresh_switch();
    send_request((uint8_t)((causes & 8) != 0 ? 0x00 : byte_0), 0x00, bus);
    if ((causes & 1) != 0) {
        lend_ports(meeting, 2);
    }
    if ((causes & 2) != 0) {
        resize(&leaving, 19);
    }
    if ((causes & 32) != 0) {
        lent(&packet)[7] = 0x1F;
    }
    if ((causes & 16) != 0) {
        resize(&packet, 17);
    }
    if ((causes & 4) != 0) {
        resize(&packet, 11);
    }
    while (first <= 6 && (causes >> (first - 1) & 1) == 0) {
        first++;
    }
    if (first <= 6) {
        is_not_routed(first, causes);
    } else {
        is_routed(causes);
    }
}

static void first_number(void)
{
    unsigned causes;
    size_t type;
    for (causes = 0; causes < 64; causes++) {
        for (type = 0; type < 6; type++) {
            causes_of(causes, types[type], 0x05);
            causes_of(causes, types[type], 0x08);
            causes_of(causes, types[type], 0xFF);
        }
    }
}

/* The list and the packet are only read, so they may be the same bytes: four ports, and a Type 1 read for bus 06h. */
static void same_bytes(void)
{
    static const uint8_t both[12] = {0x05, 0x0F, 0x00, 0x01, 0x04, 0x05, 0x00, 0x00, 0x06, 0x10, 0x1F, 0x04};
    thawribbon_routed routed;
    fresh_switch();
    send_packet(both, 12);
    remember(&packet);
    remember(&leaving);
    should_hold(&leaving, 0, both, 12);
    routed = thawribbon_route((const thawribbon_port *)lent(&packet), 4, lent(&packet), 12, lent(&leaving), leaving.length);
    expect(routed.number == THAWRIBBON_SERVED && routed.leaves == 1, "it does not leave", 0);
    expect(routed.port == 0 && routed.length == 12, "another port or length", 0);
    expect(is_as_expected(&packet) && is_as_expected(&leaving), "another packet, or something else leaves", 0);
}

/* All 256 values of tcs: 0 holds trusted requests back, and nothing else; any other holds nothing back. */
static void every_tcs(void)
{
    unsigned tcs;
    size_t type;
    fresh_switch();
    for (tcs = 0; tcs < 256; tcs++) {
        lent(&ports)[2] = (uint8_t)tcs;
        for (type = 0; type < 6; type++) {
            send_request(types[type], 0x00, 0x06);
            is_routed(tcs);
        }
    }
}

void routes(void)
{
    group("route, one packet of each kind", one_of_each);
    group("route, every bus with every type", every_bus);
    group("route, every first byte", every_first_byte);
    group("route, every bit of a packet", every_bit);
    group("route, packets and buffers of every length", every_length);
    group("route, NULL and other pointers with length 0", route_nothing);
    group("route, the first number", first_number);
    group("route, ports and packet that are the same bytes", same_bytes);
    group("route, every value of tcs", every_tcs);
}
