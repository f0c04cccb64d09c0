/* The list of ports through thawribbon_route: lists of every count, ranges in every order, and what makes a list a bad one. */
#include "first_day.h"

#include "bench_switch.h"
#include "groups.h"

enum { MOST_TRIED = 64 };

static thawribbon_port list[MOST_TRIED];

/* A list of so many ports, each with three buses and a bus that nobody has behind it; the last bus first, or last. */
static void spread(size_t count, int downwards)
{
    size_t n;
    for (n = 0; n < count; n++) {
        thawribbon_port *port = &list[downwards ? count - 1 - n : n];
        port->secondary = (uint8_t)(4 * n);
        port->subordinate = (uint8_t)(4 * n + 2);
        port->tcs = 1;
    }
}

/* A trusted read for this bus leaves by the port at this place, or finds none. */
static void is_found(unsigned bus, size_t count, int downwards)
{
    const size_t n = bus / 4;
    send_request(THAWRIBBON_TRUSTED_READ, 0x00, (uint8_t)bus);
    if (n < count && bus % 4 != 3) {
        leaves_by(downwards ? count - 1 - n : n, THAWRIBBON_TRUSTED_READ, bus);
    } else {
        has_no_port(bus);
    }
}

/* Lists of 0 to 32 ports find every bus that they have; longer ones are refused, whatever the packet and the buffer. */
static void every_count(void)
{
    size_t count;
    unsigned bus;
    int downwards;
    for (count = 0; count <= MOST_TRIED; count++) {
        for (downwards = 0; downwards <= 1; downwards++) {
            fresh_switch();
            spread(count, downwards);
            lend_ports(list, count);
            for (bus = 0; bus < 256 && count <= THAWRIBBON_PORTS; bus++) {
                is_found(bus, count, downwards);
            }
            if (count > THAWRIBBON_PORTS) {
                is_not_routed(THAWRIBBON_BAD_DESCRIPTION, count);
                fill(&packet, 0x00, 0);
                fill(&leaving, 0xEE, 0);
                is_not_routed(THAWRIBBON_BAD_DESCRIPTION, count);
            }
        }
    }
}

/* Two ports, whose ranges are as given: both well described and apart, or the list is refused. */
static void two_ranges(uint8_t from, uint8_t to, uint8_t other_from, uint8_t other_to)
{
    list[0].secondary = from;
    list[0].subordinate = to;
    list[1].secondary = other_from;
    list[1].subordinate = other_to;
    lend_ports(list, 2);
    if (from <= to && other_from <= other_to && (to < other_from || other_to < from)) {
        send_request(THAWRIBBON_TYPE1_READ, 0x00, from);
        leaves_by(0, THAWRIBBON_TYPE0_READ, from);
        send_request(THAWRIBBON_TYPE1_READ, 0x00, other_to);
        leaves_by(1, other_from == other_to ? THAWRIBBON_TYPE0_READ : THAWRIBBON_TYPE1_READ, other_to);
    } else {
        is_not_routed(THAWRIBBON_BAD_DESCRIPTION, from);
    }
}

/* Every way in which two ranges can lie, up to both ends of what a bus can be. */
static void every_two_ranges(void)
{
    static const uint8_t ends[7] = {0x00, 0x01, 0x02, 0x03, 0x80, 0xFE, 0xFF};
    size_t a, b, c, d;
    fresh_switch();
    for (a = 0; a < 7; a++) {
        for (b = 0; b < 7; b++) {
            for (c = 0; c < 7; c++) {
                for (d = 0; d < 7; d++) {
                    two_ranges(ends[a], ends[b], ends[c], ends[d]);
                }
            }
        }
    }
}

/* In a list of 32 each port turned round, and every two that meet at one bus. */
static void every_place(void)
{
    size_t one, other;
    fresh_switch();
    for (one = 0; one < THAWRIBBON_PORTS; one++) {
        spread(THAWRIBBON_PORTS, 0);
        list[one].subordinate = (uint8_t)(list[one].secondary - 1);
        if (one != 0) { /* below bus 0 there is none */
            lend_ports(list, THAWRIBBON_PORTS);
            is_not_routed(THAWRIBBON_BAD_DESCRIPTION, one);
        }
        for (other = 0; other < THAWRIBBON_PORTS; other++) {
            spread(THAWRIBBON_PORTS, 0);
            list[one].secondary = list[other].subordinate;
            list[one].subordinate = list[other].subordinate;
            lend_ports(list, THAWRIBBON_PORTS);
            if (one == other) {
                send_request(THAWRIBBON_TYPE1_WRITE, 0x00, list[one].secondary);
                leaves_by(one, THAWRIBBON_TYPE0_WRITE, one);
            } else {
                is_not_routed(THAWRIBBON_BAD_DESCRIPTION, 100 * one + other);
            }
        }
    }
}

/* One port with all 256 buses has every bus. */
static void whole_range(void)
{
    static const thawribbon_port whole = {0x00, 0xFF, 1};
    unsigned bus;
    fresh_switch();
    lend_ports(&whole, 1);
    for (bus = 0; bus < 256; bus++) {
        send_request(THAWRIBBON_TYPE1_WRITE, 0x00, (uint8_t)bus);
        leaves_by(0, bus == 0 ? THAWRIBBON_TYPE0_WRITE : THAWRIBBON_TYPE1_WRITE, bus);
        send_request(THAWRIBBON_TRUSTED_WRITE, 0x00, (uint8_t)bus);
        leaves_by(0, THAWRIBBON_TRUSTED_WRITE, bus);
    }
}

void port_lists(void)
{
    group("ports, lists of 0 to 64", every_count);
    group("ports, every way in which two ranges lie", every_two_ranges);
    group("ports, a bad one at every place of 32", every_place);
    group("ports, one with every bus", whole_range);
}
