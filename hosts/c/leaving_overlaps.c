/* thawribbon_ports_route over buffers that overlap, or only touch: at the distances where that changes. */
#include "first_day.h"

#include "groups.h"
#include "thawribbon.h"

#include <string.h>

/* What it is lent. It writes the first, which may overlap neither of the others; these it only reads. */
enum { LEAVING, PORTS, PACKET, LENT };

static const uint8_t type1_write[20] = {THAWRIBBON_TYPE1_WRITE, 0, 0x80, 1, 1, 0, 7, 0x0F, 0x05, 0x18, 0, 4, 0x11, 0x22, 0x33, 0x44};

/* All of them lie in here, at these places and as long as this. */
enum { FAR = 512 };
static union {
    uint64_t aligned;
    uint8_t bytes[(LENT + 1) * FAR];
} memory;
static uint8_t before[sizeof memory.bytes];
static size_t places[LENT], lengths[LENT];

static uint8_t *placed(size_t which)
{
    return memory.bytes + places[which];
}

static thawribbon_leaving *leaving(void)
{
    return (thawribbon_leaving *)(void *)placed(LEAVING);
}

/* Everything apart from everything else, with so many ports. */
static void far_apart(size_t count)
{
    size_t which;
    for (which = 0; which < LENT; which++) {
        places[which] = FAR * (which + 1);
    }
    lengths[LEAVING] = sizeof(thawribbon_leaving);
    lengths[PORTS] = count * sizeof(thawribbon_port);
    lengths[PACKET] = sizeof type1_write;
}

/* Routes the packet, with everything at its place; the last port has its bus. Every byte that no one sets is FFh. */
static thawribbon_verdict route(void)
{
    const size_t count = lengths[PORTS] / sizeof(thawribbon_port);
    size_t n;
    memset(memory.bytes, 0xFF, sizeof memory.bytes);
    for (n = 0; n < count; n++) {
        thawribbon_port port = {0, 0, 1};
        port.secondary = port.subordinate = (uint8_t)(0x05 + count - 1 - n);
        memcpy(placed(PORTS) + n * sizeof port, &port, sizeof port);
    }
    memcpy(placed(PACKET), type1_write, lengths[PACKET]);
    memcpy(before, memory.bytes, sizeof before);
    return thawribbon_ports_route((const thawribbon_port *)placed(PORTS), count, placed(PACKET), lengths[PACKET], leaving());
}

/* But for what leaves, everything is as it was before; that is left out by putting it into what was before. */
static void rest_is_as_before(size_t at)
{
    memcpy(before + places[LEAVING], placed(LEAVING), lengths[LEAVING]);
    expect(memcmp(memory.bytes, before, sizeof before) == 0, "something else was written", at);
}

static void leaves(size_t at)
{
    expect(route() == THAWRIBBON_LEAVES && leaving()->verdict == THAWRIBBON_LEAVES, "it does not leave", at);
    expect(leaving()->port == lengths[PORTS] / sizeof(thawribbon_port) - 1, "it leaves by another port", at);
    expect(leaving()->bytes[0] == THAWRIBBON_TYPE0_WRITE, "it leaves as another type", at);
    expect(memcmp(leaving()->bytes + 1, type1_write + 1, sizeof type1_write - 1) == 0, "something else leaves", at);
    rest_is_as_before(at);
}

/* Nothing leaves: with this verdict and number, and FFh throughout. */
static void stays(thawribbon_verdict verdict, uint8_t number, size_t at)
{
    uint8_t nothing[THAWRIBBON_LEAVING];
    memset(nothing, 0xFF, sizeof nothing);
    expect(route() == verdict && leaving()->verdict == verdict, "another verdict", at);
    expect(leaving()->number == number && leaving()->length == 0 && leaving()->port == 0, "another number, length or port", at);
    expect(memcmp(leaving()->bytes, nothing, sizeof nothing) == 0, "what leaves is not FFh", at);
    rest_is_as_before(at);
}

/* Ports or packet just before what leaves, just behind it, and at every place in between. */
static void beside(size_t which, size_t count)
{
    far_apart(count);
    places[which] = places[LEAVING] - lengths[which];
    leaves(count);
    for (places[which]++; places[which] < places[LEAVING] + lengths[LEAVING]; places[which]++) {
        stays(THAWRIBBON_NOT_ROUTED, THAWRIBBON_BAD_DESCRIPTION, places[which]);
    }
    leaves(count);
}

static void every_overlap(void)
{
    size_t count;
    for (count = 1; count <= THAWRIBBON_PORTS; count++) {
        beside(PORTS, count);
        beside(PACKET, count);
    }
}

/* Too long a list is refused with 1 wherever it lies. */
static void long_lists(void)
{
    far_apart(THAWRIBBON_PORTS + 1);
    stays(THAWRIBBON_NOT_ROUTED, THAWRIBBON_BAD_DESCRIPTION, 0);
    places[PORTS] = places[LEAVING] - 1;
    stays(THAWRIBBON_NOT_ROUTED, THAWRIBBON_BAD_DESCRIPTION, 1);
}

/* A list or a packet without a byte overlaps nothing, wherever its pointer leads. */
static void empty_ones(void)
{
    far_apart(0);
    places[PORTS] = places[LEAVING] + 1;
    stays(THAWRIBBON_NO_PORT, 0, 0);
    far_apart(1);
    lengths[PACKET] = 0;
    places[PACKET] = places[LEAVING] + 1;
    stays(THAWRIBBON_NOT_ROUTED, THAWRIBBON_SHORT_PACKET, 1);
}

/* What left a switch can go through another one, out of another struct and not into the same. */
static void through_two(void)
{
    static const thawribbon_port first = {0x04, 0x07, 1}, second = {0x05, 0x07, 1};
    thawribbon_leaving between, last;
    expect(thawribbon_ports_route(&first, 1, type1_write, 20, &between) == THAWRIBBON_LEAVES, "it does not leave the first", 0);
    expect(thawribbon_ports_route(&second, 1, between.bytes, between.length, &last) == THAWRIBBON_LEAVES, "it does not leave the second", 0);
    expect(last.bytes[0] == THAWRIBBON_TYPE0_WRITE && between.bytes[0] == THAWRIBBON_TYPE1_WRITE, "another type", 0);
    expect(thawribbon_ports_route(&second, 1, between.bytes, between.length, &between) == THAWRIBBON_NOT_ROUTED, "it overlaps, and leaves", 0);
    expect(between.number == THAWRIBBON_BAD_DESCRIPTION && between.length == 0, "another number or length", 0);
    expect(strstr(thawribbon_leaving_text(&between), "overlaps the ports or the packet") != NULL, "the text does not name the overlap", 0);
}

void leaving_overlaps(void)
{
    group("switch, ports or packet that overlap or touch what leaves", every_overlap);
    group("switch, a list that is too long in what leaves", long_lists);
    group("switch, an empty list or packet in what leaves", empty_ones);
    group("switch, one behind another", through_two);
}
