/* The three lists through thawribbon_walk_..: P12, the longest chains, what breaks and where, null capabilities, every length of space and room;
   and headers. */
#include "first_day.h"

#include "buffers.h"
#include "groups.h"
#include "thawribbon.h"

#include <string.h>

enum { LISTS = 3 };

typedef struct list {
    thawribbon_walked (*walk)(const uint8_t *, size_t, uint16_t *, size_t);
    thawribbon_header (*header)(const uint8_t *, size_t, size_t);
    size_t maximum;
    uint16_t floor, end;
} list;

static const list lists[LISTS] = {
    {thawribbon_walk_compatible, thawribbon_header_compatible, THAWRIBBON_COMPATIBLE_MAXIMUM, 0x040, 0x100},
    {thawribbon_walk_extended, thawribbon_header_extended, THAWRIBBON_EXTENDED_MAXIMUM, 0x100, 0x1000},
    {thawribbon_walk_trusted, thawribbon_header_trusted, THAWRIBBON_TRUSTED_MAXIMUM, 0x008, 0x1000},
};

static buffer space;
static uint16_t room[MOST + 2], expected_room[MOST + 2];

/* A header with an ID and a pointer: a byte in the compatible list, bits 31:20 in the others. */
static void put_header(size_t which, uint16_t at, uint16_t next)
{
    const uint8_t narrow[2] = {0x09, (uint8_t)next};
    const uint8_t wide[4] = {0x23, 0x00, (uint8_t)(0x01 | (next & 0x0F) << 4), (uint8_t)(next >> 4)};
    if (which == 0) {
        put(&space, at, narrow, 2);
    } else {
        put(&space, at, wide, 4);
    }
}

/* A space whose list has `count` headers from its floor on, each the next word; the last points to `last`. */
static void chain(size_t which, size_t count, uint16_t last)
{
    const uint8_t has_list = 0x10, start = (uint8_t)lists[which].floor;
    size_t n;
    fill(&space, 0x00, THAWRIBBON_SPACE);
    if (which == 0) {
        put(&space, 0x06, &has_list, 1);
        put(&space, 0x34, &start, 1);
    } else if (which == 2) {
        put(&space, 0x004, &start, 1);
    }
    for (n = 0; n < count; n++) {
        uint16_t at = (uint16_t)(lists[which].floor + 4 * n);
        put_header(which, at, n + 1 < count ? (uint16_t)(at + 4) : last);
    }
}

/* A walk answers this number and this place, and lists `count` offsets. The room is lent from room + 1 on. */
static void walk_tells(size_t which, size_t room_length, uint8_t number, uint16_t place, const uint16_t *offsets, size_t count, size_t at)
{
    thawribbon_walked walked;
    size_t n;
    for (n = 0; n < MOST + 2; n++) {
        room[n] = n == 0 || n == room_length + 1 ? 0xA7A7 : 0xEEEE;
        expected_room[n] = room[n];
    }
    for (n = 0; n < count; n++) {
        expected_room[1 + n] = offsets[n];
    }
    remember(&space);
    walked = lists[which].walk(lent(&space), space.length, room + 1, room_length);
    expect(walked.number == number, "another number", at);
    expect(walked.place == place, "another place", at);
    expect(walked.count == count, "another count", at);
    expect(memcmp(room, expected_room, sizeof room) == 0, "the room is not as it should be", at);
    expect(is_as_expected(&space), "the space has changed", at);
}

/* The same of a walk that has no place to tell. */
static void walk_lists(size_t which, size_t room_length, uint8_t number, const uint16_t *offsets, size_t count, size_t at)
{
    walk_tells(which, room_length, number, 0, offsets, count, at);
}

/* The same of a list that is broken, in a room of its maximum. */
static void walk_breaks(size_t which, uint8_t number, uint16_t place, size_t at)
{
    walk_tells(which, lists[which].maximum, number, place, NULL, 0, at);
}

/* The same of offsets from the floor on, each the next word. */
static void walk_gives(size_t which, size_t room_length, uint8_t number, size_t count, size_t at)
{
    static uint16_t offsets[MOST];
    size_t n;
    for (n = 0; n < count; n++) {
        offsets[n] = (uint16_t)(lists[which].floor + 4 * n);
    }
    walk_lists(which, room_length, number, offsets, count, at);
}

static void p12(void)
{
    chain(1, 1, 0x100);
    walk_breaks(1, THAWRIBBON_COMES_BACK, 0x100, 0);
}

static void walk_space_lengths(void)
{
    size_t which, n;
    for (which = 0; which < LISTS; which++) {
        for (n = 0; n < LENGTHS; n++) {
            size_t length = tried_length(n);
            int whole = length == THAWRIBBON_SPACE;
            chain(which, 2, 0);
            resize(&space, length);
            walk_gives(which, lists[which].maximum, whole ? THAWRIBBON_SERVED : THAWRIBBON_BAD_DESCRIPTION, whole ? 2 : 0, length);
            walk_gives(which, 0, whole ? THAWRIBBON_NO_ROOM : THAWRIBBON_BAD_DESCRIPTION, 0, length);
        }
    }
}

static void walk_room_lengths(void)
{
    size_t which, n;
    for (which = 0; which < LISTS; which++) {
        for (n = 0; n < LENGTHS; n++) {
            size_t length = tried_length(n);
            int enough = length >= lists[which].maximum;
            chain(which, 2, 0);
            walk_gives(which, length, enough ? THAWRIBBON_SERVED : THAWRIBBON_NO_ROOM, enough ? 2 : 0, length);
            chain(which, 2, lists[which].floor);
            walk_tells(which, length, enough ? THAWRIBBON_COMES_BACK : THAWRIBBON_NO_ROOM,
                       enough ? (uint16_t)(lists[which].floor + 4) : 0, NULL, 0, length);
        }
    }
}

/* Each list's longest chain, in a room of exactly the maximum, of one more and of one less; and led back to its start, to itself, to its
   middle and below its floor. */
static void walk_maximum(void)
{
    size_t which, n;
    for (which = 0; which < LISTS; which++) {
        size_t maximum = lists[which].maximum;
        chain(which, maximum, 0);
        expect(lists[which].floor + 4 * maximum == lists[which].end, "the longest chain does not reach the end", which);
        walk_gives(which, maximum, THAWRIBBON_SERVED, maximum, which);
        walk_gives(which, maximum + 1, THAWRIBBON_SERVED, maximum, which);
        walk_gives(which, maximum - 1, THAWRIBBON_NO_ROOM, 0, which);
        for (n = 0; n < 4; n++) {
            const uint16_t last = (uint16_t)(lists[which].end - 4);
            const uint16_t to[4] = {lists[which].floor, last, (uint16_t)(last / 2 & ~3), (uint16_t)(lists[which].floor - 4)};
            chain(which, maximum, to[n]);
            walk_breaks(which, n < 3 ? THAWRIBBON_COMES_BACK : THAWRIBBON_BELOW_FLOOR, last, n);
            walk_gives(which, maximum - 1, THAWRIBBON_NO_ROOM, 0, which);
        }
    }
}

/* Chains of one to fifty headers, whose last one points to each of them, or below the floor: the place is that of the last. */
static void walk_broken(void)
{
    size_t which, count, n;
    for (which = 0; which < LISTS; which++) {
        uint16_t lowest = lists[which].floor;
        for (count = 1; count <= 50 && count <= lists[which].maximum; count++) {
            const uint16_t last = (uint16_t)(lowest + 4 * (count - 1));
            for (n = 0; n < count; n++) {
                chain(which, count, (uint16_t)(lowest + 4 * n));
                walk_breaks(which, THAWRIBBON_COMES_BACK, last, count);
            }
            for (n = 1; n < lowest; n++) {
                chain(which, count, (uint16_t)n);
                if (n < 4) {
                    walk_gives(which, lists[which].maximum, THAWRIBBON_SERVED, count, count);
                } else {
                    walk_breaks(which, THAWRIBBON_BELOW_FLOOR, last, count);
                }
            }
        }
    }
}

/* A start below the floor is place 0, whatever stands behind it: of every such start of the two lists that can have one. */
static void walk_start_below(void)
{
    size_t which, n;
    for (which = 0; which < LISTS; which += 2) {
        for (n = 0; n < lists[which].floor; n++) {
            const uint8_t start = (uint8_t)n;
            chain(which, 1, lists[which].floor);
            put(&space, which == 0 ? 0x34 : 0x004, &start, 1);
            if (n < 4) {
                walk_gives(which, lists[which].maximum, THAWRIBBON_SERVED, 0, n);
            } else {
                walk_breaks(which, THAWRIBBON_BELOW_FLOOR, 0, n);
            }
        }
    }
}

/* Only what the walk comes to is told: a fault that nothing leads to is none, and none is told after the first. */
static void walk_first_fault(void)
{
    size_t which;
    for (which = 0; which < LISTS; which++) {
        uint16_t lowest = lists[which].floor;
        chain(which, 2, lowest);
        put_header(which, (uint16_t)(lowest + 8), (uint16_t)(lowest - 4));
        walk_breaks(which, THAWRIBBON_COMES_BACK, (uint16_t)(lowest + 4), which);
        chain(which, 2, (uint16_t)(lowest - 4));
        put_header(which, (uint16_t)(lowest + 8), (uint16_t)(lowest + 8));
        walk_breaks(which, THAWRIBBON_BELOW_FLOOR, (uint16_t)(lowest + 4), which);
        chain(which, 2, 0);
        put_header(which, (uint16_t)(lowest + 8), (uint16_t)(lowest - 4));
        put_header(which, (uint16_t)(lowest + 12), (uint16_t)(lowest + 12));
        walk_gives(which, lists[which].maximum, THAWRIBBON_SERVED, 2, which);
    }
}

static void walk_empty(void)
{
    size_t which;
    for (which = 0; which < LISTS; which++) {
        fill(&space, 0x00, THAWRIBBON_SPACE);
        walk_gives(which, lists[which].maximum, THAWRIBBON_SERVED, 0, which);
    }
}

/* Only a zero word at 100h is an empty list: each bit alone, and null capabilities there and further on. */
static void walk_null(void)
{
    const uint8_t none[4] = {0};
    unsigned bit;
    for (bit = 0; bit < 32; bit++) {
        const uint8_t byte = (uint8_t)(1u << bit % 8);
        const uint16_t next = (uint16_t)(((uint32_t)1 << bit) >> 20 & 0xFFC), offsets[2] = {0x100, next};
        fill(&space, 0x00, THAWRIBBON_SPACE);
        put(&space, 0x100 + bit / 8, &byte, 1);
        if (next != 0 && next <= 0x100) {
            walk_breaks(1, next < 0x100 ? THAWRIBBON_BELOW_FLOOR : THAWRIBBON_COMES_BACK, 0x100, bit);
        } else {
            walk_lists(1, THAWRIBBON_EXTENDED_MAXIMUM, THAWRIBBON_SERVED, offsets, next == 0 ? 1 : 2, bit);
        }
    }
    chain(1, 3, 0);
    put(&space, 0x100, none, 2);
    walk_gives(1, THAWRIBBON_EXTENDED_MAXIMUM, THAWRIBBON_SERVED, 3, 0);
    put(&space, 0x104, none, 2);
    walk_gives(1, THAWRIBBON_EXTENDED_MAXIMUM, THAWRIBBON_SERVED, 3, 0);
    put(&space, 0x100, none, 4);
    walk_gives(1, THAWRIBBON_EXTENDED_MAXIMUM, THAWRIBBON_SERVED, 0, 0);
}

/* No space, no room, and neither, with pointers that cannot be followed. */
static void walk_nothing(void)
{
    size_t which, n;
    for (which = 0; which < LISTS; which++) {
        for (n = 0; n < POINTERS; n++) {
            uint8_t *nothing = pointer_to_nothing(n);
            uint16_t *no_room = n == 0 ? NULL : (uint16_t *)(n == 1 ? (uintptr_t)2 : UINTPTR_MAX - 1);
            thawribbon_walked walked;
            chain(which, 2, 0);
            lend_instead(&space, nothing);
            walk_gives(which, lists[which].maximum, THAWRIBBON_BAD_DESCRIPTION, 0, which);
            walked = lists[which].walk(nothing, 0, no_room, 0);
            expect(walked.number == THAWRIBBON_BAD_DESCRIPTION && walked.count == 0 && walked.place == 0, "another answer without both", which);
            chain(which, 2, 0);
            remember(&space);
            walked = lists[which].walk(lent(&space), space.length, no_room, 0);
            expect(walked.number == THAWRIBBON_NO_ROOM && walked.count == 0 && walked.place == 0, "another answer without room", which);
            expect(is_as_expected(&space), "the space has changed", which);
        }
    }
}

static void header_is(size_t which, size_t at, unsigned offset, unsigned id, unsigned version)
{
    const thawribbon_header header = lists[which].header(lent(&space), space.length, at);
    expect(header.offset == offset && header.id == id && header.version == version, "another header", at);
    expect(is_as_expected(&space), "the space has changed", at);
}

/* The header at every offset of a space whose bytes differ, and nothing past it: also far past it. */
static void walk_headers(void)
{
    size_t which, at, bit;
    fill(&space, 0x00, THAWRIBBON_SPACE);
    for (at = 0; at < THAWRIBBON_SPACE; at++) {
        lent(&space)[at] = (uint8_t)(at * 7 + at / 256);
    }
    remember(&space);
    for (which = 0; which < LISTS; which++) {
        for (at = 0; at <= 0xFFC; at++) {
            const uint8_t *word = lent(&space) + at;
            header_is(which, at, (unsigned)at, which == 0 ? word[0] : word[0] + 256U * word[1], which == 0 ? 0 : word[2] % 16U);
        }
        for (at = 0xFFD; at <= 0x1004; at++) {
            header_is(which, at, 0, 0, 0);
        }
        for (bit = 12; bit < 64; bit++) {
            header_is(which, ((size_t)1 << bit) + 0x100, 0, 0, 0);
        }
        header_is(which, SIZE_MAX, 0, 0, 0);
    }
}

/* No header of a space of another length. */
static void walk_header_lengths(void)
{
    size_t which, n;
    for (which = 0; which < LISTS; which++) {
        for (n = 0; n < LENGTHS; n++) {
            size_t length = tried_length(n);
            int whole = length == THAWRIBBON_SPACE;
            fill(&space, 0x23, length);
            remember(&space);
            header_is(which, 0x100, whole ? 0x100 : 0, whole ? (which == 0 ? 0x23 : 0x2323) : 0, whole && which != 0 ? 3 : 0);
        }
        lend_instead(&space, NULL);
        remember(&space);
        header_is(which, 0x000, 0, 0, 0);
    }
}

void walks(void)
{
    group("P12", p12);
    group("walks, spaces of every length", walk_space_lengths);
    group("walks, rooms of every length", walk_room_lengths);
    group("walks, the longest chains", walk_maximum);
    group("walks, broken chains", walk_broken);
    group("walks, a start below the floor", walk_start_below);
    group("walks, the first fault", walk_first_fault);
    group("walks, empty lists", walk_empty);
    group("walks, null capabilities", walk_null);
    group("walks, NULL and other pointers with length 0", walk_nothing);
    group("headers, at every offset", walk_headers);
    group("headers, spaces of every length", walk_header_lengths);
}
