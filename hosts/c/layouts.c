/* thawribbon_check_layout and thawribbon_write_layout: what is accepted and what is not, and what is written then. */
#include "first_day.h"

#include "bench_workshop.h"
#include "drawn.h"
#include "groups.h"

#include <string.h>

/* Checked and written with this number. */
static void is_taken(uint8_t number, size_t at)
{
    is_checked(number, at);
    is_written(number, at);
}

/* Two structures of 22 and 8 bytes, packed, and a whole space. */
static void lend_two(void)
{
    lend_structures(2, 22);
    structure_at(1)->length = 8;
    lend_packed();
    lend_space(0xEE, THAWRIBBON_SPACE);
}

/* Every number as the first offset, and as the second: the first is 100h, and the second a multiple of 4 from 118h to FF8h. */
static void every_offset(void)
{
    unsigned number;
    for (number = 0; number <= UINT16_MAX; number++) {
        lend_two();
        *offset_at(0) = (uint16_t)number;
        *offset_at(1) = 0xFF8;
        is_taken(number == 0x100 ? THAWRIBBON_SERVED : THAWRIBBON_NOT_ACCEPTED, number);
        lend_two();
        *offset_at(1) = (uint16_t)number;
        is_taken(number % 4 == 0 && number >= 0x118 && number <= 0xFF8 ? THAWRIBBON_SERVED : THAWRIBBON_NOT_ACCEPTED, number);
    }
}

/* A layout of another count than the structures is not accepted, also where each of its offsets would be. */
static void every_count(void)
{
    size_t count, n;
    for (count = 0; count <= MOST_LENT; count++) {
        lend_structures(17, 4);
        lend_offsets(count);
        lend_space(0x5C, THAWRIBBON_SPACE);
        for (n = 0; n < count; n++) {
            *offset_at(n) = (uint16_t)(0x100 + 4 * n);
        }
        is_taken(count == 17 ? THAWRIBBON_SERVED : THAWRIBBON_NOT_ACCEPTED, count);
    }
}

/* 960 structures of 4 bytes have one layout. Any of its offsets changed by a little, or two of them swapped or made equal, and it is none. */
static void one_layout(void)
{
    size_t place, n;
    for (place = 0; place < 960; place++) {
        lend_structures(960, 4);
        lend_space(0x5C, THAWRIBBON_SPACE);
        for (n = 0; n < 17; n++) {
            lend_packed();
            *offset_at(place) = (uint16_t)(*offset_at(place) + n - 8);
            is_taken(n == 8 ? THAWRIBBON_SERVED : THAWRIBBON_NOT_ACCEPTED, place);
        }
        lend_packed();
        *offset_at(place) = *offset_at((place + 1) % 960);
        is_taken(THAWRIBBON_NOT_ACCEPTED, place);
        *offset_at((place + 1) % 960) = (uint16_t)(0x100 + 4 * place);
        is_taken(THAWRIBBON_NOT_ACCEPTED, place);
    }
}

/* A structure that reaches over the next one is seen, and so is one in the middle of another, though both begin in order. */
static void overlaps_by_length(void)
{
    unsigned length;
    for (length = 4; length <= 3840; length++) {
        lend_structures(3, 4);
        lend_packed();
        lend_space(0x00, THAWRIBBON_SPACE);
        structure_at(0)->length = (uint16_t)length;
        *offset_at(1) = 0x500;
        *offset_at(2) = 0x600;
        is_taken(length <= 0x400 ? THAWRIBBON_SERVED : THAWRIBBON_NOT_ACCEPTED, length);
        structure_at(0)->length = 4;
        structure_at(1)->length = (uint16_t)length;
        is_taken(length <= 0x100 ? THAWRIBBON_SERVED : THAWRIBBON_NOT_ACCEPTED, length);
        structure_at(1)->length = 4;
        structure_at(2)->length = (uint16_t)length;
        is_taken(length <= 0xA00 ? THAWRIBBON_SERVED : THAWRIBBON_NOT_ACCEPTED, length);
    }
}

/* Bad structures are refused with 1, whatever the layout; so is another space, before a layout that is not accepted. */
static void bad_before_not_accepted(void)
{
    static const thawribbon_structure bad[4] = {{0, 1, 8}, {0x23, 16, 8}, {0x23, 1, 3}, {0x23, 1, 3841}};
    size_t n;
    for (n = 0; n < 8; n++) {
        lend_two();
        *structure_at(n % 2) = bad[n / 2];
        is_taken(THAWRIBBON_BAD_DESCRIPTION, n);
        lend_offsets(n);
        is_taken(THAWRIBBON_BAD_DESCRIPTION, n);
    }
    lend_two();
    lend_space(0x5C, THAWRIBBON_SPACE - 1);
    *offset_at(1) = 0x114;
    is_checked(THAWRIBBON_NOT_ACCEPTED, 0);
    is_written(THAWRIBBON_BAD_DESCRIPTION, 0);
}

/* Every length of the space that is tried. */
static void every_space(void)
{
    size_t length;
    for (length = 0; length <= 4100; length++) {
        lend_two();
        lend_space(0x5C, length);
        is_written(length == THAWRIBBON_SPACE ? THAWRIBBON_SERVED : THAWRIBBON_BAD_DESCRIPTION, length);
    }
}

/* The lent space has these structures as its extended list: offsets in order, and the ID and version of each. */
static void lists_them(size_t at)
{
    static uint16_t room[THAWRIBBON_EXTENDED_MAXIMUM];
    const thawribbon_walked walked = thawribbon_walk_extended(space_at(0), THAWRIBBON_SPACE, room, THAWRIBBON_EXTENDED_MAXIMUM);
    size_t n;
    expect(walked.number == THAWRIBBON_SERVED && walked.count == structures_count(), "the walk does not list them", at);
    for (n = 0; n < structures_count(); n++) {
        const thawribbon_header header = thawribbon_header_extended(space_at(0), THAWRIBBON_SPACE, room[n]);
        expect(header.offset == *offset_at(n), "the walk lists another offset", at);
        expect(header.id == structure_at(n)->id && header.version == structure_at(n)->version, "another ID or version", at);
    }
}

/* A space in which the extended list goes in a circle, and in which the compatible list has two headers. */
static void lend_used_space(uint8_t value)
{
    lend_space(value, THAWRIBBON_SPACE);
    memcpy(space_at(0x100), "\x23\x00\x01\x10", 4);
    *space_at(0x06) = 0x10;
    *space_at(0x34) = 0x40;
    memcpy(space_at(0x40), "\x09\x80", 2);
    memcpy(space_at(0x80), "\x10\x00", 2);
}

/* Whatever the space held, the walk lists what was written, and the compatible list is as it was. */
static void is_listed(void)
{
    static const size_t counts[6] = {1, 2, 3, 16, 959, 960};
    uint16_t room[THAWRIBBON_COMPATIBLE_MAXIMUM];
    size_t n, place;
    unsigned value;
    for (n = 0; n < 6; n++) {
        for (value = 0; value < 256; value++) {
            thawribbon_walked walked;
            lend_structures(counts[n], 4);
            for (place = 0; place < counts[n]; place++) {
                *structure_at(place) = thawribbon_structure_of(1 + 67 * place % 0xFFFF, place % 16, 4);
            }
            lend_packed();
            lend_used_space((uint8_t)value);
            is_written(THAWRIBBON_SERVED, counts[n]);
            lists_them(counts[n]);
            walked = thawribbon_walk_compatible(space_at(0), THAWRIBBON_SPACE, room, THAWRIBBON_COMPATIBLE_MAXIMUM);
            expect(walked.number == 0 && walked.count == 2 && room[0] == 0x40 && room[1] == 0x80, "another compatible list", value);
        }
    }
}

/* Every ID and version in the header of the last, which points to nothing, and of the one before, which points to it. */
static void every_header(void)
{
    unsigned id;
    size_t place;
    for (id = 1; id <= UINT16_MAX; id++) {
        for (place = 0; place < 2; place++) {
            lend_two();
            structure_at(place)->id = (uint16_t)id;
            structure_at(place)->version = (uint16_t)(id % 16);
            *offset_at(1) = (uint16_t)(0x118 + id % 952 * 4);
            lend_space((uint8_t)(id % 256), THAWRIBBON_SPACE);
            is_written(THAWRIBBON_SERVED, id);
            lists_them(id);
        }
    }
}

/* Drawn layouts, often with one offset that is a little off: accepted, and written, exactly by the words of document 02. */
static void drawn_layouts(void)
{
    size_t n, counted[2] = {0, 0};
    for (n = 0; n < 4000; n++) {
        uint8_t number;
        size_t place;
        lend_drawn_structures();
        lend_offsets(960);
        if (planned_again() != THAWRIBBON_SERVED) {
            continue;
        }
        lend_packed();
        lend_space(draw(), THAWRIBBON_SPACE);
        place = (draw() * 256U + draw()) % structures_count();
        *offset_at(place) = (uint16_t)(*offset_at(place) + (draw() % 2 == 0 ? 0 : draw() % 32U) - (draw() % 4 == 0 ? 4U : 0U));
        number = checked_again();
        is_taken(number, n);
        counted[number == THAWRIBBON_SERVED]++;
        if (number == THAWRIBBON_SERVED) {
            lists_them(n);
        }
    }
    expect(counted[0] > 200 && counted[1] > 200, "too few of one kind", 10000 * counted[0] + counted[1]);
}

void layouts(void)
{
    group("check and write, every number as an offset", every_offset);
    group("check and write, a layout of every count", every_count);
    group("check and write, the one layout of 960 structures", one_layout);
    group("check and write, structures that reach over each other", overlaps_by_length);
    group("check and write, bad structures before all", bad_before_not_accepted);
    group("write, every length of the space", every_space);
    group("write, the walk lists what was written", is_listed);
    group("write, every ID", every_header);
    group("check and write, 4,000 drawn layouts", drawn_layouts);
}
