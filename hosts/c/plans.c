/* thawribbon_plan_layout: what just fits and what does not, every length, count and room, each fault at each place, and drawn structures. */
#include "first_day.h"

#include "bench_workshop.h"
#include "buffers.h"
#include "drawn.h"
#include "groups.h"

/* 960 structures of 4 bytes fill the space. One byte more, at any of them, and there is no layout. */
static void exactly_full(void)
{
    size_t place;
    lend_structures(960, 4);
    lend_offsets(962);
    is_planned(THAWRIBBON_SERVED, 0);
    expect(*offset_at(0) == 0x100 && *offset_at(1) == 0x104 && *offset_at(959) == 0xFFC, "other offsets than these", 0);
    for (place = 0; place < 960; place++) {
        lend_structures(960, 4);
        structure_at(place)->length = 5;
        is_planned(THAWRIBBON_NO_LAYOUT, place);
    }
}

/* One structure, with every number as its length: those from 4 to 3,840 fit, and no other may be laid out. */
static void every_length(void)
{
    unsigned length;
    for (length = 0; length <= UINT16_MAX; length++) {
        lend_structures(1, length);
        lend_offsets(2);
        is_planned(length >= 4 && length <= 3840 ? THAWRIBBON_SERVED : THAWRIBBON_BAD_DESCRIPTION, length);
    }
}

/* Two structures with every length of the first: the second stands at the first multiple of 4 behind it. It may have each length up to the
 * end of the space, and not a byte more. */
static void two_structures(void)
{
    unsigned first, left, less;
    for (first = 4; first <= 3840; first++) {
        left = 3840 - (first + 3) / 4 * 4;
        lend_structures(2, first);
        for (less = 0; less < 4 && left >= 4 + less; less++) {
            structure_at(1)->length = (uint16_t)(left - less);
            lend_offsets(2);
            is_planned(THAWRIBBON_SERVED, first);
            expect(*offset_at(1) == 0x1000 - left, "the second stands elsewhere", first);
        }
        structure_at(1)->length = (uint16_t)(left < 4 ? 4 : left + 1);
        lend_offsets(2);
        is_planned(THAWRIBBON_NO_LAYOUT, first);
    }
}

/* Lengths of 5 to 8 take two words each, and 4 takes one. */
static void same_words(void)
{
    static const uint16_t second[5] = {0x104, 0x108, 0x108, 0x108, 0x108};
    unsigned length;
    for (length = 4; length <= 8; length++) {
        lend_structures(3, length);
        lend_offsets(3);
        is_planned(THAWRIBBON_SERVED, length);
        expect(*offset_at(1) == second[length - 4], "the second stands elsewhere", length);
    }
}

/* No structures are refused, and so are over 960, however many words they would take. */
static void every_count(void)
{
    size_t count;
    for (count = 0; count <= MOST_LENT; count++) {
        lend_structures(count, 4);
        lend_offsets(MOST_LENT);
        is_planned(count >= 1 && count <= 960 ? THAWRIBBON_SERVED : THAWRIBBON_BAD_DESCRIPTION, count);
    }
}

/* Every length of the room, for one structure, for some and for 960; what is behind the offsets stays. */
static void every_room(void)
{
    static const size_t counts[4] = {1, 2, 17, 960};
    size_t n, length;
    for (n = 0; n < 4; n++) {
        for (length = 0; length <= MOST_LENT; length++) {
            lend_structures(counts[n], 4);
            lend_offsets(length);
            is_planned(length < counts[n] ? THAWRIBBON_NO_ROOM : THAWRIBBON_SERVED, length);
        }
    }
}

/* Every ID and every version, of the first, of one between and of the last. */
static void every_id_and_version(void)
{
    unsigned number;
    size_t place;
    for (place = 0; place < 3; place++) {
        for (number = 0; number <= UINT16_MAX; number++) {
            lend_structures(3, 8);
            lend_offsets(3);
            structure_at(place)->id = (uint16_t)number;
            is_planned(number != 0 ? THAWRIBBON_SERVED : THAWRIBBON_BAD_DESCRIPTION, number);
            lend_structures(3, 8);
            lend_offsets(3);
            structure_at(place)->version = (uint16_t)number;
            is_planned(number <= 15 ? THAWRIBBON_SERVED : THAWRIBBON_BAD_DESCRIPTION, number);
        }
    }
}

/* One bad structure at each place of 960, by its ID, its version, and its length. */
static void every_place(void)
{
    static const thawribbon_structure bad[4] = {{0, 1, 4}, {0x23, 16, 4}, {0x23, 1, 3}, {0x23, 1, 3841}};
    size_t n, place;
    for (n = 0; n < 4; n++) {
        for (place = 0; place < 960; place++) {
            lend_structures(960, 4);
            lend_offsets(960);
            *structure_at(place) = bad[n];
            is_planned(THAWRIBBON_BAD_DESCRIPTION, place);
        }
    }
}

/* Of two faults the lower number is given: 1 before 2, and 2 before 14. */
static void lowest_number(void)
{
    lend_structures(2, 3840);
    lend_offsets(1);
    is_planned(THAWRIBBON_NO_ROOM, 0);
    structure_at(1)->id = 0;
    is_planned(THAWRIBBON_BAD_DESCRIPTION, 1);
    lend_offsets(2);
    is_planned(THAWRIBBON_BAD_DESCRIPTION, 2);
    structure_at(1)->id = 1;
    is_planned(THAWRIBBON_NO_LAYOUT, 3);
}

/* Pointers that are lent with length 0 are not followed. */
static void nothing_lent(void)
{
    size_t one, other;
    for (one = 0; one < POINTERS; one++) {
        for (other = 0; other < POINTERS; other++) {
            lend_nothing(pointer_to_nothing(one), pointer_to_nothing(other));
            is_planned(THAWRIBBON_BAD_DESCRIPTION, one);
            is_checked(THAWRIBBON_BAD_DESCRIPTION, one);
            is_written(THAWRIBBON_BAD_DESCRIPTION, one);
        }
    }
}

/* Drawn structures, of which many just fit: the number is that of the words of document 02, and what is planned is accepted. */
static void drawn_structures(void)
{
    size_t n, counted[2] = {0, 0};
    for (n = 0; n < 4000; n++) {
        uint8_t number;
        lend_drawn_structures();
        lend_offsets(960);
        number = planned_again();
        is_planned(number, n);
        counted[number == THAWRIBBON_SERVED]++;
        if (number == THAWRIBBON_SERVED) {
            lend_packed();
            is_checked(THAWRIBBON_SERVED, n);
        }
    }
    expect(counted[0] > 300 && counted[1] > 300, "too few of one kind", 10000 * counted[0] + counted[1]);
}

void plans(void)
{
    group("plan, 960 structures of 4 bytes, and one byte more", exactly_full);
    group("plan, one structure of every length", every_length);
    group("plan, two structures that just fit", two_structures);
    group("plan, lengths 4 to 8", same_words);
    group("plan, 0 to 964 structures", every_count);
    group("plan, every length of the room", every_room);
    group("plan, every ID and version", every_id_and_version);
    group("plan, each fault at every place of 960", every_place);
    group("plan, the lowest number", lowest_number);
    group("plan, check and write, nothing lent by any pointer", nothing_lent);
    group("plan, 4,000 drawn lists", drawn_structures);
}
