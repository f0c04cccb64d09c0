/* The inline helpers of thawribbon.h for a new board: a structure of any three numbers, and thawribbon_layout_lay, which gives what
 * thawribbon_plan_layout and thawribbon_write_layout give, one after the other. */
#include "first_day.h"

#include "bench_workshop.h"
#include "drawn.h"
#include "groups.h"

#include <string.h>

/* A space and its layout, each with a guard before and after it. */
static struct {
    uint8_t before[16];
    thawribbon_bytes space;
    uint8_t between[16];
    thawribbon_layout layout;
    uint8_t after[16];
} held;

static thawribbon_bytes space_before;
static uint16_t offsets[THAWRIBBON_EXTENDED_MAXIMUM];
static const uint8_t guards[16] = {0xA7, 0xA7, 0xA7, 0xA7, 0xA7, 0xA7, 0xA7, 0xA7, 0xA7, 0xA7, 0xA7, 0xA7, 0xA7, 0xA7, 0xA7, 0xA7};

static void hold_space(uint8_t value)
{
    memset(&held, 0xA7, sizeof held);
    memset(&held.space, value, sizeof held.space);
    space_before = held.space;
}

static void guards_hold(size_t at)
{
    expect(memcmp(held.before, guards, sizeof guards) == 0, "something was written before the space", at);
    expect(memcmp(held.between, guards, sizeof guards) == 0, "something was written between space and layout", at);
    expect(memcmp(held.after, guards, sizeof guards) == 0, "something was written after the layout", at);
}

/* The lent structures are laid out with this number: in the layout and in the space stands what the two functions give. */
static void is_laid(thawribbon_bytes *space, uint8_t number, size_t at)
{
    const size_t count = structures_count();
    memset(offsets, 0, sizeof offsets);
    if (number == THAWRIBBON_SERVED) {
        expect(thawribbon_plan_layout(structure_at(0), count, offsets, count) == THAWRIBBON_SERVED, "it is not planned", at);
        expect(thawribbon_write_layout(structure_at(0), count, offsets, count, space_before.at, THAWRIBBON_SPACE) == THAWRIBBON_SERVED,
               "it is not written", at);
    }
    expect(thawribbon_layout_lay(structure_at(0), count, space, &held.layout) == number, "another number", at);
    expect(held.layout.number == number, "another number in the layout", at);
    expect(held.layout.length == (number == THAWRIBBON_SERVED ? count : 0), "another length", at);
    expect(memcmp(held.layout.offsets, offsets, sizeof offsets) == 0, "other offsets", at);
    expect(memcmp(&held.space, &space_before, sizeof held.space) == 0, "another space", at);
    guards_hold(at);
}

static void every_count(void)
{
    size_t count;
    for (count = 0; count <= MOST_LENT; count++) {
        hold_space(0x5C);
        lend_structures(count, 4);
        is_laid(&held.space, count >= 1 && count <= 960 ? THAWRIBBON_SERVED : THAWRIBBON_BAD_DESCRIPTION, count);
    }
}

/* One structure of each length, and a second one behind it. */
static void every_length(void)
{
    unsigned length;
    for (length = 0; length <= UINT16_MAX; length++) {
        const uint8_t good = length >= 4 && length <= 3840 ? THAWRIBBON_SERVED : THAWRIBBON_BAD_DESCRIPTION;
        hold_space(0xFF);
        lend_structures(1, length);
        is_laid(&held.space, good, length);
        hold_space(0x00);
        lend_structures(2, length);
        structure_at(1)->length = 4;
        is_laid(&held.space, length > 3836 && length <= 3840 ? THAWRIBBON_NO_LAYOUT : good, length);
    }
}

/* Without a space the number is 1, also where there is no layout. */
static void no_space(void)
{
    hold_space(0x5C);
    lend_structures(2, 4);
    is_laid(NULL, THAWRIBBON_BAD_DESCRIPTION, 0);
    lend_structures(2, 3840);
    is_laid(NULL, THAWRIBBON_BAD_DESCRIPTION, 1);
    is_laid(&held.space, THAWRIBBON_NO_LAYOUT, 2);
    expect(thawribbon_layout_lay(NULL, 0, &held.space, &held.layout) == THAWRIBBON_BAD_DESCRIPTION, "no structures are laid out", 3);
}

/* What was laid out before is gone from the layout, and not from the space, where the next one is refused. */
static void refused_after_laid(void)
{
    hold_space(0x5C);
    lend_structures(960, 4);
    is_laid(&held.space, THAWRIBBON_SERVED, 0);
    structure_at(959)->length = 5;
    is_laid(&held.space, THAWRIBBON_NO_LAYOUT, 1);
    structure_at(0)->id = 0;
    is_laid(&held.space, THAWRIBBON_BAD_DESCRIPTION, 2);
    lend_structures(3, 40);
    is_laid(&held.space, THAWRIBBON_SERVED, 3);
}

/* Drawn structures: laid out, or refused, as by the words of document 02, and then the walk lists them. */
static void drawn_boards(void)
{
    static uint16_t room[THAWRIBBON_EXTENDED_MAXIMUM];
    size_t n, counted[2] = {0, 0};
    for (n = 0; n < 2000; n++) {
        uint8_t number;
        hold_space(draw());
        lend_drawn_structures();
        lend_offsets(THAWRIBBON_EXTENDED_MAXIMUM);
        number = planned_again();
        is_laid(&held.space, number, n);
        counted[number == THAWRIBBON_SERVED]++;
        if (number == THAWRIBBON_SERVED) {
            const thawribbon_walked walked = thawribbon_walk_extended(held.space.at, THAWRIBBON_SPACE, room, THAWRIBBON_EXTENDED_MAXIMUM);
            expect(walked.number == THAWRIBBON_SERVED && walked.count == held.layout.length, "the walk does not list them", n);
            expect(memcmp(room, held.layout.offsets, walked.count * sizeof *room) == 0, "the walk lists other offsets", n);
        }
    }
    expect(counted[0] > 150 && counted[1] > 150, "too few of one kind", 10000 * counted[0] + counted[1]);
}

/* A number that fits is the structure's; any other, up to the largest, gives one that is refused, and never one that is cut to a good one. */
static void structures_made(void)
{
    static const uint64_t over[7] = {0x10000, 0x10001, 0x10004, 0x1FFFF, 0x100000008, 0x8000000000000008, UINT64_MAX};
    thawribbon_structure one;
    uint16_t offset;
    uint64_t number;
    size_t n;
    for (number = 0; number <= UINT16_MAX; number++) {
        one = thawribbon_structure_of(number, UINT16_MAX - number, number);
        expect(one.id == number && one.version == UINT16_MAX - number && one.length == number, "another structure", (size_t)number);
    }
    for (n = 0; n < 7; n++) {
        one = thawribbon_structure_of(over[n], 1, 8);
        expect(thawribbon_plan_layout(&one, 1, &offset, 1) == THAWRIBBON_BAD_DESCRIPTION, "an ID was cut", n);
        one = thawribbon_structure_of(1, over[n], 8);
        expect(thawribbon_plan_layout(&one, 1, &offset, 1) == THAWRIBBON_BAD_DESCRIPTION, "a version was cut", n);
        one = thawribbon_structure_of(1, 1, over[n]);
        expect(thawribbon_plan_layout(&one, 1, &offset, 1) == THAWRIBBON_BAD_DESCRIPTION, "a length was cut", n);
    }
}

void lays(void)
{
    group("lay, 0 to 964 structures", every_count);
    group("lay, every length", every_length);
    group("lay, no space", no_space);
    group("lay, refused after laid", refused_after_laid);
    group("lay, 2,000 drawn boards", drawn_boards);
    group("helpers, a structure of any numbers", structures_made);
}
