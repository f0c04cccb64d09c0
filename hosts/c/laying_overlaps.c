/* thawribbon_layout_lay with structures, space and layout in each other, or right beside: at the distances where that changes. */
#include "first_day.h"

#include "groups.h"
#include "thawribbon.h"

#include <stdlib.h>
#include <string.h>

/* Three places of one memory: FIRST and SECOND have room for the longest before and after them. */
enum { MEMORY = 24576, FIRST = 4608, SECOND = 16384, COUNT = 4, STRUCTURES = COUNT * sizeof(thawribbon_structure) };

static uint8_t *memory, expected[MEMORY];

static int meet(size_t one, size_t one_length, size_t other, size_t other_length)
{
    return one < other + other_length && other < one + one_length;
}

/* The headers of the four structures of 8 bytes. */
static void should_have_headers(size_t space)
{
    size_t n;
    for (n = 0; n < COUNT; n++) {
        const unsigned next = n + 1 < COUNT ? (unsigned)(0x108 + 8 * n) : 0;
        const uint8_t header[4] = {0x23, 0x00, (uint8_t)(1 + next % 16 * 16), (uint8_t)(next / 16)};
        memcpy(expected + space + 0x100 + 8 * n, header, sizeof header);
    }
}

/* The members of the layout at this place; what is between them and behind them may be anything. */
static void should_have_layout(size_t place, size_t length, uint8_t number)
{
    uint16_t offsets[THAWRIBBON_EXTENDED_MAXIMUM];
    size_t n;
    for (n = 0; n < THAWRIBBON_EXTENDED_MAXIMUM; n++) {
        offsets[n] = (uint16_t)(n < length ? 0x100 + 8 * n : 0);
    }
    memcpy(expected + place, memory + place, sizeof(thawribbon_layout));
    memcpy(expected + place + offsetof(thawribbon_layout, length), &length, sizeof length);
    memcpy(expected + place + offsetof(thawribbon_layout, number), &number, sizeof number);
    memcpy(expected + place + offsetof(thawribbon_layout, offsets), offsets, sizeof offsets);
}

/* Four structures are laid out, with all three at these places of the memory. */
static void lays_at(size_t structures, size_t space, size_t layout)
{
    const int overlaps = meet(structures, STRUCTURES, space, THAWRIBBON_SPACE) || meet(space, THAWRIBBON_SPACE, layout, sizeof(thawribbon_layout)) ||
                         meet(structures, STRUCTURES, layout, sizeof(thawribbon_layout));
    const uint8_t number = overlaps ? THAWRIBBON_BAD_DESCRIPTION : THAWRIBBON_SERVED;
    thawribbon_structure four[COUNT];
    size_t n;
    for (n = 0; n < COUNT; n++) {
        four[n] = thawribbon_structure_of(0x0023, 1, 8);
    }
    memset(memory, 0x5C, MEMORY);
    memcpy(memory + structures, four, sizeof four);
    memcpy(expected, memory, MEMORY);
    expect(thawribbon_layout_lay((const thawribbon_structure *)(memory + structures), COUNT, (thawribbon_bytes *)(memory + space),
                                 (thawribbon_layout *)(memory + layout)) == number,
           "another number", structures);
    if (!overlaps) {
        should_have_headers(space);
    }
    should_have_layout(layout, overlaps ? 0 : COUNT, number);
    expect(memcmp(memory, expected, MEMORY) == 0, "something else is written", structures);
}

/* From before FIRST to behind it, in steps that keep what is moved at a place where it may stand. */
static size_t moved(size_t n, size_t step, size_t length)
{
    return FIRST - (length + 16) / step * step + n * step;
}

static void around_space(void)
{
    const size_t structures = STRUCTURES, layout = sizeof(thawribbon_layout);
    size_t n;
    for (n = 0; moved(n, 2, structures) < FIRST + THAWRIBBON_SPACE + 16; n++) {
        lays_at(moved(n, 2, structures), FIRST, SECOND);
    }
    for (n = 0; moved(n, 8, layout) < FIRST + THAWRIBBON_SPACE + 16; n++) {
        lays_at(SECOND, FIRST, moved(n, 8, layout));
    }
}

static void around_layout(void)
{
    const size_t structures = STRUCTURES, layout = sizeof(thawribbon_layout);
    size_t n;
    for (n = 0; moved(n, 2, structures) < FIRST + layout + 16; n++) {
        lays_at(moved(n, 2, structures), SECOND, FIRST);
    }
    for (n = 0; moved(n, 1, THAWRIBBON_SPACE) < FIRST + layout + 16; n++) {
        lays_at(SECOND, moved(n, 1, THAWRIBBON_SPACE), FIRST);
    }
}

static void around_structures(void)
{
    const size_t structures = STRUCTURES;
    size_t n;
    for (n = 0; moved(n, 1, THAWRIBBON_SPACE) < FIRST + structures + 16; n++) {
        lays_at(FIRST, moved(n, 1, THAWRIBBON_SPACE), SECOND);
    }
}

/* Runs a group with the memory, which has no type of its own. */
static void with_memory(const char *name, void (*checks)(void))
{
    memory = malloc(MEMORY);
    if (memory != NULL) {
        group(name, checks);
        free(memory);
    }
}

void laying_overlaps(void)
{
    with_memory("lay, structures or the layout in the space or beside it", around_space);
    with_memory("lay, structures or the space in the layout or beside it", around_layout);
    with_memory("lay, the space around the structures or beside them", around_structures);
}
