#include "bench_workshop.h"

#include "buffers.h"
#include "drawn.h"
#include "groups.h"

#include <string.h>

/* What is lent goes from the second place on. */
static thawribbon_structure structures[MOST_LENT + 2], structures_before[MOST_LENT + 2];
static uint16_t offsets[MOST_LENT + 2], offsets_before[MOST_LENT + 2];
static size_t structures_length, offsets_length;
static buffer space;

/* Pointers that are lent with length 0 instead. */
static const thawribbon_structure *structures_lent;
static uint16_t *offsets_lent;

void lend_structures(size_t count, unsigned length)
{
    size_t n;
    memset(structures, 0xA7, sizeof structures);
    for (n = 0; n < count; n++) {
        structures[1 + n] = thawribbon_structure_of(0x0023, 1, length);
    }
    structures_length = count;
    structures_lent = structures + 1;
}

size_t structures_count(void)
{
    return structures_length;
}

thawribbon_structure *structure_at(size_t place)
{
    return &structures[1 + place];
}

void lend_offsets(size_t count)
{
    memset(offsets, 0xA7, sizeof offsets);
    memset(offsets + 1, 0xFF, count * sizeof *offsets);
    offsets_length = count;
    offsets_lent = offsets + 1;
}

uint16_t *offset_at(size_t place)
{
    return &offsets[1 + place];
}

/* The first multiple of 4 at this number or behind it. */
static unsigned first_behind(unsigned end)
{
    while (end % 4 != 0) {
        end++;
    }
    return end;
}

void lend_packed(void)
{
    unsigned end = 0x100;
    size_t n;
    lend_offsets(structures_length);
    for (n = 0; n < structures_length; n++) {
        *offset_at(n) = (uint16_t)first_behind(end);
        end = *offset_at(n) + (unsigned)structure_at(n)->length;
    }
}

void lend_space(uint8_t value, size_t length)
{
    fill(&space, value, length);
}

uint8_t *space_at(size_t place)
{
    return lent(&space) + place;
}

void lend_nothing(const void *one, void *other)
{
    lend_structures(0, 0);
    lend_offsets(0);
    structures_lent = one;
    offsets_lent = other;
}

static void before_a_call(void)
{
    memcpy(structures_before, structures, sizeof structures);
    memcpy(offsets_before, offsets, sizeof offsets);
    remember(&space);
}

static void after_a_call(size_t at)
{
    expect(memcmp(structures, structures_before, sizeof structures) == 0, "the structures have changed", at);
    expect(memcmp(offsets, offsets_before, sizeof offsets) == 0, "other offsets", at);
    expect(is_as_expected(&space), "another space", at);
}

void is_planned(uint8_t number, size_t at)
{
    unsigned end = 0x100;
    size_t n;
    before_a_call();
    expect(thawribbon_plan_layout(structures_lent, structures_length, offsets_lent, offsets_length) == number, "another number", at);
    for (n = 0; number == THAWRIBBON_SERVED && n < structures_length; n++) {
        offsets_before[1 + n] = (uint16_t)first_behind(end);
        end = first_behind(end) + structure_at(n)->length;
    }
    after_a_call(at);
}

void is_checked(uint8_t number, size_t at)
{
    before_a_call();
    expect(thawribbon_check_layout(structures_lent, structures_length, offsets_lent, offsets_length) == number, "another number", at);
    after_a_call(at);
}

void is_written(uint8_t number, size_t at)
{
    size_t n;
    before_a_call();
    expect(thawribbon_write_layout(structures_lent, structures_length, offsets_lent, offsets_length, lent(&space), space.length) == number,
           "another number", at);
    for (n = 0; number == THAWRIBBON_SERVED && n < structures_length; n++) {
        const thawribbon_structure one = *structure_at(n);
        const unsigned next = n + 1 < structures_length ? *offset_at(n + 1) : 0U;
        const uint8_t header[4] = {(uint8_t)(one.id % 256), (uint8_t)(one.id / 256), (uint8_t)(one.version + next % 16 * 16),
                                   (uint8_t)(next / 16)};
        should_hold(&space, *offset_at(n), header, sizeof header);
    }
    after_a_call(at);
}

static int are_good(void)
{
    size_t n;
    for (n = 0; n < structures_length && n < MOST_LENT; n++) {
        const thawribbon_structure one = *structure_at(n);
        if (one.id == 0 || one.version > 15 || one.length < 4 || one.length > 3840) {
            return 0;
        }
    }
    return structures_length >= 1 && structures_length <= 960;
}

uint8_t planned_again(void)
{
    unsigned needed = 0;
    size_t n;
    if (!are_good()) {
        return THAWRIBBON_BAD_DESCRIPTION;
    }
    if (offsets_length < structures_length) {
        return THAWRIBBON_NO_ROOM;
    }
    for (n = 0; n + 1 < structures_length; n++) {
        needed += first_behind(structure_at(n)->length);
    }
    needed += structure_at(structures_length - 1)->length;
    return needed > 3840 ? THAWRIBBON_NO_LAYOUT : THAWRIBBON_SERVED;
}

/* Whether two structures stand in the given order, and no byte is in both. */
static int stand_apart(size_t one, size_t other)
{
    const unsigned begins = *offset_at(other), ends = *offset_at(one) + (unsigned)structure_at(one)->length;
    return *offset_at(one) < begins && ends <= begins;
}

uint8_t checked_again(void)
{
    size_t one, other;
    if (!are_good()) {
        return THAWRIBBON_BAD_DESCRIPTION;
    }
    if (offsets_length != structures_length || *offset_at(0) != 0x100) {
        return THAWRIBBON_NOT_ACCEPTED;
    }
    for (one = 0; one < offsets_length; one++) {
        if (*offset_at(one) % 4 != 0 || *offset_at(one) + structure_at(one)->length > 0x1000) {
            return THAWRIBBON_NOT_ACCEPTED;
        }
        for (other = one + 1; other < offsets_length; other++) {
            if (!stand_apart(one, other)) {
                return THAWRIBBON_NOT_ACCEPTED;
            }
        }
    }
    return THAWRIBBON_SERVED;
}

void lend_drawn_structures(void)
{
    const size_t count = draw() % 4 == 0 ? 900U + draw() % 62U : 1U + draw() % 40U;
    const unsigned most = (unsigned)(3840 / count + 4);
    size_t n;
    lend_structures(count, 4);
    for (n = 0; n < count; n++) {
        const unsigned length = 4 + (draw() * 256U + draw()) % most;
        *structure_at(n) = thawribbon_structure_of(1U + draw() * 255U + draw(), draw() % 16U, length > 3840 ? 3840 : length);
    }
}
