#include "bench_offload.h"

#include "drawn.h"
#include "groups.h"

#include <string.h>

const thawribbon_groups four_groups = {63, 3, 1, 12, FOUR_AT, 0, 0};
const thawribbon_groups no_groups = {0, 0, 0, 0, 0, 0, 0};

/* Writes a number of so many bytes, the lowest first. */
static void write_number(uint8_t *bytes, uint64_t number, size_t count)
{
    size_t n;
    for (n = 0; n < count; n++) {
        bytes[n] = (uint8_t)(number % 256);
        number /= 256;
    }
}

static uint64_t read_number(const uint8_t *bytes, size_t count)
{
    uint64_t number = 0;
    while (count > 0) {
        count--;
        number = number * 256 + bytes[count];
    }
    return number;
}

void write_capability(thawribbon_groups groups, uint8_t bytes[CAPABILITY])
{
    memset(bytes, 0, CAPABILITY);
    write_number(bytes, 0x00010012, 4);
    write_number(bytes + 0x04, groups.max_group, 2);
    write_number(bytes + 0x06, groups.num_group + groups.enable * 0x8000, 2);
    write_number(bytes + 0x08, groups.base + groups.index, 8);
    write_number(bytes + 0x10, groups.receive, 8);
    write_number(bytes + 0x18, groups.block_all, 8);
}

thawribbon_groups fields_of(const uint8_t bytes[CAPABILITY])
{
    thawribbon_groups groups;
    groups.max_group = read_number(bytes + 0x04, 2) % 64;
    groups.num_group = read_number(bytes + 0x06, 2) % 64;
    groups.enable = read_number(bytes + 0x06, 2) / 0x8000;
    groups.index = read_number(bytes + 0x08, 8) % 64;
    groups.base = read_number(bytes + 0x08, 8) / 4096 * 4096;
    groups.receive = read_number(bytes + 0x10, 8);
    groups.block_all = read_number(bytes + 0x18, 8);
    return groups;
}

uint8_t number_of(thawribbon_groups groups)
{
    if (groups.num_group > groups.max_group || (groups.enable == 1 && groups.index < 12)) {
        return THAWRIBBON_WRONG_GROUPS;
    }
    return THAWRIBBON_SERVED;
}

int same_groups(thawribbon_groups one, thawribbon_groups other)
{
    return memcmp(&one, &other, sizeof one) == 0;
}

uint64_t only(unsigned group)
{
    return (uint64_t)1 << group;
}

/* The lent list goes from held[1] on, with a guard before and after it. */
static thawribbon_groups held[MOST_LISTED + 2], expected[MOST_LISTED + 2];
static size_t held_length;

void lend_alike(thawribbon_groups groups, size_t count)
{
    size_t n;
    memset(held, 0xA7, sizeof held);
    for (n = 0; n < count; n++) {
        held[1 + n] = groups;
    }
    held_length = count;
}

thawribbon_groups *listed(size_t place)
{
    return &held[1 + place];
}

void is_answered(size_t entering, uint64_t address, thawribbon_judged answer, size_t at)
{
    thawribbon_judged judged;
    memcpy(expected, held, sizeof held);
    judged = thawribbon_judge(held + 1, held_length, entering, address);
    expect(judged.number == answer.number, "another number", at);
    expect(judged.verdict == answer.verdict, "another verdict", at);
    expect(judged.group == answer.group, "another group", at);
    expect(judged.ports == answer.ports, "other ports", at);
    expect(memcmp(held, expected, sizeof held) == 0, "the list has changed", at);
}

void hits_nothing(size_t entering, uint64_t address, size_t at)
{
    const thawribbon_judged answer = {0, 0, THAWRIBBON_JUDGED_NO_HIT, 0};
    is_answered(entering, address, answer, at);
}

void is_dropped(size_t entering, uint64_t address, unsigned group, size_t at)
{
    const thawribbon_judged answer = {0, 0, THAWRIBBON_JUDGED_DROPPED, (uint8_t)group};
    is_answered(entering, address, answer, at);
}

void goes_to(size_t entering, uint64_t address, unsigned group, uint32_t ports, size_t at)
{
    const thawribbon_judged answer = {ports, 0, THAWRIBBON_JUDGED_LEAVES, (uint8_t)group};
    is_answered(entering, address, answer, at);
}

void is_not_judged(size_t entering, uint64_t address, size_t at)
{
    const thawribbon_judged answer = {0, THAWRIBBON_BAD_DESCRIPTION, THAWRIBBON_JUDGED_NOTHING, 0};
    is_answered(entering, address, answer, at);
}

/* The group that has the address, or 64 where none has: each begins where the one before ends, until the addresses end. */
static unsigned group_again(thawribbon_groups port, uint64_t address)
{
    const uint64_t size = only((unsigned)port.index);
    uint64_t start = port.base;
    unsigned group;
    for (group = 0; port.enable == 1 && group <= port.num_group; group++) {
        if (address >= start && address - start < size) {
            return group;
        }
        if (start > UINT64_MAX - size) {
            break;
        }
        start += size;
    }
    return THAWRIBBON_GROUPS;
}

static int has(uint64_t one_register, unsigned group)
{
    return (one_register & only(group)) != 0;
}

thawribbon_judged judged_again(size_t entering, uint64_t address)
{
    thawribbon_judged judged = {0, 0, THAWRIBBON_JUDGED_NO_HIT, 0};
    const unsigned group = group_again(*listed(entering), address);
    size_t place;
    if (group == THAWRIBBON_GROUPS) {
        return judged;
    }
    judged.group = (uint8_t)group;
    judged.verdict = has(listed(entering)->block_all, group) ? THAWRIBBON_JUDGED_DROPPED : THAWRIBBON_JUDGED_LEAVES;
    for (place = 0; judged.verdict == THAWRIBBON_JUDGED_LEAVES && place < held_length; place++) {
        if (place != entering && has(listed(place)->receive, group)) {
            judged.ports += (uint32_t)only((unsigned)place);
        }
    }
    return judged;
}

uint64_t draw_long(void)
{
    uint64_t number = 0;
    size_t n;
    for (n = 0; n < 8; n++) {
        number = number * 256 + draw();
    }
    return number;
}

uint64_t draw_address(thawribbon_groups groups)
{
    const uint64_t near = (uint64_t)(draw() % 5) - 2; /* from 2 below to 2 above, and below 0 it is a very large number */
    switch (draw() % 8) {
    case 0:
        return groups.base + near;
    case 1:
        return UINT64_MAX - draw();
    case 2:
        return draw_long();
    default: /* an edge between two groups, or past all addresses and so anywhere */
        return groups.base + (draw() % 65) * only((unsigned)groups.index) + near;
    }
}

thawribbon_groups draw_groups(void)
{
    thawribbon_groups groups;
    groups.max_group = draw() % 2 == 0 ? 63 : draw() % 64;
    groups.num_group = draw() % 2 == 0 ? groups.max_group : draw() % (groups.max_group + 1);
    groups.enable = draw() % 8 != 0;
    groups.index = groups.enable == 1 ? 12U + draw() % (draw() % 2 == 0 ? 52U : 12U) : draw() % 64U;
    groups.base = (draw() % 4 == 0 ? UINT64_MAX - draw_long() % 0x100000 : draw_long() >> draw() % 52) / 4096 * 4096;
    groups.receive = draw_long();
    groups.block_all = draw_long() & draw_long();
    return groups;
}
