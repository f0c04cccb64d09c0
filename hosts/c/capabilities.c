/* thawribbon_multicast: the fields of a capability at their edges, every bit of one, every offset and length, and each number. */
#include "first_day.h"

#include "bench_offload.h"
#include "buffers.h"
#include "drawn.h"
#include "groups.h"

#include <string.h>

static buffer space;

/* Where the fields are written, with a guard before and after them. */
static struct {
    uint8_t before[16];
    thawribbon_groups groups;
    uint8_t after[16];
} held;

static const uint8_t guards[16] = {0xA7, 0xA7, 0xA7, 0xA7, 0xA7, 0xA7, 0xA7, 0xA7, 0xA7, 0xA7, 0xA7, 0xA7, 0xA7, 0xA7, 0xA7, 0xA7};

/* Asked for at this offset, it gets this number and these fields, or 0 for each where it is refused. */
static void reads(size_t offset, uint8_t number, thawribbon_groups fields, size_t at)
{
    memset(&held, 0xA7, sizeof held);
    remember(&space);
    expect(thawribbon_multicast(lent(&space), space.length, offset, &held.groups) == number, "another number", at);
    expect(same_groups(held.groups, number == THAWRIBBON_SERVED ? fields : no_groups), "other fields", at);
    expect(memcmp(held.before, guards, sizeof guards) == 0, "something was written before the fields", at);
    expect(memcmp(held.after, guards, sizeof guards) == 0, "something was written after the fields", at);
    expect(is_as_expected(&space), "the space has changed", at);
}

/* A space of one value with this capability at 100h. */
static void lend_capability(thawribbon_groups groups, uint8_t value)
{
    uint8_t bytes[CAPABILITY];
    write_capability(groups, bytes);
    fill(&space, value, THAWRIBBON_SPACE);
    put(&space, 0x100, bytes, sizeof bytes);
}

/* In a space of one value, a capability with these fields is read, or refused with the number that they get. */
static void is_read(thawribbon_groups groups, size_t at)
{
    lend_capability(groups, 0xFF);
    reads(0x100, number_of(groups), groups, at);
}

/* Bytes written out by hand, not by write_capability: every field is another number. */
static void one_capability(void)
{
    static const uint8_t bytes[CAPABILITY] = {0x12, 0x00, 0xF1, 0xFF, 0x6A, 0xFF, 0xE9, 0xFF, 0x8D, 0xFF, 0xCD, 0xAB, 0x89, 0x67, 0x45, 0x23,
                                              0x01, 0x02, 0x03, 0x04, 0x05, 0x06, 0x07, 0x08, 0xF1, 0xF2, 0xF3, 0xF4, 0xF5, 0xF6, 0xF7, 0xF8};
    static const thawribbon_groups fields = {0x2A, 0x29, 1, 0x0D, 0x23456789ABCDF000U, 0x0807060504030201U, 0xF8F7F6F5F4F3F2F1U};
    fill(&space, 0x00, THAWRIBBON_SPACE);
    put(&space, 0x100, bytes, sizeof bytes);
    reads(0x100, THAWRIBBON_SERVED, fields, 0);
    expect(same_groups(fields_of(bytes), fields), "read another way, it has other fields", 1);
}

/* Each bit of the 28h bytes turned, in a capability that is enabled and in one that is not: ID and version are refused with 8, and all else
 * is the fields' or nobody's. */
static void every_bit(void)
{
    size_t enable, place;
    unsigned bit;
    for (enable = 0; enable < 2; enable++) {
        for (place = 0; place < CAPABILITY; place++) {
            for (bit = 0; bit < 8; bit++) {
                thawribbon_groups groups = {40, 20, 0, 13, 0x123456789000U, 0x00FF00FF00FF00FFU, 0x0F0F0F0F0F0F0F0FU};
                const int is_header = place < 2 || (place == 2 && bit < 4);
                groups.enable = enable;
                lend_capability(groups, 0x00);
                lent(&space)[0x100 + place] ^= (uint8_t)(1U << bit);
                groups = fields_of(lent(&space) + 0x100);
                reads(0x100, is_header ? THAWRIBBON_OTHER_STRUCTURE : number_of(groups), groups, 8 * place + bit);
            }
        }
    }
}

/* Every ID, with version 1, and every version, with ID 0012h. */
static void every_id(void)
{
    unsigned id, version;
    for (id = 0; id < 0x10000; id++) {
        lend_capability(four_groups, 0x00);
        lent(&space)[0x100] = (uint8_t)(id & 0xFF);
        lent(&space)[0x101] = (uint8_t)(id >> 8);
        reads(0x100, id == THAWRIBBON_MULTICAST_ID ? THAWRIBBON_SERVED : THAWRIBBON_OTHER_STRUCTURE, four_groups, id);
    }
    for (version = 0; version < 256; version++) {
        lend_capability(four_groups, 0x00);
        lent(&space)[0x102] = (uint8_t)version;
        reads(0x100, version % 16 == 1 ? THAWRIBBON_SERVED : THAWRIBBON_OTHER_STRUCTURE, four_groups, version);
    }
}

/* Every Max Group with every Num Group: over it is refused with 13, also where it is not enabled. */
static void every_maximum(void)
{
    thawribbon_groups groups = four_groups;
    for (groups.enable = 0; groups.enable <= 1; groups.enable++) {
        for (groups.max_group = 0; groups.max_group < THAWRIBBON_GROUPS; groups.max_group++) {
            for (groups.num_group = 0; groups.num_group < THAWRIBBON_GROUPS; groups.num_group++) {
                is_read(groups, (size_t)(100 * groups.max_group + groups.num_group));
            }
        }
    }
}

/* Every Index Position: under 12 is refused with 13 where it is enabled, and only there. */
static void every_index(void)
{
    thawribbon_groups groups = four_groups;
    for (groups.index = 0; groups.index < 64; groups.index++) {
        groups.enable = 1;
        expect(number_of(groups) == (groups.index < 12 ? THAWRIBBON_WRONG_GROUPS : THAWRIBBON_SERVED), "another number here", 0);
        is_read(groups, (size_t)groups.index);
        groups.enable = 0;
        is_read(groups, (size_t)(100 + groups.index));
    }
}

/* The base at its ends, and each bit of it; the largest is FFFF_FFFF_FFFF_F000h. Receive and Block All with each bit, and with all. */
static void every_register(void)
{
    thawribbon_groups groups = four_groups;
    unsigned bit;
    groups.base = 0;
    is_read(groups, 0);
    groups.base = 0xFFFFFFFFFFFFF000U;
    groups.receive = groups.block_all = UINT64_MAX;
    is_read(groups, 1);
    for (bit = 0; bit < 64; bit++) {
        groups.base = bit < 12 ? 0 : only(bit);
        groups.receive = only(bit);
        groups.block_all = ~only(bit);
        is_read(groups, bit);
    }
}

/* A header at every word. It is read from 100h to FD8h, at multiples of 4, and up to FFCh too few bytes are left. */
static void every_offset(void)
{
    static const uint8_t header[4] = {0x12, 0x00, 0x01, 0x00};
    static const thawribbon_groups fields = {0x12, 1, 0, 0x12, 0x0001001200010000U, 0x0001001200010012U, 0x0001001200010012U};
    size_t at, bit;
    fill(&space, 0x00, THAWRIBBON_SPACE);
    for (at = 0; at < THAWRIBBON_SPACE; at += 4) {
        put(&space, at, header, sizeof header);
    }
    for (at = 0; at < 0x1010; at++) {
        const int may_stand = at % 4 == 0 && at >= 0x100 && at <= 0xFFC;
        const uint8_t left = at <= 0xFD8 ? THAWRIBBON_SERVED : THAWRIBBON_WRONG_EXTENT;
        reads(at, may_stand ? left : THAWRIBBON_BAD_DESCRIPTION, fields, at);
    }
    for (at = 0; at < 32; at++) {
        reads(SIZE_MAX - at, THAWRIBBON_BAD_DESCRIPTION, fields, at);
        reads(UINT32_MAX - 16 + at, THAWRIBBON_BAD_DESCRIPTION, fields, at);
    }
    for (bit = 12; bit < 64; bit++) {
        reads(((size_t)1 << bit) + 0x100, THAWRIBBON_BAD_DESCRIPTION, fields, bit);
    }
}

/* Spaces of every length, and pointers to nothing. */
static void every_space(void)
{
    size_t n;
    for (n = 0; n < LENGTHS; n++) {
        lend_capability(four_groups, 0x00);
        resize(&space, tried_length(n));
        reads(0x100, tried_length(n) == THAWRIBBON_SPACE ? THAWRIBBON_SERVED : THAWRIBBON_BAD_DESCRIPTION, four_groups, tried_length(n));
    }
    for (n = 0; n < POINTERS; n++) {
        lend_instead(&space, pointer_to_nothing(n));
        reads(0x100, THAWRIBBON_BAD_DESCRIPTION, four_groups, n);
    }
}

/* The causes of 1, 8, 9 and 13, each there or not: the first is given. Where too few bytes are left, 13 is not looked for. */
static void first_number(void)
{
    unsigned causes;
    for (causes = 0; causes < 16; causes++) {
        const size_t at = (causes & 4) != 0 ? 0xFDC : 0xFD8;
        thawribbon_groups groups = four_groups;
        uint8_t bytes[CAPABILITY];
        groups.max_group = (causes & 8) != 0 ? 2 : 3;
        write_capability(groups, bytes);
        bytes[0] = (uint8_t)((causes & 2) != 0 ? 0x23 : 0x12);
        fill(&space, 0x00, THAWRIBBON_SPACE);
        put(&space, at, bytes, THAWRIBBON_SPACE - at);
        resize(&space, (causes & 1) != 0 ? THAWRIBBON_SPACE - 1 : THAWRIBBON_SPACE);
        reads(at, (uint8_t)((causes & 1) != 0 ? 1 : (causes & 2) != 0 ? 8 : (causes & 4) != 0 ? 9 : (causes & 8) != 0 ? 13 : 0), groups, causes);
    }
}

/* Drawn bytes behind a header: read as they are read another way. */
static void drawn_capabilities(void)
{
    size_t n, refused = 0;
    lend_capability(four_groups, 0x00);
    for (n = 0; n < 20000; n++) {
        size_t place;
        for (place = 4; place < CAPABILITY; place++) {
            lent(&space)[0x100 + place] = draw();
        }
        reads(0x100, number_of(fields_of(lent(&space) + 0x100)), fields_of(lent(&space) + 0x100), n);
        refused += number_of(fields_of(lent(&space) + 0x100)) != THAWRIBBON_SERVED;
    }
    expect(refused > 4000 && refused < 16000, "too few are read, or refused", refused);
}

void capabilities(void)
{
    group("multicast, one capability", one_capability);
    group("multicast, every bit of a capability", every_bit);
    group("multicast, every ID and version", every_id);
    group("multicast, every Max Group and Num Group", every_maximum);
    group("multicast, every Index Position", every_index);
    group("multicast, every bit of base, Receive and Block All", every_register);
    group("multicast, every offset", every_offset);
    group("multicast, spaces of every length and pointers with length 0", every_space);
    group("multicast, the first number", first_number);
    group("multicast, 20,000 drawn capabilities", drawn_capabilities);
}
