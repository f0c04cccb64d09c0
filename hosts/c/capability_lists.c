/* The list that an address is judged by: lists of every count, places that are in none, and fields that no reading gives. */
#include "first_day.h"

#include "bench_offload.h"
#include "buffers.h"
#include "groups.h"

/* So many ports, each of which receives every group. */
static void lend_receiving(size_t count)
{
    thawribbon_groups groups = four_groups;
    groups.receive = UINT64_MAX;
    lend_alike(groups, count);
}

/* Lists of 0 to 64 ports, with every place in them, the one past the end, and those far past it. Over 32 are refused. */
static void every_count(void)
{
    size_t count, entering;
    for (count = 0; count <= MOST_LISTED; count++) {
        lend_receiving(count);
        for (entering = 0; entering <= count + 1; entering++) {
            if (count <= THAWRIBBON_PORTS && entering < count) {
                const uint64_t all = (only((unsigned)count) - 1) & ~only((unsigned)entering);
                goes_to(entering, FOUR_AT, 0, (uint32_t)all, count);
                hits_nothing(entering, FOUR_AT - 1, count);
            } else {
                is_not_judged(entering, FOUR_AT, count);
            }
        }
    }
}

/* Places far past the end, also those that have a place of the list in their lower bits. */
static void no_such_port(void)
{
    unsigned bit;
    lend_receiving(THAWRIBBON_PORTS);
    for (bit = 5; bit < 64; bit++) {
        is_not_judged((size_t)only(bit), FOUR_AT, bit);
        is_not_judged((size_t)only(bit) + 1, FOUR_AT, bit);
        is_not_judged(SIZE_MAX - bit, FOUR_AT, bit);
    }
}

/* A list without ports, wherever its pointer leads: no packet enters by one of them. */
static void no_list(void)
{
    size_t n, entering;
    for (n = 0; n < POINTERS; n++) {
        for (entering = 0; entering < 2; entering++) {
            const thawribbon_groups *nowhere = (const thawribbon_groups *)(const void *)pointer_to_nothing(n);
            const thawribbon_judged judged = thawribbon_judge(nowhere, 0, entering, 0);
            expect(judged.number == THAWRIBBON_BAD_DESCRIPTION, "another number", n);
            expect(judged.verdict == THAWRIBBON_JUDGED_NOTHING && judged.group == 0 && judged.ports == 0, "something is judged", n);
        }
    }
}

/* Fields that no reading gives, each at its edge and far from it: Max Group, Num Group, Enable, Index Position, base, Receive, Block All. */
enum { WAYS = 16 };
static const thawribbon_groups spoilt[WAYS] = {
    {64, 3, 1, 12, FOUR_AT, 0, 0},
    {(uint64_t)1 << 32, 3, 1, 12, FOUR_AT, 0, 0},
    {UINT64_MAX, 3, 1, 12, FOUR_AT, 0, 0},
    {63, 64, 1, 12, FOUR_AT, 0, 0},
    {63, UINT64_MAX, 1, 12, FOUR_AT, 0, 0},
    {2, 3, 1, 12, FOUR_AT, 0, 0},
    {2, 3, 0, 12, FOUR_AT, 0, 0},
    {63, 3, 2, 12, FOUR_AT, 0, 0},
    {63, 3, UINT64_MAX, 12, FOUR_AT, 0, 0},
    {63, 3, 1, 64, FOUR_AT, 0, 0},
    {63, 3, 1, UINT64_MAX, FOUR_AT, 0, 0},
    {63, 3, 0, 64, FOUR_AT, 0, 0},
    {63, 3, 1, 11, FOUR_AT, 0, 0},
    {63, 3, 1, 0, FOUR_AT, 0, 0},
    {63, 3, 1, 12, FOUR_AT + 1, 0, 0},
    {63, 3, 0, 12, FOUR_AT + 0x800, 0, 0},
};

/* Each of these at every place of 32: refused, whichever port the packet enters by and whether it would hit or not. */
static void every_bad_field(void)
{
    size_t way, place;
    for (way = 0; way < WAYS; way++) {
        for (place = 0; place < THAWRIBBON_PORTS; place++) {
            lend_receiving(THAWRIBBON_PORTS);
            *listed(place) = spoilt[way];
            is_not_judged(place, FOUR_AT, 100 * way + place);
            is_not_judged((place + 1) % THAWRIBBON_PORTS, FOUR_AT, 100 * way + place);
            is_not_judged((place + 31) % THAWRIBBON_PORTS, FOUR_AT - 1, 100 * way + place);
        }
    }
}

/* One port, whose fields a reading can give, or none can. */
static void is_good(thawribbon_groups groups, int good, size_t at)
{
    lend_alike(groups, 1);
    if (good) {
        is_answered(0, FOUR_AT, judged_again(0, FOUR_AT), at);
    } else {
        is_not_judged(0, FOUR_AT, at);
    }
}

/* Each bit of each field by itself: those that no reading gives are refused, and the others are not. */
static void every_bit_of_a_field(void)
{
    unsigned bit;
    for (bit = 0; bit < 64; bit++) {
        const thawribbon_groups max_group = {only(bit), 0, 0, 0, 0, 0, 0}, num_group = {63, only(bit), 0, 0, 0, 0, 0},
                                enable = {63, 3, only(bit), 12, FOUR_AT, 0, 0}, index = {0, 0, 0, only(bit), 0, 0, 0},
                                base = {0, 0, 0, 0, only(bit), 0, 0}, registers = {0, 0, 0, 0, 0, only(bit), only(bit)};
        is_good(max_group, bit < 6, bit);
        is_good(num_group, bit < 6, 100 + bit);
        is_good(enable, bit == 0, 200 + bit);
        is_good(index, bit < 6, 300 + bit);
        is_good(base, bit >= 12, 400 + bit);
        is_good(registers, 1, 500 + bit);
    }
}

/* What a reading refuses with 13 is refused here with 1, and all else is judged: every Index Position, Max Group and Enable, and some of Num
 * Group. */
static void what_clashes(void)
{
    thawribbon_groups groups = four_groups;
    for (groups.index = 0; groups.index < 64; groups.index++) {
        for (groups.max_group = 0; groups.max_group < THAWRIBBON_GROUPS; groups.max_group++) {
            for (groups.num_group = 0; groups.num_group < THAWRIBBON_GROUPS; groups.num_group += 7) {
                groups.enable = 0;
                is_good(groups, number_of(groups) == THAWRIBBON_SERVED, (size_t)groups.index);
                groups.enable = 1;
                is_good(groups, number_of(groups) == THAWRIBBON_SERVED, (size_t)groups.index);
            }
        }
    }
}

void capability_lists(void)
{
    group("judge, lists of 0 to 64 ports", every_count);
    group("judge, places that no port has", no_such_port);
    group("judge, no list", no_list);
    group("judge, fields that no reading gives at every place of 32", every_bad_field);
    group("judge, every bit of a field", every_bit_of_a_field);
    group("judge, fields that do not go together", what_clashes);
}
