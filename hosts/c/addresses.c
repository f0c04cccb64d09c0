/* thawribbon_judge: addresses at every edge of a group, up to the largest, every group, and every port that a packet enters or leaves by. */
#include "first_day.h"

#include "bench_offload.h"
#include "drawn.h"
#include "groups.h"

/* Two ports. A packet enters by the first, whose fields these are, and the second receives every group. */
static void lend_two(thawribbon_groups entering)
{
    lend_alike(entering, 2);
    listed(1)->receive = UINT64_MAX;
}

/* Below the base, at it, the last address of the last group, and the next. */
static void edges(void)
{
    lend_two(four_groups);
    hits_nothing(0, 0, 0);
    hits_nothing(0, FOUR_AT - 0x1000, 1);
    hits_nothing(0, FOUR_AT - 1, 2);
    goes_to(0, FOUR_AT, 0, 2, 3);
    goes_to(0, FOUR_AT + 0xFFF, 0, 2, 4);
    goes_to(0, FOUR_AT + 0x1000, 1, 2, 5);
    goes_to(0, FOUR_AT + 0x3FFF, 3, 2, 6);
    hits_nothing(0, FOUR_AT + 0x4000, 7);
    hits_nothing(0, UINT64_MAX, 8);
}

/* Num Group is the highest group and not a count; with 0 there is one group. Max Group says nothing about an address. */
static void every_num_group(void)
{
    thawribbon_groups groups = four_groups;
    for (groups.num_group = 0; groups.num_group < THAWRIBBON_GROUPS; groups.num_group++) {
        const uint64_t last = FOUR_AT + 0x1000 * groups.num_group;
        for (groups.max_group = groups.num_group; groups.max_group < THAWRIBBON_GROUPS; groups.max_group++) {
            lend_two(groups);
            goes_to(0, last, (unsigned)groups.num_group, 2, (size_t)groups.num_group);
            goes_to(0, last + 0xFFF, (unsigned)groups.num_group, 2, (size_t)groups.num_group);
            hits_nothing(0, last + 0x1000, (size_t)groups.num_group);
        }
    }
}

/* Every Index Position from 12 to 63, from base 0 on: a group's first and last address, and those beside them. Groups whose addresses would
 * begin past the largest have none. */
static void every_index(void)
{
    thawribbon_groups groups = four_groups;
    uint64_t group;
    groups.base = 0;
    groups.num_group = 63;
    for (groups.index = 12; groups.index < 64; groups.index++) {
        const uint64_t size = only((unsigned)groups.index), groups_before_the_end = UINT64_MAX / size + 1;
        lend_two(groups);
        for (group = 0; group < THAWRIBBON_GROUPS && group < groups_before_the_end; group++) {
            goes_to(0, group * size, (unsigned)group, 2, (size_t)groups.index);
            goes_to(0, group * size + (size - 1), (unsigned)group, 2, (size_t)groups.index);
        }
        if (groups_before_the_end > THAWRIBBON_GROUPS) {
            hits_nothing(0, THAWRIBBON_GROUPS * size, (size_t)groups.index);
        } else {
            goes_to(0, UINT64_MAX, (unsigned)(groups_before_the_end - 1), 2, (size_t)groups.index);
        }
    }
}

/* The largest base has one page of addresses. With every Index Position the page is group 0's, and no sum comes round to address 0. */
static void largest_base(void)
{
    thawribbon_groups groups = four_groups;
    groups.base = 0xFFFFFFFFFFFFF000U;
    groups.num_group = 63;
    for (groups.index = 12; groups.index < 64; groups.index++) {
        lend_two(groups);
        goes_to(0, UINT64_MAX, 0, 2, (size_t)groups.index);
        goes_to(0, groups.base, 0, 2, (size_t)groups.index);
        hits_nothing(0, groups.base - 1, (size_t)groups.index);
        hits_nothing(0, 0, (size_t)groups.index);
        hits_nothing(0, 0xFFF, (size_t)groups.index);
        hits_nothing(0, 0x1000, (size_t)groups.index);
    }
}

/* Groups that would end past the largest address: those before it are there, the last in part, and none comes round to address 0. */
static void past_the_end(void)
{
    thawribbon_groups groups = four_groups;
    groups.base = 0U - (uint64_t)0x5000; /* FFFF_FFFF_FFFF_B000h: two groups and a half */
    groups.index = 13;
    groups.num_group = 63;
    lend_two(groups);
    hits_nothing(0, groups.base - 1, 0);
    goes_to(0, groups.base, 0, 2, 1);
    goes_to(0, groups.base + 0x1FFF, 0, 2, 2);
    goes_to(0, groups.base + 0x2000, 1, 2, 3);
    goes_to(0, groups.base + 0x4000, 2, 2, 4);
    goes_to(0, UINT64_MAX, 2, 2, 5);
    hits_nothing(0, 0, 6);
    hits_nothing(0, 0x1000, 7);
    groups.index = 63; /* a group is half of all addresses */
    groups.base = 0x8000000000001000U;
    lend_two(groups);
    goes_to(0, UINT64_MAX, 0, 2, 8);
    hits_nothing(0, 0x8000000000000FFFU, 9);
    hits_nothing(0, 0x0FFF, 10);
}

/* Each group, those from 32 on too: by its own bit of Receive and of Block All, and by no other. */
static void every_group(void)
{
    thawribbon_groups groups = four_groups;
    unsigned hit, set;
    groups.num_group = 63;
    for (hit = 0; hit < THAWRIBBON_GROUPS; hit++) {
        for (set = 0; set < THAWRIBBON_GROUPS; set++) {
            const uint64_t address = FOUR_AT + 0x1000 * (uint64_t)hit;
            lend_alike(groups, 2);
            listed(1)->receive = only(set);
            goes_to(0, address, hit, hit == set ? 2 : 0, hit);
            listed(1)->receive = UINT64_MAX;
            listed(0)->block_all = only(set);
            if (hit == set) {
                is_dropped(0, address, hit, hit);
            } else {
                goes_to(0, address, hit, 2, hit);
            }
        }
    }
}

/* Of 32 ports each that a packet enters by: it leaves by all others, by the one that receives, and never by where it entered. */
static void every_port(void)
{
    size_t entering, place;
    for (entering = 0; entering < THAWRIBBON_PORTS; entering++) {
        thawribbon_groups groups = four_groups;
        groups.receive = only(1);
        lend_alike(groups, THAWRIBBON_PORTS);
        goes_to(entering, FOUR_AT + 0x1000, 1, (uint32_t)~only((unsigned)entering), entering);
        goes_to(entering, FOUR_AT, 0, 0, entering);
        for (place = 0; place < THAWRIBBON_PORTS; place++) {
            lend_alike(four_groups, THAWRIBBON_PORTS);
            listed(place)->receive = only(1);
            goes_to(entering, FOUR_AT + 0x1000, 1, place == entering ? 0 : (uint32_t)only((unsigned)place), 100 * entering + place);
        }
    }
}

/* Block All counts where the packet enters, and nowhere else; and it counts before any port's Receive bit. */
static void blocked(void)
{
    size_t entering, place;
    for (entering = 0; entering < THAWRIBBON_PORTS; entering++) {
        for (place = 0; place < THAWRIBBON_PORTS; place++) {
            thawribbon_groups groups = four_groups;
            groups.receive = UINT64_MAX;
            lend_alike(groups, THAWRIBBON_PORTS);
            listed(place)->block_all = only(2);
            if (place == entering) {
                is_dropped(entering, FOUR_AT + 0x2000, 2, entering);
            } else {
                goes_to(entering, FOUR_AT + 0x2000, 2, (uint32_t)~only((unsigned)entering), 100 * entering + place);
            }
        }
    }
}

/* The group is that of the entering port: of the others neither Enable, window nor groups count. */
static void windows_of_others(void)
{
    const thawribbon_groups other = {0, 0, 0, 0, 0xFFFFFFFFFFFFF000U, 0, UINT64_MAX};
    lend_alike(other, 3);
    *listed(1) = four_groups;
    listed(2)->receive = only(3);
    hits_nothing(0, FOUR_AT + 0x3000, 0);
    goes_to(1, FOUR_AT + 0x3000, 3, 4, 1);
    hits_nothing(2, FOUR_AT + 0x3000, 2);
    *listed(0) = four_groups;
    listed(0)->base = 0;
    listed(0)->receive = only(3);
    goes_to(0, 0x3000, 3, 4, 3);
    goes_to(1, FOUR_AT + 0x3000, 3, 5, 4);
    hits_nothing(1, 0x3000, 5);
}

/* Not enabled, no address hits, whatever the other fields. */
static void not_enabled(void)
{
    thawribbon_groups groups = four_groups;
    groups.enable = 0;
    for (groups.index = 0; groups.index < 64; groups.index++) {
        lend_two(groups);
        hits_nothing(0, FOUR_AT, (size_t)groups.index);
        hits_nothing(0, UINT64_MAX, (size_t)groups.index);
    }
    lend_alike(no_groups, 1); /* what a refused reading leaves */
    hits_nothing(0, 0, 64);
}

/* Drawn lists of 1 to 32 ports and drawn addresses: judged as they are judged another way. */
static void drawn_addresses(void)
{
    size_t n, place, counted[4] = {0, 0, 0, 0}, high = 0;
    for (n = 0; n < 20000; n++) {
        const size_t count = 1U + draw() % THAWRIBBON_PORTS, entering = draw() % count;
        thawribbon_judged answer;
        uint64_t address;
        lend_alike(four_groups, count);
        for (place = 0; place < count; place++) {
            *listed(place) = draw_groups();
        }
        address = draw_address(*listed(entering));
        answer = judged_again(entering, address);
        is_answered(entering, address, answer, n);
        counted[answer.verdict]++;
        high += answer.group >= 32;
    }
    expect(counted[THAWRIBBON_JUDGED_NO_HIT] > 1000, "too few hit nothing", counted[THAWRIBBON_JUDGED_NO_HIT]);
    expect(counted[THAWRIBBON_JUDGED_DROPPED] > 1000, "too few are dropped", counted[THAWRIBBON_JUDGED_DROPPED]);
    expect(counted[THAWRIBBON_JUDGED_LEAVES] > 1000, "too few leave", counted[THAWRIBBON_JUDGED_LEAVES]);
    expect(high > 1000, "too few hit a group from 32 on", high);
}

void addresses(void)
{
    group("judge, below, at and above the groups", edges);
    group("judge, every Num Group", every_num_group);
    group("judge, every Index Position", every_index);
    group("judge, the largest base", largest_base);
    group("judge, groups that would end past the largest address", past_the_end);
    group("judge, every group", every_group);
    group("judge, every port of 32", every_port);
    group("judge, Block All at every port of 32", blocked);
    group("judge, the windows of other ports", windows_of_others);
    group("judge, a port that is not enabled", not_enabled);
    group("judge, 20,000 drawn addresses", drawn_addresses);
}
