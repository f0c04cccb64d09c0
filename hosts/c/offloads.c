/* The inline helpers of thawribbon.h for a switch's multicast: they give what thawribbon_multicast and thawribbon_judge give, and where a
 * port could not be read they judge nothing. */
#include "first_day.h"

#include "bench_offload.h"
#include "drawn.h"
#include "groups.h"

#include <string.h>

/* A space for each port and one more, and where its capability is. */
enum { ASKED = THAWRIBBON_PORTS + 1 };
static thawribbon_bytes spaces[ASKED], spaces_before[ASKED];
static thawribbon_capability asked[ASKED];

/* An offload and what is judged by it, each with a guard before and after it. */
static struct {
    uint8_t before[16];
    thawribbon_offload offload;
    uint8_t between[16];
    thawribbon_judged judged;
    uint8_t after[16];
} held;

static const uint8_t guards[16] = {0xA7, 0xA7, 0xA7, 0xA7, 0xA7, 0xA7, 0xA7, 0xA7, 0xA7, 0xA7, 0xA7, 0xA7, 0xA7, 0xA7, 0xA7, 0xA7};

/* The capability of the port at this place: it receives the group of its own number. */
static thawribbon_groups groups_at(size_t place)
{
    thawribbon_groups groups = four_groups;
    groups.num_group = 40;
    groups.receive = only((unsigned)place);
    return groups;
}

static void hold_spaces(void)
{
    size_t place;
    memset(spaces, 0, sizeof spaces);
    for (place = 0; place < ASKED; place++) {
        asked[place].space = &spaces[place];
        asked[place].at = 0x100 + 4 * place;
        write_capability(groups_at(place), spaces[place].at + asked[place].at);
    }
}

static void guards_hold(size_t at)
{
    expect(memcmp(held.before, guards, sizeof guards) == 0, "something was written before the offload", at);
    expect(memcmp(held.between, guards, sizeof guards) == 0, "something was written after the offload", at);
    expect(memcmp(held.after, guards, sizeof guards) == 0, "something was written after what is judged", at);
    expect(memcmp(spaces, spaces_before, sizeof spaces) == 0, "a space has changed", at);
}

/* So many ports are read with this number: all of them, or none, for a fault at this place. */
static void reads(size_t count, uint8_t number, size_t refused, size_t at)
{
    size_t place;
    memset(&held, 0xA7, sizeof held);
    memcpy(spaces_before, spaces, sizeof spaces);
    expect(thawribbon_offload_read(asked, count, &held.offload) == number, "another number", at);
    expect(held.offload.number == number && held.offload.refused == refused, "another number or place in the offload", at);
    expect(held.offload.length == (number == THAWRIBBON_SERVED ? count : 0), "another length", at);
    for (place = 0; place < THAWRIBBON_PORTS; place++) {
        const int there = place < held.offload.length;
        expect(same_groups(held.offload.ports[place], there ? groups_at(place) : no_groups), "other fields", at);
    }
    guards_hold(at);
}

/* The helper says this of an address, in what it gives and in what it sets. */
static void judges(size_t entering, uint64_t address, thawribbon_judged answer, size_t at)
{
    memcpy(spaces_before, spaces, sizeof spaces);
    expect(thawribbon_offload_judge(&held.offload, entering, address, &held.judged) == (thawribbon_judgement)answer.verdict,
           "another judgement", at);
    expect(held.judged.number == answer.number && held.judged.verdict == answer.verdict, "another number or verdict", at);
    expect(held.judged.group == answer.group && held.judged.ports == answer.ports, "another group, or other ports", at);
    guards_hold(at);
}

/* 0 to 32 ports are read, and 33 are refused with 1; so is a list without ports when it is asked about an address. */
static void every_count(void)
{
    const thawribbon_judged refused = {0, THAWRIBBON_BAD_DESCRIPTION, THAWRIBBON_JUDGED_NOTHING, 0};
    size_t count, place;
    hold_spaces();
    for (count = 0; count <= THAWRIBBON_PORTS; count++) {
        reads(count, THAWRIBBON_SERVED, 0, count);
        for (place = 0; place < count; place++) {
            thawribbon_judged leaves = {0, 0, THAWRIBBON_JUDGED_LEAVES, (uint8_t)place};
            leaves.ports = place == 0 ? 0 : (uint32_t)only((unsigned)place);
            judges(0, FOUR_AT + 0x1000 * place, leaves, count);
        }
        judges(count, FOUR_AT, refused, count);
        judges(SIZE_MAX, FOUR_AT, refused, count);
    }
    reads(ASKED, THAWRIBBON_BAD_DESCRIPTION, THAWRIBBON_PORTS, ASKED);
    judges(0, FOUR_AT, refused, ASKED);
}

/* Spoils the capability at this place, so that it is refused with this number. */
static void spoil(size_t place, uint8_t number)
{
    hold_spaces();
    switch (number) {
    case THAWRIBBON_OTHER_STRUCTURE:
        spaces[place].at[asked[place].at] = 0x23;
        break;
    case THAWRIBBON_WRONG_EXTENT:
        asked[place].at = 0xFFC;
        memcpy(spaces[place].at + 0xFFC, "\x12\x00\x01\x00", 4);
        break;
    case THAWRIBBON_WRONG_GROUPS:
        spaces[place].at[asked[place].at + 4] = 0;
        break;
    default:
        asked[place].space = NULL;
        break;
    }
}

/* A port at every place that is refused with each number: then no address is judged, with that number and never as no hit. */
static void every_refusal(void)
{
    static const uint8_t numbers[4] = {THAWRIBBON_BAD_DESCRIPTION, THAWRIBBON_OTHER_STRUCTURE, THAWRIBBON_WRONG_EXTENT,
                                       THAWRIBBON_WRONG_GROUPS};
    size_t n, place;
    for (n = 0; n < 4; n++) {
        for (place = 0; place < THAWRIBBON_PORTS; place++) {
            thawribbon_judged nothing = {0, 0, THAWRIBBON_JUDGED_NOTHING, 0};
            nothing.number = numbers[n];
            spoil(place, numbers[n]);
            reads(THAWRIBBON_PORTS, numbers[n], place, 100 * n + place);
            judges(0, FOUR_AT, nothing, 100 * n + place);
            judges(place, 0, nothing, 100 * n + place);
            expect(strcmp(thawribbon_judged_text(held.judged), thawribbon_text(numbers[n])) == 0, "another text", place);
        }
    }
}

/* Of two that are refused the first is told; and what was read before is gone. */
static void first_refusal(void)
{
    spoil(7, THAWRIBBON_WRONG_GROUPS);
    asked[9].at = 0x102;
    reads(THAWRIBBON_PORTS, THAWRIBBON_WRONG_GROUPS, 7, 0);
    hold_spaces();
    asked[9].at = 0x102;
    reads(THAWRIBBON_PORTS, THAWRIBBON_BAD_DESCRIPTION, 9, 1);
    reads(9, THAWRIBBON_SERVED, 0, 2);
}

/* An offload of zeros, into which nothing was read, has no ports: no address is judged by it. */
static void nothing_read(void)
{
    static const thawribbon_offload zeros = {0, 0, 0, {{0, 0, 0, 0, 0, 0, 0}}};
    thawribbon_judged judged;
    expect(thawribbon_offload_judge(&zeros, 0, 0, &judged) == THAWRIBBON_JUDGED_NOTHING, "something is judged", 0);
    expect(judged.number == THAWRIBBON_BAD_DESCRIPTION, "another number", 0);
}

/* Drawn ports: the helpers say what thawribbon_judge says of the same fields. */
static void same_as_judge(void)
{
    size_t n, place, counted[4] = {0, 0, 0, 0};
    for (n = 0; n < 2000; n++) {
        const size_t count = 1U + draw() % THAWRIBBON_PORTS, entering = draw() % (count + 1);
        uint64_t address;
        thawribbon_judged answer;
        hold_spaces();
        for (place = 0; place < count; place++) {
            write_capability(draw_groups(), spaces[place].at + asked[place].at);
        }
        memset(&held, 0xA7, sizeof held);
        memcpy(spaces_before, spaces, sizeof spaces);
        expect(thawribbon_offload_read(asked, count, &held.offload) == THAWRIBBON_SERVED, "it is not read", n);
        address = draw_address(held.offload.ports[entering % count]);
        answer = thawribbon_judge(held.offload.ports, count, entering, address);
        judges(entering, address, answer, n);
        counted[answer.verdict]++;
    }
    for (n = 0; n < 4; n++) {
        expect(counted[n] > 50, "too few of a verdict", 10000 * n + counted[n]);
    }
}

/* Only number 0 with one of three verdicts says that a packet is judged, and only one of them that it leaves by a port. */
static void judgements_told(void)
{
    unsigned number, verdict;
    size_t place;
    for (number = 0; number < 256; number++) {
        for (verdict = 0; verdict < 256; verdict++) {
            thawribbon_judged judged = {UINT32_MAX, 0, 0, 0};
            const int told = number == 0 && verdict >= 1 && verdict <= 3;
            judged.number = (uint8_t)number;
            judged.verdict = (uint8_t)verdict;
            expect((unsigned)thawribbon_judgement_of(judged) == (told ? verdict : 0), "another judgement", number);
            for (place = 0; place < 40; place++) {
                expect(thawribbon_leaves_by(judged, place) == (told && verdict == 3 && place < 32), "it leaves, or does not", place);
            }
        }
    }
}

/* Every place of a set of one port, and places that are in none. */
static void sets_of_ports(void)
{
    thawribbon_judged judged = {0, 0, THAWRIBBON_JUDGED_LEAVES, 5};
    unsigned bit, place;
    for (bit = 0; bit < 32; bit++) {
        judged.ports = (uint32_t)only(bit);
        for (place = 0; place < 64; place++) {
            expect(thawribbon_leaves_by(judged, place) == (place == bit), "it leaves, or does not", place);
        }
        for (place = 5; place < 64; place++) {
            expect(thawribbon_leaves_by(judged, (size_t)only(place) + bit) == 0, "it leaves by a port that is not there", place);
        }
    }
    judged.ports = UINT32_MAX;
    expect(thawribbon_leaves_by(judged, SIZE_MAX) == 0, "it leaves by the last number", 0);
}

static void judged_texts(void)
{
    thawribbon_judged judged = {0, 0, THAWRIBBON_JUDGED_NO_HIT, 0};
    expect(strcmp(thawribbon_judged_text(judged),
                  "no hit: the address is in no group of the port that the packet enters by, or that port is not enabled") == 0, "another text of no hit", 0);
    judged.verdict = THAWRIBBON_JUDGED_DROPPED;
    expect(strcmp(thawribbon_judged_text(judged), "the packet is dropped where it enters") == 0, "another text of what is dropped", 0);
    judged.verdict = THAWRIBBON_JUDGED_LEAVES;
    expect(strncmp(thawribbon_judged_text(judged), "the packet leaves by no port: ", 30) == 0, "another text of an empty set", 0);
    judged.ports = 1;
    expect(strcmp(thawribbon_judged_text(judged), "the packet leaves") == 0, "another text of what leaves", 0);
    for (judged.number = 1; judged.number <= 18; judged.number++) {
        expect(strcmp(thawribbon_judged_text(judged), thawribbon_text(judged.number)) == 0, "another text of a refusal", judged.number);
    }
}

void offloads(void)
{
    group("offload, 0 to 33 ports", every_count);
    group("offload, every refusal at every place of 32", every_refusal);
    group("offload, the first refusal", first_refusal);
    group("offload, nothing read", nothing_read);
    group("offload, 2,000 drawn switches as thawribbon_judge answers them", same_as_judge);
    group("helpers, the judgement of every answer", judgements_told);
    group("helpers, every port of a set", sets_of_ports);
    group("helpers, a text for everything that is judged", judged_texts);
}
