/* The inline helpers of thawribbon.h for a switch: they give what thawribbon_route gives, and touch nothing else. */
#include "first_day.h"

#include "bench_switch.h"
#include "drawn.h"
#include "groups.h"

#include <string.h>

/* What leaves, with a guard before and after it. */
static struct {
    uint8_t before[16];
    thawribbon_leaving leaving;
    uint8_t after[16];
} held;

static const uint8_t guards[16] = {0xA7, 0xA7, 0xA7, 0xA7, 0xA7, 0xA7, 0xA7, 0xA7, 0xA7, 0xA7, 0xA7, 0xA7, 0xA7, 0xA7, 0xA7, 0xA7};

/* The helper gives this verdict, number and port; what leaves is these bytes, and FFh past them: where nothing does, in all of it. */
static void says(thawribbon_verdict verdict, uint8_t number, size_t port, const uint8_t *bytes, size_t length, size_t at)
{
    uint8_t whole[THAWRIBBON_LEAVING];
    memset(whole, 0xFF, sizeof whole);
    if (length != 0) {
        memcpy(whole, bytes, length);
    }
    memset(&held, 0xA7, sizeof held);
    remember(&ports);
    remember(&packet);
    expect(thawribbon_ports_route(lent_ports(), ports_count(), lent(&packet), packet.length, &held.leaving) == verdict, "another verdict", at);
    expect(held.leaving.verdict == verdict, "another verdict in what leaves", at);
    expect(held.leaving.number == number, "another number", at);
    expect(held.leaving.port == port && held.leaving.length == length, "another port or length", at);
    expect(memcmp(held.leaving.bytes, whole, sizeof whole) == 0, "other bytes", at);
    expect(is_as_expected(&ports) && is_as_expected(&packet), "the ports or the packet have changed", at);
    expect(memcmp(held.before, guards, sizeof guards) == 0, "something was written before what leaves", at);
    expect(memcmp(held.after, guards, sizeof guards) == 0, "something was written after what leaves", at);
}

static void says_refused(uint8_t number, size_t at)
{
    says(THAWRIBBON_NOT_ROUTED, number, 0, NULL, 0, at);
}

/* It leaves as Type 0, as it is, not at all, and is refused: then all of what leaves is FFh again. */
static void verdicts(void)
{
    fresh_switch();
    says(THAWRIBBON_LEAVES, 0, 0, write_packet, 16, 0);
    send_request(THAWRIBBON_TRUSTED_WRITE, 0x80, 0x0B);
    says(THAWRIBBON_LEAVES, 0, 2, lent(&packet), 20, 1);
    send_request(THAWRIBBON_TYPE1_READ, 0x00, 0x0C);
    says(THAWRIBBON_LEAVES, 0, 2, lent(&packet), 12, 2);
    send_request(THAWRIBBON_TYPE1_READ, 0x00, 0x0D);
    says(THAWRIBBON_NO_PORT, 0, 0, NULL, 0, 3);
    send_request(THAWRIBBON_TRUSTED_WRITE, 0x00, 0x08);
    says_refused(THAWRIBBON_UNKNOWN_TYPE, 4);
}

/* A packet of every length, and pointers to nothing. */
static void packets_refused(void)
{
    size_t n;
    for (n = 0; n < LENGTHS; n++) {
        const size_t length = tried_length(n);
        fresh_switch();
        resize(&packet, length);
        if (length == 16) {
            says(THAWRIBBON_LEAVES, 0, 0, write_packet, 16, length);
        } else {
            says_refused(length < 12 ? THAWRIBBON_SHORT_PACKET : THAWRIBBON_WRONG_LENGTH, length);
        }
    }
    for (n = 0; n < POINTERS; n++) {
        lend_instead(&packet, pointer_to_nothing(n));
        says_refused(THAWRIBBON_SHORT_PACKET, n);
        fresh_switch();
        lend_instead(&ports, pointer_to_nothing(n));
        says(THAWRIBBON_NO_PORT, 0, 0, NULL, 0, n);
    }
}

/* Lists of 0 to 40 ports, of which the last has the bus, and a list that is a bad one. */
static void lists_refused(void)
{
    static const thawribbon_port meeting[2] = {{0x05, 0x05, 1}, {0x05, 0x05, 1}};
    thawribbon_port list[40];
    size_t count, n;
    for (count = 0; count <= 40; count++) {
        fresh_switch();
        for (n = 0; n < count; n++) {
            list[n].secondary = list[n].subordinate = (uint8_t)(0x05 + count - 1 - n);
            list[n].tcs = 0;
        }
        lend_ports(list, count);
        if (count == 0) {
            says(THAWRIBBON_NO_PORT, 0, 0, NULL, 0, count);
        } else if (count <= THAWRIBBON_PORTS) {
            says(THAWRIBBON_LEAVES, 0, count - 1, write_packet, 16, count);
        } else {
            says_refused(THAWRIBBON_BAD_DESCRIPTION, count);
        }
    }
    lend_ports(meeting, 2);
    says_refused(THAWRIBBON_BAD_DESCRIPTION, count);
}

static void draw_request(void)
{
    static const uint8_t types[8] = {0x04, 0x44, 0x05, 0x45, 0x1B, 0x5B, 0xC5, 0x00};
    const uint8_t byte_0 = types[draw() % 8], byte_2 = (uint8_t)(draw() % 4 == 0 ? draw() & 0xC0 : 0x00);
    send_request(byte_0, byte_2, (uint8_t)(draw() % 16));
    if (draw() % 8 == 0) {
        resize(&packet, (size_t)(draw() % 25));
    } else {
        lent(&packet)[7] = (uint8_t)(draw() % 8 == 0 ? draw() : draw() & 0x0F);
        lent(&packet)[11] = draw();
    }
}

/* Drawn packets: the helper says what thawribbon_route says. */
static void same_as_route(void)
{
    size_t n, counted[3] = {0, 0, 0};
    for (n = 0; n < 4000; n++) {
        thawribbon_routed routed;
        thawribbon_verdict verdict;
        fresh_switch();
        draw_request();
        routed = thawribbon_route(lent_ports(), ports_count(), lent(&packet), packet.length, lent(&leaving), leaving.length);
        verdict = thawribbon_verdict_of(routed);
        says(verdict, routed.number, routed.port, lent(&leaving), routed.length, n);
        counted[verdict]++;
    }
    expect(counted[THAWRIBBON_LEAVES] > 400, "too few packets leave", counted[THAWRIBBON_LEAVES]);
    expect(counted[THAWRIBBON_NO_PORT] > 400, "too few have no port", counted[THAWRIBBON_NO_PORT]);
    expect(counted[THAWRIBBON_NOT_ROUTED] > 400, "too few are refused", counted[THAWRIBBON_NOT_ROUTED]);
}

/* Only number 0 with a 1 in `leaves` says that a packet leaves. */
static void verdicts_told(void)
{
    unsigned number, leaves;
    for (number = 0; number < 256; number++) {
        for (leaves = 0; leaves < 256; leaves++) {
            thawribbon_routed routed = {12, 0, 0, 0};
            const thawribbon_verdict verdict = leaves == 1 ? THAWRIBBON_LEAVES : THAWRIBBON_NO_PORT;
            routed.number = (uint8_t)number;
            routed.leaves = (uint8_t)leaves;
            expect(thawribbon_verdict_of(routed) == (number == 0 ? verdict : THAWRIBBON_NOT_ROUTED), "another verdict", number);
        }
    }
}

static void leaving_texts(void)
{
    thawribbon_leaving told = {THAWRIBBON_LEAVES, 0, 0, 12, {0x05}};
    unsigned number;
    expect(strcmp(thawribbon_leaving_text(&told), "the packet leaves") == 0, "another text of what leaves", 0);
    told.verdict = THAWRIBBON_NO_PORT;
    expect(strncmp(thawribbon_leaving_text(&told), "Unsupported Request", 19) == 0, "another text of what has no port", 0);
    told.verdict = THAWRIBBON_NOT_ROUTED;
    for (number = 1; number <= 6; number++) {
        told.number = (uint8_t)number;
        expect(strcmp(thawribbon_leaving_text(&told), thawribbon_text(number)) == 0, "another text of a refusal", number);
    }
}

void switches(void)
{
    group("switch, the three verdicts", verdicts);
    group("switch, packets that are refused", packets_refused);
    group("switch, lists that are refused", lists_refused);
    group("switch, 4,000 drawn packets as thawribbon_route answers them", same_as_route);
    group("helpers, the verdict of every answer of a router", verdicts_told);
    group("helpers, a text for everything that leaves", leaving_texts);
}
