/* thawribbon_write_request: requests from their parts, every cause of a refusal, and every length of the buffer. */
#include "first_day.h"

#include "bench_board.h"
#include "bench_parts.h"
#include "groups.h"

#include <string.h>

static buffer room;

/* Into the lent buffer these parts are written with this number: then it holds their packet and the rest as lent, or all as lent. */
static void writes(thawribbon_parts parts, uint8_t number, size_t at)
{
    uint8_t bytes[THAWRIBBON_REQUEST];
    const size_t length = number == 0 ? packet_of(parts, bytes) : 0;
    thawribbon_written answer;
    remember(&room);
    if (length != 0) {
        should_hold(&room, 0, bytes, length);
    }
    answer = thawribbon_write_request(parts, lent(&room), room.length);
    expect(answer.number == number, "another number", at);
    expect(answer.length == length, "another length", at);
    expect(is_as_expected(&room), "the buffer is not as it should be", at);
}

static void lend_room(size_t length)
{
    fill(&room, 0xEE, length);
}

/* P1's packet and P2's, in buffers that have just their bytes. */
static void bench_packets(void)
{
    lend_room(12);
    writes(read_parts, 0, 0);
    expect(memcmp(lent(&room), trusted_read, 12) == 0, "another packet than P1's", 0);
    lend_room(16);
    writes(write_parts, 0, 1);
    expect(memcmp(lent(&room), write_packet, 16) == 0, "another packet than P2's", 0);
}

/* Every value of every part of a byte. */
static void parts_of_a_byte(void)
{
    unsigned value;
    lend_room(20);
    for (value = 0; value < 256; value++) {
        const uint8_t byte = (uint8_t)value;
        thawribbon_parts kind = of_kind(byte), device = write_parts, function = write_parts, enables = read_parts, rest = write_parts;
        writes(kind, is_kind(byte) ? 0 : 1, value);
        device.device = function.function = enables.enables = byte;
        writes(device, value <= 31 ? 0 : 1, value);
        writes(function, value <= 7 ? 0 : 1, value);
        writes(enables, value <= 15 ? 0 : 1, value);
        rest.bus = rest.tag = rest.requester[0] = byte;
        rest.requester[1] = rest.data[0] = rest.data[3] = (uint8_t)~byte;
        writes(rest, 0, value);
    }
}

/* Every offset up to 1004h, and some far out. */
static void offsets(void)
{
    static const uint32_t far_out[4] = {0x10000, 0x10004, 0xFFFFFFFC, UINT32_MAX};
    uint32_t n;
    lend_room(16);
    for (n = 0; n <= 0x1004 + 4; n++) {
        thawribbon_parts parts = of_kind(kinds[n % KINDS]);
        parts.offset = n <= 0x1004 ? n : far_out[n - 0x1005];
        writes(parts, parts.offset <= 0xFFC && parts.offset % 4 == 0 ? 0 : 1, n);
    }
}

/* Each cause of a 1, in a buffer of any length: it comes before 2. */
static void causes_of_1(thawribbon_parts parts, size_t at)
{
    thawribbon_parts kind = parts, device = parts, function = parts, high = parts, odd = parts, enables = parts;
    kind.kind |= 0x80;
    device.device = 32;
    function.function = 8;
    high.offset = 0x1000;
    odd.offset = 0x002;
    enables.enables = 16;
    writes(kind, 1, at);
    writes(device, 1, at);
    writes(function, 1, at);
    writes(high, 1, at);
    writes(odd, 1, at);
    writes(enables, 1, at);
}

/* Every length of the buffer, for each kind, and pointers to nothing. */
static void buffers(void)
{
    size_t n, kind;
    for (n = 0; n < LENGTHS + POINTERS; n++) {
        const size_t length = n < LENGTHS ? tried_length(n) : 0;
        for (kind = 0; kind < KINDS; kind++) {
            const size_t needed = is_write(kinds[kind]) ? 16 : 12;
            lend_room(length);
            if (n >= LENGTHS) {
                lend_instead(&room, pointer_to_nothing(n - LENGTHS));
            }
            causes_of_1(of_kind(kinds[kind]), length);
            writes(of_kind(kinds[kind]), length < needed ? 2 : 0, length);
        }
    }
}

void requests(void)
{
    group("request, P1's packet and P2's", bench_packets);
    group("request, every value of every part of a byte", parts_of_a_byte);
    group("request, offsets", offsets);
    group("request, every length of the buffer with every cause of a 1", buffers);
}
