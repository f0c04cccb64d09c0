/* thawribbon_read_completion: completions read back, every fault with its number, and the lowest where there are several. */
#include "first_day.h"

#include "bench_board.h"
#include "bench_parts.h"
#include "groups.h"

/* What is said by a completion without a fault. */
static thawribbon_heard heard_of(const uint8_t *bytes, size_t length)
{
    const uint8_t with_data = THAWRIBBON_SAID_DATA, without = bytes[6] == 0x00 ? THAWRIBBON_SAID_DONE : THAWRIBBON_SAID_UNSUPPORTED;
    thawribbon_heard heard = {0, 0, {bytes[4], bytes[5]}, {bytes[8], bytes[9]}, bytes[10], {0, 0, 0, 0}};
    size_t at;
    heard.said = length == 16 ? with_data : without;
    for (at = THAWRIBBON_DATA; at < length; at++) {
        heard.data[at - THAWRIBBON_DATA] = bytes[at];
    }
    return heard;
}

/* The lent completion is read with this number: then its fields are told, or nothing is. */
static void reads(uint8_t number, size_t at)
{
    thawribbon_heard heard;
    remember(&packet);
    heard = thawribbon_read_completion(lent(&packet), packet.length);
    expect(heard.number == number, "another number", at);
    expect(same_heard(heard, number == 0 ? heard_of(lent(&packet), packet.length) : nothing_heard(number)), "another completion is told", at);
    expect(is_as_expected(&packet), "the completion has changed", at);
}

/* P1's, P2's and P3's. */
static void bench_completions(void)
{
    send_packet(unsupported, 12);
    reads(0, 1);
    expect(heard_of(unsupported, 12).said == THAWRIBBON_SAID_UNSUPPORTED, "P1 is not unsupported", 1);
    send_packet(written, 12);
    reads(0, 2);
    expect(heard_of(written, 12).said == THAWRIBBON_SAID_DONE, "P2 is not done", 2);
    send_packet(read_back, 16);
    reads(0, 3);
    expect(heard_of(read_back, 16).data[0] == 0x08, "P3 has other data", 3);
}

/* Every length with each first byte, and with one that no completion has; and pointers to nothing. */
static void completion_lengths(void)
{
    static const uint8_t firsts[3] = {0x4A, 0x0A, 0x44};
    static const size_t whole[3] = {16, 12, 0};
    size_t n, which;
    for (n = 0; n < LENGTHS * 3; n++) {
        const size_t length = tried_length(n / 3);
        which = n % 3;
        send_packet(which == 0 ? read_back : written, which == 0 ? 16 : 12);
        resize(&packet, length);
        if (length > 0) {
            lent(&packet)[0] = firsts[which];
        }
        if (length < 12) {
            reads(3, n);
        } else if (which == 2) {
            reads(4, n);
        } else {
            reads(length == whole[which] ? 0 : 5, n);
        }
    }
    for (n = 0; n < POINTERS; n++) {
        lend_instead(&packet, pointer_to_nothing(n));
        reads(3, n);
    }
}

/* Whether a reply with this first byte has this byte at this place. */
static int is_sent(uint8_t first, size_t at, uint8_t byte)
{
    switch (at) {
    case 1:
    case 2:
    case 11:
        return byte == 0x00;
    case 3:
        return byte == (first == 0x4A ? 1 : 0);
    case 6:
        return byte == 0x00 || (first == 0x0A && byte == 0x20);
    case 7:
        return byte == 0x04;
    default:
        return 1;
    }
}

/* Every byte at every place of P1's, P2's and P3's completion. */
static void completion_bytes(void)
{
    static const uint8_t *const good[3] = {unsupported, written, read_back};
    static const size_t lengths[3] = {12, 12, 16};
    size_t which, at;
    unsigned byte;
    for (which = 0; which < 3; which++) {
        for (at = 1; at < lengths[which]; at++) {
            for (byte = 0; byte < 256; byte++) {
                send_packet(good[which], lengths[which]);
                lent(&packet)[at] = (uint8_t)byte;
                reads(is_sent(good[which][0], at, (uint8_t)byte) ? 0 : 6, at);
            }
        }
    }
}

/* Every first byte, with 12 and with 16 bytes. */
static void first_bytes(void)
{
    unsigned first;
    for (first = 0; first < 256; first++) {
        send_packet(written, 12);
        lent(&packet)[0] = (uint8_t)first;
        reads(first == 0x0A ? 0 : first == 0x4A ? 5 : 4, first);
        send_packet(read_back, 16);
        lent(&packet)[0] = (uint8_t)first;
        reads(first == 0x4A ? 0 : first == 0x0A ? 5 : 4, first);
    }
}

/* All four faults at once, which are mended one after the other. */
static void lowest_first(void)
{
    send_packet(read_back, 11);
    lent(&packet)[0] = 0x44;
    lent(&packet)[7] = 0x05;
    reads(3, 0);
    resize(&packet, 15);
    reads(4, 1);
    lent(&packet)[0] = 0x4A;
    reads(5, 2);
    resize(&packet, 16);
    reads(6, 3);
    lent(&packet)[7] = 0x04;
    reads(0, 4);
}

void completions(void)
{
    group("completion, P1's, P2's and P3's", bench_completions);
    group("completion, every length", completion_lengths);
    group("completion, every byte at every place", completion_bytes);
    group("completion, every first byte", first_bytes);
    group("completion, the lowest number", lowest_first);
}
