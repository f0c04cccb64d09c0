/* The two editions of byte 0 through thawribbon_serve: every type code with bit 7 clear and set, what comes before bit 7 and what behind
 * it, and numbers that are no edition. */
#include "first_day.h"

#include "bench_parts.h"
#include "bench_switch.h"
#include "groups.h"

#include <string.h>

enum { EDITIONS = 2, BIT_7 = 0x80 };
static const uint32_t known[EDITIONS] = {THAWRIBBON_EDITION_1, THAWRIBBON_EDITION_2};

/* A board of this edition, fresh or after it captured bus 05h and device 3. */
static void board_of(uint32_t edition, int has_captured)
{
    fresh_board();
    description.edition = edition;
    if (has_captured) {
        kept = five_three;
    }
}

/* Whether this edition refuses the lent packet, which has 12 bytes or more, for its bit 7. */
static int refuses_bit_7(uint32_t edition)
{
    return edition == THAWRIBBON_EDITION_2 && (lent(&packet)[0] & BIT_7) != 0;
}

/* The lent packet, which has no fault and is for the board's own function at 004h, is served as document 01 says of its byte 0 without bit
 * 7. */
static void is_served(size_t at)
{
    const uint8_t code = lent(&packet)[0] & 0x7F;
    const int is_type1 = (code & 0x3F) == 0x05, is_trusted = (code & 0x3F) == 0x1B, is_poisoned = (lent(&packet)[2] & 0x40) != 0;
    const int is_done = !(is_type1 || (is_trusted && kept.captured == 0) || (is_write(code) && is_poisoned));
    const thawribbon_capture after = code == THAWRIBBON_TYPE0_WRITE && is_done ? five_three : kept;
    buffer *const space = is_trusted ? &trusted : &ordinary;
    uint8_t completion[THAWRIBBON_REPLY] = {0x0A, 0, 0, 0, 0, 0, 0, 4, 1, 0, 7, 0};
    completion[4] = after.bus;
    completion[5] = (uint8_t)(after.device * 8);
    completion[6] = is_done ? THAWRIBBON_STATUS_SUCCESSFUL : THAWRIBBON_STATUS_UNSUPPORTED;
    if (is_done && !is_write(code)) {
        completion[0] = 0x4A;
        completion[3] = 1;
        memcpy(completion + THAWRIBBON_DATA, lent(space) + 0x004, 4);
    }
    answers(completion, completion[0] == 0x4A ? 16 : 12, after, is_done && is_write(code) ? space : NULL, landed, at);
}

/* Every type code with bit 7 clear and set, poisoned or not, with a digest or without, under both editions. */
static void every_code(void)
{
    size_t edition, code;
    unsigned flags;
    for (edition = 0; edition < EDITIONS; edition++) {
        for (code = 0; code < KINDS; code++) {
            for (flags = 0; flags < 16; flags++) {
                board_of(known[edition], (flags & 1) != 0);
                send_request((uint8_t)(kinds[code] | (flags & 2) << 6), (uint8_t)((flags & 0xC) << 4), 0x05);
                if (refuses_bit_7(known[edition])) {
                    refuses(THAWRIBBON_UNKNOWN_TYPE, flags);
                    lent(&packet)[0] = kinds[code];
                }
                is_served(flags);
            }
        }
    }
}

/* Every byte 0, on a packet as long as its type wants it, and on one that is 4 bytes longer. */
static void every_byte_0(void)
{
    size_t edition;
    unsigned byte_0;
    for (edition = 0; edition < EDITIONS; edition++) {
        for (byte_0 = 0; byte_0 < 256; byte_0++) {
            board_of(known[edition], 1);
            send_request((uint8_t)byte_0, 0x00, 0x05);
            if (is_kind((uint8_t)(byte_0 & 0x7F)) && !refuses_bit_7(known[edition])) {
                resize(&packet, packet.length + 4);
                refuses(THAWRIBBON_WRONG_LENGTH, byte_0);
                resize(&packet, packet.length - 4);
                is_served(byte_0);
            } else {
                refuses(THAWRIBBON_UNKNOWN_TYPE, byte_0);
                resize(&packet, packet.length + 4);
                refuses(THAWRIBBON_UNKNOWN_TYPE, byte_0);
            }
        }
    }
}

/* A packet of fewer than 12 bytes is refused with 3, whatever its bit 7. */
static void short_packets(void)
{
    size_t edition, code, length;
    for (edition = 0; edition < EDITIONS; edition++) {
        for (length = 0; length < 12; length++) {
            for (code = 0; code < KINDS; code++) {
                board_of(known[edition], 1);
                send_request((uint8_t)(kinds[code] | BIT_7), 0x00, 0x05);
                resize(&packet, length);
                refuses(THAWRIBBON_SHORT_PACKET, length);
            }
            fill(&packet, 0xFF, length);
            refuses(THAWRIBBON_SHORT_PACKET, length);
        }
    }
}

/* The lent packet has bit 7 set and another fault, of this number: edition 2 refuses it with 4, and edition 1 with that number. Without bit
 * 7 both give that number. */
static void has_two_faults(uint8_t number, size_t at)
{
    size_t edition;
    for (edition = 0; edition < EDITIONS; edition++) {
        description.edition = known[edition];
        refuses(refuses_bit_7(known[edition]) ? THAWRIBBON_UNKNOWN_TYPE : number, at);
    }
    lent(&packet)[0] &= 0x7F;
    for (edition = 0; edition < EDITIONS; edition++) {
        description.edition = known[edition];
        refuses(number, at);
    }
}

static void before_lengths(void)
{
    size_t code, n, whole;
    for (code = 0; code < KINDS; code++) {
        for (n = 12; n < LENGTHS; n++) {
            board_of(THAWRIBBON_EDITION_1, 1);
            send_request((uint8_t)(kinds[code] | BIT_7), 0x00, 0x05);
            whole = packet.length;
            resize(&packet, tried_length(n));
            if (packet.length != whole) {
                has_two_faults(THAWRIBBON_WRONG_LENGTH, packet.length);
            }
        }
    }
}

/* Each bit of TC, Attr, Length and the last enables, turned. */
static void before_fields(void)
{
    static const uint8_t fixed[8] = {0x00, 0x70, 0x33, 0xFF, 0x00, 0x00, 0x00, 0xF0};
    size_t code, place;
    unsigned bit;
    for (code = 0; code < KINDS; code++) {
        for (place = 0; place < 8; place++) {
            for (bit = 0; bit < 8; bit++) {
                if ((fixed[place] >> bit & 1) != 0) {
                    board_of(THAWRIBBON_EDITION_1, 1);
                    send_request((uint8_t)(kinds[code] | BIT_7), 0x00, 0x05);
                    lent(&packet)[place] ^= (uint8_t)(1U << bit);
                    has_two_faults(THAWRIBBON_WRONG_FIELD, place);
                }
            }
        }
    }
}

/* With this number in the place of an edition P2's packet is refused with 1, with bit 7 and without. */
static void is_no_edition(uint32_t edition)
{
    board_of(edition, 1);
    send_packet(write_packet, 16);
    refuses(THAWRIBBON_BAD_DESCRIPTION, edition);
    lent(&packet)[0] |= BIT_7;
    refuses(THAWRIBBON_BAD_DESCRIPTION, edition);
}

/* Numbers up to 600, those about the ends of a byte, of 16 bits and of 32, and the two editions with one bit more. */
static void other_editions(void)
{
    static const uint32_t ends[7] = {0xFFFF, 0x10000, 0x10000 + 1, 0x10000 + 2, UINT32_MAX - 2, UINT32_MAX - 1, UINT32_MAX};
    uint32_t edition, bit;
    size_t n;
    is_no_edition(0);
    for (edition = 3; edition <= 600; edition++) {
        is_no_edition(edition);
    }
    for (n = 0; n < sizeof ends / sizeof ends[0]; n++) {
        is_no_edition(ends[n]);
    }
    for (bit = 2; bit < 32; bit++) {
        is_no_edition((uint32_t)1 << bit);
        is_no_edition(((uint32_t)1 << bit) + THAWRIBBON_EDITION_1);
        is_no_edition(((uint32_t)1 << bit) + THAWRIBBON_EDITION_2);
    }
    is_no_edition(THAWRIBBON_EDITION_1 | THAWRIBBON_EDITION_2);
}

/* Causes of 1 to 6 at once, each there or not: an edition that is none, a reply of 15 bytes, 11 bytes, bit 7, 17 bytes, a wrong field. The
 * lowest is given; under edition 1 bit 7 is no cause. */
static void causes_of(unsigned causes, uint32_t edition, uint32_t none)
{
    const unsigned counted = edition == THAWRIBBON_EDITION_2 ? causes : causes & ~8U;
    uint8_t lowest = 1;
    board_of((causes & 1) != 0 ? none : edition, 1);
    send_request((uint8_t)(THAWRIBBON_TYPE0_WRITE | (causes & 8) << 4), 0x00, 0x05);
    if ((causes & 32) != 0) {
        lent(&packet)[7] = 0x1F;
    }
    if ((causes & 16) != 0) {
        resize(&packet, 17);
    }
    if ((causes & 4) != 0) {
        resize(&packet, 11);
    }
    if ((causes & 2) != 0) {
        resize(&reply, 15);
    }
    while (lowest <= 6 && (counted >> (lowest - 1) & 1) == 0) {
        lowest++;
    }
    if (lowest <= 6) {
        refuses(lowest, causes);
    } else {
        is_served(causes);
    }
}

static void lowest_number(void)
{
    static const uint32_t none[7] = {0, 3, 255, 256 + 1, 256 + 2, 0x10000 + 1, UINT32_MAX};
    size_t edition, n;
    unsigned causes;
    for (edition = 0; edition < EDITIONS; edition++) {
        for (causes = 0; causes < 64; causes++) {
            for (n = 0; n < ((causes & 1) != 0 ? sizeof none / sizeof none[0] : 1); n++) {
                causes_of(causes, known[edition], none[n]);
            }
        }
    }
}

/* A description as a host wrote it before there were editions, without names and with them: compilers may warn of the first. */
#if defined(__GNUC__)
#pragma GCC diagnostic push
#pragma GCC diagnostic ignored "-Wmissing-field-initializers"
#endif
static const thawribbon_description by_place = {0, 0x104, 0x00C};
static const thawribbon_description by_name = {.function = 0, .a = 0x104, .b = 0x00C};
#if defined(__GNUC__)
#pragma GCC diagnostic pop
#endif

static void no_edition(void)
{
    const thawribbon_description *const old[2] = {&by_place, &by_name};
    size_t n;
    for (n = 0; n < 2; n++) {
        fresh_board();
        expect(old[n]->edition == 0, "an edition that nobody named", n);
        description = *old[n];
        send_packet(write_packet, 16);
        refuses(THAWRIBBON_BAD_DESCRIPTION, n);
        send_packet(trusted_read, 12);
        refuses(THAWRIBBON_BAD_DESCRIPTION, n);
        fill(&packet, 0x00, 0);
        refuses(THAWRIBBON_BAD_DESCRIPTION, n);
        description.edition = THAWRIBBON_EDITION_1;
        send_packet(write_packet, 16);
        answers(written, 12, five_three, &ordinary, landed, n);
    }
}

void editions(void)
{
    group("editions, every type code with bit 7 clear and set", every_code);
    group("editions, every byte 0", every_byte_0);
    group("editions, under 12 bytes bit 7 does not count", short_packets);
    group("editions, bit 7 before another length", before_lengths);
    group("editions, bit 7 before another field", before_fields);
    group("editions, numbers that are no edition", other_editions);
    group("editions, the lowest number", lowest_number);
    group("editions, a description without one", no_edition);
}
