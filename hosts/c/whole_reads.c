/* Reads through thawribbon_serve: all four bytes of the word, whatever the enables, in either space and at A. */
#include "first_day.h"

#include "bench_board.h"
#include "groups.h"

#include <string.h>

/* A read: by byte 0, bytes 10 and 11, and what it gives. Every word here has other bytes, and none of them is 00h. */
typedef struct read_of {
    uint8_t code;
    uint8_t offset[2];
    uint8_t given[4];
} read_of;

enum { READS = 3, ENABLES = 16 };
static const read_of reads_of[READS] = {
    {THAWRIBBON_TYPE0_READ, {0x03, 0xA8}, {0xA0, 0xA1, 0xA2, 0xA3}},
    {THAWRIBBON_TYPE0_READ, {0x01, 0x04}, {0xC0, 0xC1, 0xC2, 0xC3}},
    {THAWRIBBON_TRUSTED_READ, {0x03, 0xA8}, {0x80, 0x81, 0x82, 0x83}},
};
static const uint8_t stale[4] = {0xD0, 0xD1, 0xD2, 0xD3};

/* A board that has captured, with those words in both spaces, and other bytes than at B stored at A. */
static void board_with_words(void)
{
    fresh_board();
    kept = five_three;
    put(&ordinary, 0x3A8, reads_of[0].given, 4);
    put(&ordinary, 0x104, stale, 4);
    put(&trusted, 0x00C, reads_of[1].given, 4);
    put(&trusted, 0x3A8, reads_of[2].given, 4);
}

/* The read, with these enables and byte 2, gives its four bytes, and changes nothing. */
static void gives(size_t which, uint8_t enables, uint8_t two, size_t length)
{
    uint8_t completion[16];
    memcpy(completion, read_back, THAWRIBBON_DATA);
    memcpy(completion + THAWRIBBON_DATA, reads_of[which].given, 4);
    board_with_words();
    send_packet(trusted_read, 12);
    resize(&packet, length);
    put(&packet, 0, &reads_of[which].code, 1);
    put(&packet, 2, &two, 1);
    put(&packet, 7, &enables, 1);
    put(&packet, 10, reads_of[which].offset, 2);
    answers(completion, 16, five_three, NULL, NULL, 16 * which + enables);
}

static void under_every_enable(void)
{
    size_t which, enables;
    for (which = 0; which < READS; which++) {
        for (enables = 0; enables < ENABLES; enables++) {
            gives(which, (uint8_t)enables, 0x00, 12);
        }
    }
}

static void poisoned_or_with_a_digest(void)
{
    size_t which, enables;
    for (which = 0; which < READS; which++) {
        for (enables = 0; enables < ENABLES; enables++) {
            gives(which, (uint8_t)enables, 0x40, 12);
            gives(which, (uint8_t)enables, 0x80, 16);
        }
    }
}

void whole_reads(void)
{
    group("serve, a read under every enable gives all four bytes, in both spaces and at A", under_every_enable);
    group("serve, the same of reads that are poisoned or have a digest", poisoned_or_with_a_digest);
}
