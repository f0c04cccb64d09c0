// thawribbon.h from C++17: the helpers over a board, P1 to P3 and P5, and its editions. Prints one line, and ends with 0 only if all is as it
// should be.
#include "thawribbon.h"

#include <stdio.h>
#include <string.h>

namespace {

thawribbon_bytes ordinary, trusted, rules, marks;

// What the board answers, by its outcome and its first data byte, or 256 where there is none.
struct Expected {
    const uint8_t *packet;
    size_t length;
    thawribbon_outcome outcome;
    int data;
};

bool answers(thawribbon_board &board, const Expected &expected)
{
    thawribbon_answer answer;
    if (thawribbon_board_serve(&board, expected.packet, expected.length, &answer) != expected.outcome) {
        printf("FAILED: %s\n", thawribbon_answer_text(&answer));
        return false;
    }
    const uint8_t *data = thawribbon_data(&answer);
    return (data == nullptr ? 256 : data[0]) == expected.data;
}

// What a board of an edition makes of a Type 0 read with this byte 0.
bool makes(thawribbon_board board, uint32_t edition, uint8_t byte_0, thawribbon_outcome outcome, uint8_t number)
{
    const uint8_t read[12] = {byte_0, 0, 0, 1, 1, 0, 9, 0x0F, 0x05, 0x18, 0, 4};
    thawribbon_answer answer;
    board.description.edition = edition;
    return thawribbon_board_serve(&board, read, sizeof read, &answer) == outcome && answer.number == number;
}

// Bit 7 of byte 0 is ignored by edition 1, and refused by edition 2; without an edition everything is refused.
bool has_editions(const thawribbon_board &board)
{
    const thawribbon_description none{};
    return makes(board, THAWRIBBON_EDITION_1, 0x04, THAWRIBBON_DONE, THAWRIBBON_SERVED) &&
           makes(board, THAWRIBBON_EDITION_1, 0x84, THAWRIBBON_DONE, THAWRIBBON_SERVED) &&
           makes(board, THAWRIBBON_EDITION_2, 0x04, THAWRIBBON_DONE, THAWRIBBON_SERVED) &&
           makes(board, THAWRIBBON_EDITION_2, 0x84, THAWRIBBON_REFUSED, THAWRIBBON_UNKNOWN_TYPE) &&
           makes(board, none.edition, 0x04, THAWRIBBON_REFUSED, THAWRIBBON_BAD_DESCRIPTION);
}

} // namespace

int main()
{
    const uint8_t trusted_read[12] = {0x1B, 0, 0, 1, 1, 0, 8, 0x0F, 0x05, 0x18, 0, 4};
    const uint8_t write[16] = {0x44, 0, 0, 1, 1, 0, 7, 0x0F, 0x05, 0x18, 0, 4, 0x11, 0x22, 0x33, 0x44};
    const Expected day[4] = {
        {trusted_read, 12, THAWRIBBON_UNSUPPORTED_REQUEST, 256},
        {write, 16, THAWRIBBON_DONE, 256},
        {trusted_read, 12, THAWRIBBON_DONE, 0x08},
        {write, 15, THAWRIBBON_REFUSED, 256},
    };
    thawribbon_board board = {{0, 0x104, 0x00C, THAWRIBBON_EDITION_1}, THAWRIBBON_FRESH,
                              {&ordinary, &rules, &marks}, {&trusted, &rules, &thawribbon_no_marks}};
    memset(rules.at + 0x004, 0xFF, 4);
    trusted.at[0x004] = 0x08;
    for (const Expected &expected : day) {
        if (!answers(board, expected)) {
            return 1;
        }
    }
    if (!has_editions(board)) {
        printf("FAILED: an edition answers otherwise\n");
        return 1;
    }
    thawribbon_board_reset(&board);
    board.capture = thawribbon_fresh();
    if (board.capture.captured != 0 || ordinary.at[0x004] != 0x11) {
        return 1;
    }
    printf("ok with thawribbon %s\n", THAWRIBBON_VERSION);
    return 0;
}
