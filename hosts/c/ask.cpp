// thawribbon.h from C++17: the asking side over a board, P1 to P3, and what is refused. Prints one line, and ends with 0 only if all is as it
// should be.
#include "thawribbon.h"

#include <stdio.h>
#include <string.h>

namespace {

thawribbon_bytes ordinary, trusted, rules, marks;

// What is heard of a request, with its number, what is said, and the first data byte.
struct Expected {
    thawribbon_parts parts;
    thawribbon_asked asked;
    uint8_t number;
    uint8_t said;
    uint8_t data;
};

bool hears(thawribbon_board &board, const Expected &expected)
{
    thawribbon_heard heard;
    const thawribbon_asked asked = thawribbon_board_ask(&board, expected.parts, &heard);
    if (asked != expected.asked) {
        printf("FAILED: %s\n", thawribbon_asked_text(asked, &heard));
        return false;
    }
    return heard.number == expected.number && heard.said == expected.said && heard.data[0] == expected.data;
}

// The same without a board: P2's packet, and its completion for another tag.
bool is_alone()
{
    const thawribbon_parts write = {0x004, THAWRIBBON_TYPE0_WRITE, {1, 0}, 7, 0x05, 3, 0, 0x0F, {0x11, 0x22, 0x33, 0x44}};
    const uint8_t packet[16] = {0x44, 0, 0, 1, 1, 0, 7, 0x0F, 0x05, 0x18, 0, 4, 0x11, 0x22, 0x33, 0x44};
    const uint8_t completion[12] = {0x0A, 0, 0, 0, 5, 0x18, 0, 4, 1, 0, 8, 0};
    uint8_t request[THAWRIBBON_REQUEST];
    thawribbon_heard heard;
    return thawribbon_write_request(write, request, sizeof request).length == 16 && memcmp(request, packet, 16) == 0 &&
           thawribbon_read_completion(completion, sizeof completion).said == THAWRIBBON_SAID_DONE &&
           thawribbon_hear(write, completion, sizeof completion, &heard) == THAWRIBBON_ASKED_OTHER && heard.tag == 8;
}

} // namespace

int main()
{
    const thawribbon_parts read = {0x004, THAWRIBBON_TRUSTED_READ, {1, 0}, 8, 0x05, 3, 0, 0x0F, {0, 0, 0, 0}};
    const thawribbon_parts write = {0x004, THAWRIBBON_TYPE0_WRITE, {1, 0}, 7, 0x05, 3, 0, 0x0F, {0x11, 0x22, 0x33, 0x44}};
    const thawribbon_parts bad = {0x002, THAWRIBBON_TYPE0_READ, {1, 0}, 9, 0x05, 3, 0, 0x0F, {0, 0, 0, 0}};
    const Expected day[4] = {
        {read, THAWRIBBON_ASKED_UNSUPPORTED, THAWRIBBON_SERVED, THAWRIBBON_SAID_UNSUPPORTED, 0},
        {write, THAWRIBBON_ASKED_DONE, THAWRIBBON_SERVED, THAWRIBBON_SAID_DONE, 0},
        {read, THAWRIBBON_ASKED_DONE, THAWRIBBON_SERVED, THAWRIBBON_SAID_DATA, 0x08},
        {bad, THAWRIBBON_ASKED_REFUSED, THAWRIBBON_BAD_DESCRIPTION, THAWRIBBON_SAID_NOTHING, 0},
    };
    thawribbon_board board = {{0, 0x104, 0x00C, THAWRIBBON_EDITION_1}, THAWRIBBON_FRESH,
                              {&ordinary, &rules, &marks}, {&trusted, &rules, &thawribbon_no_marks}};
    memset(rules.at + 0x004, 0xFF, 4);
    trusted.at[0x004] = 0x08;
    for (const Expected &expected : day) {
        if (!hears(board, expected)) {
            return 1;
        }
    }
    if (!is_alone()) {
        return 1;
    }
    printf("ok with thawribbon %s\n", THAWRIBBON_VERSION);
    return 0;
}
