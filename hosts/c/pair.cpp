// thawribbon.h from C++17: the helpers over a board of two functions, P1 to P3 at each, what names neither, what the primary's Dual-BDF record
// names, and a reset. Prints one line, and ends with 0 only if all is as it should be.
#include "thawribbon.h"

#include <stdio.h>
#include <string.h>

namespace {

thawribbon_bytes ordinary[2], trusted[2], rules;

// What the pair answers, by its outcome, the second byte of its completer ID, and its first data byte, or 256 where there is none.
bool answers(thawribbon_pair &pair, uint8_t byte_0, uint8_t byte_9, thawribbon_outcome outcome, uint8_t completer, int data)
{
    const uint8_t packet[16] = {byte_0, 0, 0, 1, 1, 0, 7, 0x0F, 0x05, byte_9, 0, 4, 0x11, 0x22, 0x33, 0x44};
    thawribbon_answer answer;
    if (thawribbon_pair_serve(&pair, packet, (byte_0 & 0x40) != 0 ? 16 : 12, &answer) != outcome) {
        printf("FAILED: %s\n", thawribbon_answer_text(&answer));
        return false;
    }
    const uint8_t *shown = thawribbon_data(&answer);
    return (shown == nullptr ? 256 : shown[0]) == data && answer.completion[5] == completer;
}

// The first packets of one of the functions; the other has captured nothing from them.
bool has_its_day(thawribbon_pair &pair, uint8_t function, int data)
{
    const uint8_t byte_9 = static_cast<uint8_t>(0x18 | function);
    return answers(pair, THAWRIBBON_TRUSTED_READ, byte_9, THAWRIBBON_UNSUPPORTED_REQUEST, function, 256) &&
           answers(pair, THAWRIBBON_TYPE0_WRITE, byte_9, THAWRIBBON_DONE, byte_9, 256) &&
           answers(pair, THAWRIBBON_TRUSTED_READ, byte_9, THAWRIBBON_DONE, byte_9, data);
}

// The same asked from its parts.
bool is_asked(thawribbon_pair &pair, uint8_t function, uint8_t data)
{
    thawribbon_heard heard;
    return thawribbon_pair_ask(&pair, thawribbon_read_parts(THAWRIBBON_TRUSTED_READ, 0x05, 3, function, 0x004), &heard) == THAWRIBBON_ASKED_DONE &&
           heard.data[0] == data && heard.completer[1] == (0x18 | function);
}

bool names(const thawribbon_pair &pair, thawribbon_named expected)
{
    thawribbon_alternate record;
    const thawribbon_named named = thawribbon_pair_dual_bdf(&pair, 0x040, &record);
    if (named != expected) {
        printf("FAILED: %s\n", thawribbon_named_text(named, &record));
    }
    return named == expected;
}

} // namespace

int main()
{
    const uint8_t record[12] = {0x09, 0, 0x0C, 0, 0xC0, 0x1E, 0xC0, 0, 0x02, 0, 0x20, 0x03};
    thawribbon_pair pair = {THAWRIBBON_EDITION_1,
                            {{2, 0x104, 0x00C}, THAWRIBBON_FRESH, {&ordinary[0], &rules, &thawribbon_no_marks},
                             {&trusted[0], &rules, &thawribbon_no_marks}},
                            {{5, 0x208, 0x010}, THAWRIBBON_FRESH, {&ordinary[1], &rules, &thawribbon_no_marks},
                             {&trusted[1], &rules, &thawribbon_no_marks}}};
    memset(rules.at + 0x004, 0xFF, 4);
    memcpy(ordinary[0].at + 0x040, record, sizeof record);
    trusted[0].at[0x004] = 0x08;
    trusted[1].at[0x004] = 0x18;
    if (!names(pair, THAWRIBBON_NAMED_UNCAPTURED) || !has_its_day(pair, 2, 0x08) || !has_its_day(pair, 5, 0x18) ||
        !names(pair, THAWRIBBON_NAMED_ALTERNATE) || !is_asked(pair, 2, 0x08) || !is_asked(pair, 5, 0x18)) {
        return 1;
    }
    // Type 1 for the alternate, and what names neither: the primary answers.
    if (!answers(pair, THAWRIBBON_TYPE1_READ, 0x1D, THAWRIBBON_UNSUPPORTED_REQUEST, 0x1A, 256) ||
        !answers(pair, THAWRIBBON_TYPE0_READ, 0x1F, THAWRIBBON_UNSUPPORTED_REQUEST, 0x1A, 256)) {
        return 1;
    }
    pair.alternate.description.function = 2;
    if (!names(pair, THAWRIBBON_NAMED_OTHER) || !answers(pair, THAWRIBBON_TYPE0_READ, 0x1A, THAWRIBBON_REFUSED, 0xFF, 256)) {
        return 1;
    }
    thawribbon_pair_reset(&pair);
    if (pair.primary.capture.captured != 0 || pair.alternate.capture.captured != 0) {
        return 1;
    }
    printf("ok with thawribbon %s\n", THAWRIBBON_VERSION);
    return 0;
}
