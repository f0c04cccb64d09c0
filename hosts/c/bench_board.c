#include "bench_board.h"

#include "groups.h"

thawribbon_description description;
thawribbon_capture kept;
buffer ordinary, ordinary_rules, ordinary_marks, trusted, trusted_rules, trusted_marks, packet, reply;

const uint8_t trusted_read[12] = {0x1B, 0x00, 0x00, 0x01, 0x01, 0x00, 0x08, 0x0F, 0x05, 0x18, 0x00, 0x04};
const uint8_t write_packet[16] = {0x44, 0x00, 0x00, 0x01, 0x01, 0x00, 0x07, 0x0F,
                                  0x05, 0x18, 0x00, 0x04, 0x11, 0x22, 0x33, 0x44};
const uint8_t unsupported[12] = {0x0A, 0x00, 0x00, 0x00, 0x00, 0x00, 0x20, 0x04, 0x01, 0x00, 0x08, 0x00};
const uint8_t written[12] = {0x0A, 0x00, 0x00, 0x00, 0x05, 0x18, 0x00, 0x04, 0x01, 0x00, 0x07, 0x00};
const uint8_t read_back[16] = {0x4A, 0x00, 0x00, 0x01, 0x05, 0x18, 0x00, 0x04,
                               0x01, 0x00, 0x08, 0x00, 0x08, 0x00, 0x00, 0x00};
const uint8_t landed[4] = {0x11, 0x22, 0x33, 0x44};
static const uint8_t all_writable[4] = {0xFF, 0xFF, 0xFF, 0xFF};
static const uint8_t trusted_start[4] = {0x08, 0x00, 0x00, 0x00};
const thawribbon_capture fresh_capture = THAWRIBBON_FRESH;
const thawribbon_capture five_three = {1, 0x05, 3};

void fresh_board(void)
{
    description.function = 0;
    description.a = 0x104;
    description.b = 0x00C;
    description.edition = THAWRIBBON_EDITION_1;
    kept = fresh_capture;
    fill(&ordinary, 0x51, THAWRIBBON_SPACE);
    fill(&ordinary_rules, 0x00, THAWRIBBON_SPACE);
    fill(&ordinary_marks, 0x00, THAWRIBBON_SPACE);
    fill(&trusted, 0x72, THAWRIBBON_SPACE);
    fill(&trusted_rules, 0x00, THAWRIBBON_SPACE);
    fill(&trusted_marks, 0x00, THAWRIBBON_SPACE);
    put(&ordinary_rules, 0x004, all_writable, 4);
    put(&trusted_rules, 0x004, all_writable, 4);
    put(&trusted, 0x004, trusted_start, 4);
    fill(&packet, 0x00, 0);
    fill(&reply, 0xEE, 18);
}

void send_packet(const uint8_t *bytes, size_t count)
{
    fill(&packet, 0x00, count);
    put(&packet, 0, bytes, count);
}

void remember_all(void)
{
    remember(&ordinary);
    remember(&ordinary_rules);
    remember(&ordinary_marks);
    remember(&trusted);
    remember(&trusted_rules);
    remember(&trusted_marks);
    remember(&packet);
    remember(&reply);
}

void all_as_expected(size_t at)
{
    expect(is_as_expected(&ordinary), "the ordinary space is not as it should be", at);
    expect(is_as_expected(&ordinary_rules), "the ordinary rules have changed", at);
    expect(is_as_expected(&ordinary_marks), "the ordinary marks have changed", at);
    expect(is_as_expected(&trusted), "the trusted space is not as it should be", at);
    expect(is_as_expected(&trusted_rules), "the trusted rules have changed", at);
    expect(is_as_expected(&trusted_marks), "the trusted marks have changed", at);
    expect(is_as_expected(&packet), "the packet has changed", at);
    expect(is_as_expected(&reply), "the reply is not as it should be", at);
}

static thawribbon_served serve(void)
{
    return thawribbon_serve(description, kept, lent(&ordinary), ordinary.length, lent(&ordinary_rules), ordinary_rules.length,
                            lent(&ordinary_marks), ordinary_marks.length, lent(&trusted), trusted.length, lent(&trusted_rules),
                            trusted_rules.length, lent(&trusted_marks), trusted_marks.length, lent(&packet), packet.length, lent(&reply),
                            reply.length);
}

int same_capture(thawribbon_capture one, thawribbon_capture other)
{
    return one.captured == other.captured && one.bus == other.bus && one.device == other.device;
}

void refuses(uint8_t number, size_t at)
{
    thawribbon_served served;
    remember_all();
    served = serve();
    expect(served.number == number, "another number", at);
    expect(served.length == 0, "a length that is not 0", at);
    expect(same_capture(served.capture, kept), "another capture than was given", at);
    all_as_expected(at);
}

void answers(const uint8_t *completion, size_t length, thawribbon_capture after, buffer *changed, const uint8_t *bytes, size_t at)
{
    thawribbon_served served;
    remember_all();
    should_hold(&reply, 0, completion, length);
    if (changed != NULL) {
        should_hold(changed, 0x004, bytes, 4);
    }
    served = serve();
    expect(served.number == THAWRIBBON_SERVED, "another number than 0", at);
    expect(served.length == length, "another length", at);
    expect(same_capture(served.capture, after), "another capture", at);
    all_as_expected(at);
    kept = served.capture;
}
