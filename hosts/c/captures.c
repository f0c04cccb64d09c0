/* What a board is told and what it keeps, through thawribbon_serve and thawribbon_reset: every A, B, function number and capture. */
#include "first_day.h"

#include "bench_board.h"
#include "groups.h"

#include <string.h>

static void described(uint32_t a, uint32_t b, int well)
{
    fresh_board();
    description.a = a;
    description.b = b;
    kept = five_three;
    send_packet(trusted_read, 12);
    if (well) {
        answers(read_back, 16, five_three, NULL, NULL, a == 0x104 ? b : a);
    } else {
        refuses(THAWRIBBON_BAD_DESCRIPTION, a == 0x104 ? b : a);
    }
}

/* Each place near an end of its range, near the largest numbers, and with bits set above those of an offset. */
static void a_and_b(void)
{
    uint32_t place, bit;
    for (place = 0; place <= 0x1010; place = place == 0x110 ? 0xFF0 : place + 1) {
        described(place, 0x00C, place % 4 == 0 && place >= 0x104 && place <= 0xFFC);
        described(0x104, place, place % 4 == 0 && place >= 0x00C && place <= 0xFFC);
    }
    for (place = UINT32_MAX; place > UINT32_MAX - 16; place--) {
        described(place, 0x00C, 0);
        described(0x104, place, 0);
    }
    for (bit = 12; bit < 32; bit++) {
        described(((uint32_t)1 << bit) + 0x104, 0x00C, 0);
        described(0x104, ((uint32_t)1 << bit) + 0x00C, 0);
    }
}

static void functions(void)
{
    unsigned function;
    for (function = 0; function < 256; function++) {
        uint8_t byte_9 = (uint8_t)(0x18 | (function & 7)), completion[16];
        memcpy(completion, read_back, 16);
        completion[5] = byte_9;
        fresh_board();
        description.function = (uint8_t)function;
        kept = five_three;
        send_packet(trusted_read, 12);
        put(&packet, 9, &byte_9, 1);
        if (function <= 7) {
            answers(completion, 16, five_three, NULL, NULL, function);
        } else {
            refuses(THAWRIBBON_BAD_DESCRIPTION, function);
        }
    }
}

/* All 256 values of captured: 0 means nothing, any other that bus and device are captured. */
static void captured_values(void)
{
    unsigned captured;
    for (captured = 0; captured < 256; captured++) {
        fresh_board();
        kept = five_three;
        kept.captured = (uint8_t)captured;
        send_packet(trusted_read, 11);
        refuses(THAWRIBBON_SHORT_PACKET, captured);
        send_packet(trusted_read, 12);
        if (captured == 0) {
            answers(unsupported, 12, fresh_capture, NULL, NULL, captured);
        } else {
            answers(read_back, 16, five_three, NULL, NULL, captured);
        }
    }
}

/* A device over 31 counts only where it is captured. */
static void captured_devices(void)
{
    unsigned device;
    for (device = 0; device < 256; device++) {
        fresh_board();
        send_packet(write_packet, 16);
        kept.device = (uint8_t)device;
        kept.captured = 0xFF;
        if (device > 31) {
            refuses(THAWRIBBON_BAD_DESCRIPTION, device);
        }
        kept.captured = 0;
        answers(written, 12, five_three, &ordinary, landed, device);
    }
}

static void reset(void)
{
    unsigned value;
    for (value = 0; value < 256; value++) {
        thawribbon_capture given = {0, 0xFF, 0xFF};
        given.captured = (uint8_t)value;
        expect(same_capture(thawribbon_reset(given), fresh_capture), "something is captured", value);
    }
    fresh_board();
    send_packet(write_packet, 16);
    answers(written, 12, five_three, &ordinary, landed, 256);
    kept = thawribbon_reset(kept);
    send_packet(trusted_read, 12);
    answers(unsupported, 12, fresh_capture, NULL, NULL, 256);
}

void captures(void)
{
    group("serve, every A and B", a_and_b);
    group("serve, every function number", functions);
    group("serve, every value of captured", captured_values);
    group("serve, every captured device", captured_devices);
    group("reset", reset);
}
