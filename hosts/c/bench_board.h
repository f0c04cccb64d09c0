/* The board of the bench sheet, with every buffer guarded, and what is expected of its answers. */
#ifndef BENCH_BOARD_H
#define BENCH_BOARD_H

#include "buffers.h"
#include "thawribbon.h"

extern thawribbon_description description;
extern thawribbon_capture kept;
extern buffer ordinary, ordinary_rules, ordinary_marks, trusted, trusted_rules, trusted_marks, packet, reply;

/* P1's packet, P2's packet, and their completions and P3's. */
extern const uint8_t trusted_read[12], write_packet[16];
extern const uint8_t unsupported[12], written[12], read_back[16];
/* What P2's packet leaves at 004h. */
extern const uint8_t landed[4];
/* What is captured by a fresh board, and by P2's packet. */
extern const thawribbon_capture fresh_capture, five_three;

/* Function 0, edition 1, rules FFh at 004h in both spaces, no marks, trusted 004h holding 08 00 00 00. */
void fresh_board(void);

/* Lends this packet from now on. */
void send_packet(const uint8_t *bytes, size_t count);

/* All buffers of the board: what they hold now is what they should hold after the next call; and, after it, that they do. */
void remember_all(void);
void all_as_expected(size_t at);

int same_capture(thawribbon_capture one, thawribbon_capture other);

/* The packet is refused with this number, and nothing changes. */
void refuses(uint8_t number, size_t at);

/* The packet is served, and then the board has this capture. Four bytes land at 004h of a space, where one is given. */
void answers(const uint8_t *completion, size_t length, thawribbon_capture after, buffer *changed, const uint8_t *bytes, size_t at);

#endif
