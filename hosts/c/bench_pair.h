/* A board of two functions, with every buffer guarded, and what is expected of its answers. Packet and reply are those of the bench board. */
#ifndef BENCH_PAIR_H
#define BENCH_PAIR_H

#include "bench_board.h"

enum { PRIMARY, ALTERNATE, SIDES };
enum { ORDINARY, ORDINARY_RULES, ORDINARY_MARKS, TRUSTED, TRUSTED_RULES, TRUSTED_MARKS, PARTS };

/* One of the functions, with all that it lends. */
typedef struct bench_side {
    thawribbon_function description;
    thawribbon_capture kept;
    buffer parts[PARTS];
} bench_side;

extern bench_side sides[SIDES];
extern uint32_t pair_edition;

/* What the two functions have captured after both_captured: 05h and 3, 06h and 9. */
extern const thawribbon_capture captured_by[SIDES];
/* What the trusted spaces hold at 004h: 08 00 00 00, and 18 00 00 00. */
extern const uint8_t trusted_at_004[SIDES][4];

/* The function that is not this one. */
size_t other_side(size_t side);

/* Functions 0 and 1 of edition 1, with rules FFh at 004h in all four spaces, and no marks. A and B are 104h and 00Ch, 208h and 010h. All
 * other bytes tell the four spaces apart. */
void fresh_pair(void);

/* The same, after each captured. */
void both_captured(void);

/* Lends this packet from now on, for the function with this number: with device 3 and the bus that it has. */
void send_for(const uint8_t *bytes, size_t count, uint8_t function);
/* The same, for the bus and the device that a side of the pair captured in both_captured, and its function. */
void send_to(const uint8_t *bytes, size_t count, size_t side);
/* Gives it another byte 0. */
void send_as(uint8_t byte_0);

/* All buffers of the pair: what they hold now is what they should hold after the next call; and, after it, that they do. */
void remember_pair(void);
void pair_as_expected(size_t at);

/* What the two functions have captured, as it is handed over. */
thawribbon_captures kept_by_both(void);
int same_captures(thawribbon_captures one, thawribbon_captures other);

/* The board as a struct, over the same buffers. */
thawribbon_pair pair_of_sides(void);

/* The packet is refused with this number, and nothing changes. */
void pair_refuses(uint8_t number, size_t at);

/* The completion of the packet by a function that has this capture then, with data where it is not NULL; gives its length. */
size_t completed(uint8_t completion[THAWRIBBON_REPLY], size_t by, thawribbon_capture capture, uint8_t status, const uint8_t *data);

/* The packet is served by this function: it is an Unsupported Request; it is a read that gives these bytes; it is a write, after which the
 * function has this capture, and of which landed is left at 004h of a part, where that is not PARTS. Nothing else changes. */
void pair_is_unsupported(size_t by, size_t at);
void pair_reads(size_t by, const uint8_t data[4], size_t at);
void pair_writes(size_t by, thawribbon_capture after, size_t part, size_t at);

#endif
