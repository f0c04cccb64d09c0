/* A switch with three ports, with every buffer guarded, and what is expected of its router's answers. The packet is that of bench_board.h. */
#ifndef BENCH_SWITCH_H
#define BENCH_SWITCH_H

#include "bench_board.h"
#include "buffers.h"
#include "thawribbon.h"

extern buffer ports, leaving;

/* The ports' buses: 05h to 07h, 08h alone, and 0Ah to 0Ch; the second port does not support TCS routing. A buffer of 22 bytes is lent for
 * what leaves, and a Type 1 write for bus 05h: P2's packet but for its type. */
void fresh_switch(void);

/* Lends this list of ports from now on. */
void lend_ports(const thawribbon_port *list, size_t count);

/* Lends a packet with this byte 0 and this bus from now on, as long as byte 0 and the digest bit of byte 2 want it. */
void send_request(uint8_t byte_0, uint8_t byte_2, uint8_t bus);

/* What is lent to the router, as it is handed over. */
const thawribbon_port *lent_ports(void);
size_t ports_count(void);

/* The packet leaves by the port at this place: its own bytes, but for this byte 0. */
void leaves_by(size_t port, uint8_t byte_0, size_t at);

/* No port has the packet's bus, and nothing changes. */
void has_no_port(size_t at);

/* The packet is refused with this number, and nothing changes. */
void is_not_routed(uint8_t number, size_t at);

#endif
