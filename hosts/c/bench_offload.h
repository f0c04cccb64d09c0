/* Multicast: capabilities as they lie in a space, and a guarded list of ports with what is expected of an address that is judged by it. */
#ifndef BENCH_OFFLOAD_H
#define BENCH_OFFLOAD_H

#include "thawribbon.h"

/* The bytes of a capability. */
enum { CAPABILITY = 0x28 };

/* An enabled capability: groups 0 to 3 of 1000h addresses each, from FOUR_AT on. It receives nothing and blocks nothing. */
#define FOUR_AT 0x800000000U
extern const thawribbon_groups four_groups, no_groups;

/* Writes a capability that has these fields, each within its bits. All bits that are no field's are 0. */
void write_capability(thawribbon_groups groups, uint8_t bytes[CAPABILITY]);

/* The fields of these bytes, read a second way, and the number that they get. */
thawribbon_groups fields_of(const uint8_t bytes[CAPABILITY]);
uint8_t number_of(thawribbon_groups groups);

int same_groups(thawribbon_groups one, thawribbon_groups other);

/* A register in which the bit for this group is set, and no other. */
uint64_t only(unsigned group);

/* Lends a list of so many ports from now on, each with these fields. */
enum { MOST_LISTED = 64 };
void lend_alike(thawribbon_groups groups, size_t count);

/* The port at this place of the lent list, to be changed. */
thawribbon_groups *listed(size_t place);

/* What becomes of a packet for this address, which enters here: each by itself, and the whole answer. The list does not change. */
void hits_nothing(size_t entering, uint64_t address, size_t at);
void is_dropped(size_t entering, uint64_t address, unsigned group, size_t at);
void goes_to(size_t entering, uint64_t address, unsigned group, uint32_t ports, size_t at);
void is_not_judged(size_t entering, uint64_t address, size_t at);
void is_answered(size_t entering, uint64_t address, thawribbon_judged answer, size_t at);

/* What becomes of a packet by the lent list, which is a good one, worked out a second way: group by group, by addition alone. */
thawribbon_judged judged_again(size_t entering, uint64_t address);

/* Drawn numbers of 64 bits; and an address, most often at an edge of one of these groups. */
uint64_t draw_long(void);
uint64_t draw_address(thawribbon_groups groups);

/* Drawn fields that a reading can give, often with all groups, and often near the largest address. */
thawribbon_groups draw_groups(void);

#endif
