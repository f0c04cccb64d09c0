/* The parts of the bench sheet's requests, and of any. */
#ifndef BENCH_PARTS_H
#define BENCH_PARTS_H

#include "thawribbon.h"

/* P1's packet and P2's, from their parts. The read has data too, which is ignored. */
extern const thawribbon_parts read_parts, write_parts;

/* The six kinds. */
enum { KINDS = 6 };
extern const uint8_t kinds[KINDS];

/* The parts of a write of this kind, or a read. */
thawribbon_parts of_kind(uint8_t kind);

int is_kind(uint8_t kind);
int is_write(uint8_t kind);

/* The packet of parts without a fault, by document 01's places; gives its length. */
size_t packet_of(thawribbon_parts parts, uint8_t bytes[THAWRIBBON_REQUEST]);

/* What is heard where nothing is, with this number. */
thawribbon_heard nothing_heard(uint8_t number);

int same_heard(thawribbon_heard one, thawribbon_heard other);

#endif
