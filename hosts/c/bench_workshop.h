/* New boards: structures, offsets and a space to lend, each with a guard before and after it, and what is expected of the calls over them. */
#ifndef BENCH_WORKSHOP_H
#define BENCH_WORKSHOP_H

#include "thawribbon.h"

/* The most structures, and the most offsets, that are lent. */
enum { MOST_LENT = 964 };

/* Lends so many structures from now on, each of this length, with ID 0023h and version 1. */
void lend_structures(size_t count, unsigned length);

/* How many are lent. */
size_t structures_count(void);

/* The lent structure at this place, to be changed. */
thawribbon_structure *structure_at(size_t place);

/* Lends so many offsets from now on, each FFFFh: a room for the planner, and a layout for the checker and the writer. */
void lend_offsets(size_t count);

/* The lent offset at this place, to be changed. */
uint16_t *offset_at(size_t place);

/* Lends a layout in which each of the lent structures stands at the first multiple of 4 behind the one before. */
void lend_packed(void);

/* Lends a space of so many bytes from now on, each of this value. */
void lend_space(uint8_t value, size_t length);
uint8_t *space_at(size_t place);

/* Lends these pointers with length 0 in the place of structures and offsets. */
void lend_nothing(const void *structures, void *offsets);

/* What is lent is answered with this number by the planner, the checker or the writer, and nothing has changed but what a 0 changes: the
 * offsets are the lowest, and the header words are those of the layout. */
void is_planned(uint8_t number, size_t at);
void is_checked(uint8_t number, size_t at);
void is_written(uint8_t number, size_t at);

/* The number that each gets, worked out a second way: by the words of document 02, pair by pair. */
uint8_t planned_again(void);
uint8_t checked_again(void);

/* Drawn structures that may be laid out, in such numbers and lengths that they often just fit. */
void lend_drawn_structures(void);

#endif
