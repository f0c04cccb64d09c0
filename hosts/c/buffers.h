/*
 * Buffers to lend, with a guard before and after the lent part.
 *
 * Each knows what all of it should hold: so a byte that changed and should not have shows, also one that was not lent.
 */
#ifndef BUFFERS_H
#define BUFFERS_H

#include <stddef.h>
#include <stdint.h>

enum { MOST = 4100, GUARD = 0xA7, PAST_GUARDS = 0x5C };

/* The part that is lent goes from held + 1 on. A pointer of its own can be lent instead. */
typedef struct buffer {
    uint8_t held[MOST + 2];
    uint8_t expected[MOST + 2];
    size_t length;
    uint8_t *instead;
    int has_instead;
} buffer;

/* What is handed to the library. */
uint8_t *lent(buffer *one);

/* A lent part of so many bytes, all the same. */
void fill(buffer *one, uint8_t value, size_t length);

/* Gives the lent part another length: what is new of it is zeros. */
void resize(buffer *one, size_t length);

/* Lends another pointer, with length 0. */
void lend_instead(buffer *one, uint8_t *pointer);

/* Sets bytes of the lent part. */
void put(buffer *one, size_t at, const uint8_t *bytes, size_t count);

/* Before a call: it should leave everything as it is. */
void remember(buffer *one);

/* After remember: it should write these bytes. */
void should_hold(buffer *one, size_t at, const uint8_t *bytes, size_t count);

/* After a call: every byte, lent or not, is as it should be. */
int is_as_expected(const buffer *one);

/* The lengths that every buffer is tried with, for n below LENGTHS: 0 to 20, and 4,090 to 4,100. */
enum { LENGTHS = 32 };
size_t tried_length(size_t n);

/* The pointers that are lent with length 0, for n below POINTERS: none of them is followed. */
enum { POINTERS = 3 };
uint8_t *pointer_to_nothing(size_t n);

#endif
