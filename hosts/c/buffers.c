#include "buffers.h"

#include <string.h>

uint8_t *lent(buffer *one)
{
    return one->has_instead ? one->instead : one->held + 1;
}

void fill(buffer *one, uint8_t value, size_t length)
{
    one->has_instead = 0;
    one->length = 0;
    resize(one, length);
    memset(one->held + 1, value, length);
}

void resize(buffer *one, size_t length)
{
    if (length > one->length) {
        memset(one->held + 1 + one->length, 0, length - one->length);
    }
    one->held[0] = GUARD;
    one->held[1 + length] = GUARD;
    if (length < MOST) {
        memset(one->held + 2 + length, PAST_GUARDS, MOST - length);
    }
    one->length = length;
}

void lend_instead(buffer *one, uint8_t *pointer)
{
    resize(one, 0);
    one->instead = pointer;
    one->has_instead = 1;
}

void put(buffer *one, size_t at, const uint8_t *bytes, size_t count)
{
    memcpy(one->held + 1 + at, bytes, count);
}

void remember(buffer *one)
{
    memcpy(one->expected, one->held, sizeof one->held);
}

void should_hold(buffer *one, size_t at, const uint8_t *bytes, size_t count)
{
    memcpy(one->expected + 1 + at, bytes, count);
}

int is_as_expected(const buffer *one)
{
    return memcmp(one->held, one->expected, sizeof one->held) == 0;
}

size_t tried_length(size_t n)
{
    return n <= 20 ? n : 4090 + (n - 21);
}

uint8_t *pointer_to_nothing(size_t n)
{
    return n == 0 ? NULL : (uint8_t *)(n == 1 ? (uintptr_t)1 : UINTPTR_MAX);
}
