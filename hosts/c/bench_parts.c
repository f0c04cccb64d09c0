#include "bench_parts.h"

#include <string.h>

const thawribbon_parts read_parts = {0x004, 0x1B, {0x01, 0x00}, 0x08, 0x05, 3, 0, 0x0F, {0x55, 0x66, 0x77, 0x88}};
const thawribbon_parts write_parts = {0x004, 0x44, {0x01, 0x00}, 0x07, 0x05, 3, 0, 0x0F, {0x11, 0x22, 0x33, 0x44}};
const uint8_t kinds[KINDS] = {0x04, 0x44, 0x05, 0x45, 0x1B, 0x5B};

thawribbon_parts of_kind(uint8_t kind)
{
    thawribbon_parts parts = write_parts;
    parts.kind = kind;
    return parts;
}

int is_kind(uint8_t kind)
{
    return memchr(kinds, kind, sizeof kinds) != NULL;
}

int is_write(uint8_t kind)
{
    return kind == 0x44 || kind == 0x45 || kind == 0x5B;
}

size_t packet_of(thawribbon_parts parts, uint8_t bytes[THAWRIBBON_REQUEST])
{
    const uint8_t header[12] = {parts.kind, 0, 0, 1, parts.requester[0], parts.requester[1], parts.tag, parts.enables,
                                parts.bus, (uint8_t)(parts.device * 8 + parts.function), (uint8_t)(parts.offset / 256),
                                (uint8_t)(parts.offset % 256)};
    memcpy(bytes, header, sizeof header);
    memcpy(bytes + THAWRIBBON_DATA, parts.data, sizeof parts.data);
    return is_write(parts.kind) ? 16 : 12;
}

thawribbon_heard nothing_heard(uint8_t number)
{
    const thawribbon_heard nothing = {number, THAWRIBBON_SAID_NOTHING, {0, 0}, {0, 0}, 0, {0, 0, 0, 0}};
    return nothing;
}

int same_heard(thawribbon_heard one, thawribbon_heard other)
{
    return memcmp(&one, &other, sizeof one) == 0;
}
