// thawribbon.h from C++17: the helpers over a new board, with a layout, none, and one that is not accepted. Prints one line, and ends with 0
// only if all is as it should be.
#include "thawribbon.h"

#include <stdio.h>
#include <string.h>

namespace {

thawribbon_bytes space;
thawribbon_layout layout;

// The walk of the extended list gives the offsets of the layout, with these IDs.
bool is_listed(const thawribbon_structure (&structures)[3])
{
    uint16_t room[THAWRIBBON_EXTENDED_MAXIMUM];
    const thawribbon_walked walked = thawribbon_walk_extended(space.at, sizeof space.at, room, THAWRIBBON_EXTENDED_MAXIMUM);
    if (walked.number != THAWRIBBON_SERVED || walked.count != 3) {
        return false;
    }
    for (size_t n = 0; n < walked.count; n++) {
        const thawribbon_header header = thawribbon_header_extended(space.at, sizeof space.at, room[n]);
        if (header.offset != layout.offsets[n] || header.id != structures[n].id || header.version != structures[n].version) {
            return false;
        }
    }
    return true;
}

// A layout from elsewhere, of which the second offset is too low: nothing is written.
bool is_not_accepted(const thawribbon_structure (&structures)[3])
{
    const uint16_t offsets[3] = {0x100, 0x114, 0x200};
    const thawribbon_bytes before = space;
    return thawribbon_check_layout(structures, 3, offsets, 3) == THAWRIBBON_NOT_ACCEPTED &&
           thawribbon_write_layout(structures, 3, offsets, 3, space.at, sizeof space.at) == THAWRIBBON_NOT_ACCEPTED &&
           memcmp(&space, &before, sizeof space) == 0;
}

} // namespace

int main()
{
    thawribbon_structure structures[3] = {thawribbon_structure_of(0x0023, 1, 22), thawribbon_structure_of(0x000C, 1, 8),
                                          thawribbon_structure_of(0x0012, 1, 0x28)};
    if (thawribbon_layout_lay(structures, 3, &space, &layout) != THAWRIBBON_SERVED) {
        printf("FAILED: %s\n", thawribbon_text(layout.number));
        return 1;
    }
    if (layout.length != 3 || layout.offsets[1] != 0x118 || layout.offsets[2] != 0x120 || !is_listed(structures)) {
        printf("FAILED: it is laid out otherwise\n");
        return 1;
    }
    if (!is_not_accepted(structures)) {
        printf("FAILED: a structure is written into another\n");
        return 1;
    }
    structures[2] = thawribbon_structure_of(0x0012, 1, 3809);
    if (thawribbon_layout_lay(structures, 3, &space, &layout) != THAWRIBBON_NO_LAYOUT || layout.length != 0) {
        printf("FAILED: there is a layout\n");
        return 1;
    }
    printf("ok with thawribbon %s\n", THAWRIBBON_VERSION);
    return 0;
}
