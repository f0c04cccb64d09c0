// thawribbon.h from C++17: the helpers over a switch's multicast, with each judgement. Prints one line, and ends with 0 only if all is as it
// should be.
#include "thawribbon.h"

#include <stdio.h>
#include <string.h>

namespace {

thawribbon_bytes spaces[3];

// What becomes of a packet for an address that enters by a port.
struct Expected {
    size_t entering;
    uint64_t address;
    thawribbon_judgement judgement;
    unsigned group;
    uint32_t ports;
};

// A capability at 100h: groups 0 to 3 of 1000h addresses each from 8_0000_0000h on, with these of them received and blocked.
void put_capability(thawribbon_bytes &space, uint8_t received, uint8_t blocked)
{
    const uint8_t bytes[16] = {0x12, 0x00, 0x01, 0x00, 0x3F, 0x00, 0x03, 0x80, 0x0C, 0x00, 0x00, 0x00, 0x08, 0x00, 0x00, 0x00};
    memcpy(space.at + 0x100, bytes, sizeof bytes);
    space.at[0x110] = received;
    space.at[0x118] = blocked;
}

bool judges(const thawribbon_offload &offload, const Expected &expected)
{
    thawribbon_judged judged;
    if (thawribbon_offload_judge(&offload, expected.entering, expected.address, &judged) != expected.judgement) {
        printf("FAILED: %s\n", thawribbon_judged_text(judged));
        return false;
    }
    return judged.group == expected.group && judged.ports == expected.ports &&
           (thawribbon_leaves_by(judged, 1) != 0) == ((expected.ports & 2) != 0);
}

// Without its last port's capability the switch judges nothing.
bool is_refused(thawribbon_offload &offload, const thawribbon_capability (&capabilities)[3])
{
    spaces[2].at[0x100] = 0x23;
    return thawribbon_offload_read(capabilities, 3, &offload) == THAWRIBBON_OTHER_STRUCTURE && offload.refused == 2 &&
           judges(offload, {0, 0x800002000, THAWRIBBON_JUDGED_NOTHING, 0, 0});
}

} // namespace

int main()
{
    const thawribbon_capability capabilities[3] = {{&spaces[0], 0x100}, {&spaces[1], 0x100}, {&spaces[2], 0x100}};
    const Expected day[5] = {
        {0, 0x800002FFF, THAWRIBBON_JUDGED_LEAVES, 2, 6},
        {0, 0x800004000, THAWRIBBON_JUDGED_NO_HIT, 0, 0},
        {1, 0x800002000, THAWRIBBON_JUDGED_LEAVES, 2, 4},
        {2, 0x800003000, THAWRIBBON_JUDGED_DROPPED, 3, 0},
        {3, 0x800002000, THAWRIBBON_JUDGED_NOTHING, 0, 0},
    };
    thawribbon_offload offload;
    put_capability(spaces[0], 0x00, 0x00);
    put_capability(spaces[1], 0x04, 0x00);
    put_capability(spaces[2], 0x04, 0x08);
    if (thawribbon_offload_read(capabilities, 3, &offload) != THAWRIBBON_SERVED) {
        printf("FAILED: port %u: %s\n", static_cast<unsigned>(offload.refused), thawribbon_text(offload.number));
        return 1;
    }
    for (const Expected &expected : day) {
        if (!judges(offload, expected)) {
            return 1;
        }
    }
    if (!is_refused(offload, capabilities)) {
        return 1;
    }
    printf("ok with thawribbon %s\n", THAWRIBBON_VERSION);
    return 0;
}
