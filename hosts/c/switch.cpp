// thawribbon.h from C++17: the helpers over a switch, with each verdict. Prints one line, and ends with 0 only if all is as it should be.
#include "thawribbon.h"

#include <stdio.h>

namespace {

// What the router says, by its verdict, the number, and the first byte that leaves, FFh where nothing does.
struct Expected {
    uint8_t type;
    uint8_t bus;
    thawribbon_verdict verdict;
    uint8_t number;
    uint8_t first;
};

bool routes(const thawribbon_port (&ports)[2], const Expected &expected)
{
    const uint8_t read[12] = {expected.type, 0, 0, 1, 1, 0, 8, 0x0F, expected.bus, 0x18, 0, 4};
    thawribbon_leaving leaving;
    if (thawribbon_ports_route(ports, 2, read, sizeof read, &leaving) != expected.verdict) {
        printf("FAILED: %s\n", thawribbon_leaving_text(&leaving));
        return false;
    }
    return leaving.number == expected.number && leaving.bytes[0] == expected.first;
}

} // namespace

int main()
{
    const thawribbon_port ports[2] = {{0x05, 0x07, 1}, {0x08, 0x08, 0}};
    const Expected day[6] = {
        {THAWRIBBON_TYPE1_READ, 0x05, THAWRIBBON_LEAVES, THAWRIBBON_SERVED, THAWRIBBON_TYPE0_READ},
        {THAWRIBBON_TYPE1_READ, 0x06, THAWRIBBON_LEAVES, THAWRIBBON_SERVED, THAWRIBBON_TYPE1_READ},
        {THAWRIBBON_TRUSTED_READ, 0x05, THAWRIBBON_LEAVES, THAWRIBBON_SERVED, THAWRIBBON_TRUSTED_READ},
        {THAWRIBBON_TRUSTED_READ, 0x08, THAWRIBBON_NOT_ROUTED, THAWRIBBON_UNKNOWN_TYPE, 0xFF},
        {THAWRIBBON_TRUSTED_READ, 0x09, THAWRIBBON_NO_PORT, THAWRIBBON_SERVED, 0xFF},
        {THAWRIBBON_TYPE0_READ, 0x05, THAWRIBBON_NOT_ROUTED, THAWRIBBON_UNKNOWN_TYPE, 0xFF},
    };
    for (const Expected &expected : day) {
        if (!routes(ports, expected)) {
            return 1;
        }
    }
    printf("ok with thawribbon %s\n", THAWRIBBON_VERSION);
    return 0;
}
