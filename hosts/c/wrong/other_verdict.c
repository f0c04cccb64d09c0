/* What becomes of a packet, taken for a router's verdict: a compiler has to see it. Never linked, and never run. */
#include "thawribbon.h"

int leaves(const thawribbon_offload *offload, uint64_t address);

int leaves(const thawribbon_offload *offload, uint64_t address)
{
    thawribbon_judged judged;
    return thawribbon_offload_judge(offload, 0, address, &judged) == THAWRIBBON_LEAVES;
}
