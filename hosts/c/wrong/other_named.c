/* What a record names, taken for what became of a packet: a compiler has to see it. Never linked, and never run. */
#include "thawribbon.h"

int is_named(const thawribbon_pair *pair);

int is_named(const thawribbon_pair *pair)
{
    thawribbon_alternate record;
    return thawribbon_pair_dual_bdf(pair, 0x040, &record) == THAWRIBBON_DONE;
}
