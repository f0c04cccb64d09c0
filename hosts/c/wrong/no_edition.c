/* A description as it was before there were editions, without names: a compiler has to see it. Never linked, and never run. */
#include "thawribbon.h"

thawribbon_description describe(void);

thawribbon_description describe(void)
{
    const thawribbon_description description = {0, 0x104, 0x00C};
    return description;
}
