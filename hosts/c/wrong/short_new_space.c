/* A new board over a buffer of 256 bytes: a compiler has to see it. Never linked, and never run. */
#include "thawribbon.h"

int lay(const thawribbon_structure *structures, thawribbon_layout *layout);

static uint8_t space[256];

int lay(const thawribbon_structure *structures, thawribbon_layout *layout)
{
    return thawribbon_layout_lay(structures, 1, &space, layout) == THAWRIBBON_SERVED;
}
