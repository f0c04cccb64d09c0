/* A board over a buffer that is no space: a compiler has to see it. Never linked, and never run. */
#include "thawribbon.h"

static uint8_t small[256];
static thawribbon_bytes whole;

void lend(thawribbon_board *board);

void lend(thawribbon_board *board)
{
    board->ordinary.bytes = &small;
    board->ordinary.rules = &whole;
    board->ordinary.marks = &thawribbon_no_marks;
}
