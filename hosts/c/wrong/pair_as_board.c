/* A board of two functions served as one of one: a compiler has to see it. Never linked, and never run. */
#include "thawribbon.h"

int serve(thawribbon_pair *pair, const uint8_t *packet, thawribbon_answer *answer);

int serve(thawribbon_pair *pair, const uint8_t *packet, thawribbon_answer *answer)
{
    return thawribbon_board_serve(pair, packet, 16, answer) == THAWRIBBON_DONE;
}
