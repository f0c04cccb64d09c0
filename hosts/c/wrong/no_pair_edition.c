/* A board of two functions whose edition was forgotten, without names: a compiler has to see it. Never linked, and never run. */
#include "thawribbon.h"

static thawribbon_bytes ordinary[2], trusted[2], rules;

thawribbon_pair describe(void);

thawribbon_pair describe(void)
{
    const thawribbon_pair pair = {
        {{0, 0x104, 0x00C}, THAWRIBBON_FRESH, {&ordinary[0], &rules, &thawribbon_no_marks}, {&trusted[0], &rules, &thawribbon_no_marks}},
        {{1, 0x104, 0x00C}, THAWRIBBON_FRESH, {&ordinary[1], &rules, &thawribbon_no_marks}, {&trusted[1], &rules, &thawribbon_no_marks}},
    };
    return pair;
}
