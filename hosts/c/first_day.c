/*
 * A C host's first day with libthawribbon.a. Prints 'ok NAME' or 'FAILED NAME: why' for each group of checks, and ends with a status other
 * than 0 if any failed.
 *
 * Every buffer is lent out of a larger one, with a guard before and after the lent part. After every call all of the larger ones are
 * compared with what they should hold: so a byte that changed and should not have shows, also one that was not lent.
 */
#include "first_day.h"

#include "groups.h"

int main(void)
{
    packets();
    captures();
    whole_reads();
    marks();
    editions();
    edition_runs();
    walks();
    records();
    helpers();
    overlaps();
    routes();
    port_lists();
    switches();
    leaving_overlaps();
    requests();
    completions();
    asks();
    heard_overlaps();
    capabilities();
    addresses();
    capability_lists();
    offloads();
    plans();
    layouts();
    lays();
    laying_overlaps();
    pairs();
    pair_runs();
    pair_helpers();
    pair_overlaps();
    repeats();
    return failed_groups() == 0 ? 0 : 1;
}
