/* The parts of a host's first day, a file each; each runs its groups. */
#ifndef FIRST_DAY_H
#define FIRST_DAY_H

void packets(void);
void captures(void);
void whole_reads(void);
void marks(void);
void editions(void);
void edition_runs(void);
void walks(void);
void records(void);
void helpers(void);
void overlaps(void);
void routes(void);
void port_lists(void);
void switches(void);
void leaving_overlaps(void);
void requests(void);
void completions(void);
void asks(void);
void heard_overlaps(void);
void capabilities(void);
void addresses(void);
void capability_lists(void);
void offloads(void);
void plans(void);
void layouts(void);
void lays(void);
void laying_overlaps(void);
void pairs(void);
void pair_runs(void);
void pair_helpers(void);
void pair_overlaps(void);
void repeats(void);

#endif
