/* Groups of checks: each prints 'ok NAME', or 'FAILED NAME: why' with the first thing that did not hold. */
#ifndef GROUPS_H
#define GROUPS_H

#include <stddef.h>

/* Notes that something does not hold, and at which length, offset or value. */
void expect(int holds, const char *what, size_t at);

/* Runs a group of checks and prints its line. */
void group(const char *name, void (*checks)(void));

/* How many groups failed so far. */
int failed_groups(void);

#endif
