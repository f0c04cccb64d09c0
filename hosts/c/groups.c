#include "groups.h"

#include <stdio.h>

static char failure[200]; /* the first thing in this group that did not hold */
static int failures;      /* groups that failed */

void expect(int holds, const char *what, size_t at)
{
    if (!holds && failure[0] == '\0') {
        (void)snprintf(failure, sizeof failure, "%s (at %zu)", what, at);
    }
}

void group(const char *name, void (*checks)(void))
{
    failure[0] = '\0';
    checks();
    if (failure[0] == '\0') {
        printf("ok %s\n", name);
    } else {
        printf("FAILED %s: %s\n", name, failure);
        failures++;
    }
    (void)fflush(stdout);
}

int failed_groups(void)
{
    return failures;
}
