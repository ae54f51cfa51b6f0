/* The exit status: the worst that came of any line. */
#include "outcome.h"

static enum outcome worst = ALL_WELL;

void note(enum outcome outcome)
{
    if (outcome > worst)
        worst = outcome;
}

enum outcome worst_outcome(void)
{
    return worst;
}
