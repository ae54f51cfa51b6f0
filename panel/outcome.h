/* The exit status: the worst that came of any line. */
#ifndef OUTCOME_H
#define OUTCOME_H

enum outcome { ALL_WELL = 0, WAS_REFUSED = 1, FILE_FAILED = 2 };

void note(enum outcome outcome);
enum outcome worst_outcome(void);

#endif
