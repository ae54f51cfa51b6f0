/* That no room is lost unasked. */
#ifndef KEEPING_H
#define KEEPING_H

#include "panel.h"

/* From now on the room counts as unchanged: it was opened, resumed or paused as it is. */
void keep_as_unchanged(void);

/* Whether a line that leaves the room behind may be carried out: the room is as it was, the line is sure, or someone says yes. Else that is
   said. */
int may_lose_room(const struct line *line);

void meet_end_of_input(void);

/* Whether the panel has come to its end. */
int is_over(void);

#endif
