/* Rooms that begin, and those that come from a tape. */
#ifndef TAPES_H
#define TAPES_H

#include "panel.h"

/* A new room on the panel of the capacity that the line gives; whether the unit accepted it, else that is said. */
int begin_room(const struct line *line);

/* The room of the tape that the line names; the same. */
int take_up_room(const struct line *line);

#endif
