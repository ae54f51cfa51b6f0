/* What the panel says to a line. A refusal is noted for the exit status too. */
#ifndef ANSWERS_H
#define ANSWERS_H

#include "panel.h"

/* Says why a line was refused, with the consoles that it names. */
void say_refused(const struct line *line, uint32_t answer, const char *why);

/* Whether the unit accepted it; else says why not. */
int is_accepted(const struct line *line, struct room_reply reply);

void say_done(const struct line *line, struct room_reply reply);
void say_number(const struct line *line, struct room_reply reply);

/* Says what was wrong with a line that is not understood, as printf does; always 0. */
int misunderstood(const char *format, ...);

#endif
