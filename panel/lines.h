/* Lines understood and carried out. */
#ifndef LINES_H
#define LINES_H

#include "input.h"

/* Carries a line out, or says what is wrong with it. */
void follow(const struct text *text);

#endif
