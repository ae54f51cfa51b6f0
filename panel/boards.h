/* Boards and panes as tables. */
#ifndef BOARDS_H
#define BOARDS_H

#include <stdint.h>

/* Prints the strips of a board or a pane that are not empty. Where another board is given and not NULL, a `*` stands behind each cell in
   which the two differ, and the strips that are empty only here are printed too. */
void show_board(const uint8_t *board, const uint8_t *other);

#endif
