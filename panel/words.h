/* The words and numbers of a line, and how they are shown where something is wrong with them. */
#ifndef WORDS_H
#define WORDS_H

#include <stdint.h>

enum found { NO_WORD, A_WORD, OPEN_QUOTE };

/* Takes the first word off a text, which is cut up for it. A word in quotes ends with its second quote, and nothing may follow that but a
   blank or the end: else the quote counts as open. */
enum found take_word(char **text, char **word);

enum number { A_NUMBER, NO_NUMBER, TOO_HIGH };

/* Reads a word of decimal digits, a number up to `most`. */
enum number read_number(const char *word, uint32_t most, uint32_t *number);

/* A word as it is shown: its first 40 bytes, `...` behind them if there are more, and a `?` for each byte that cannot be printed. */
struct shown {
    char text[sizeof "..." + 40];
};
struct shown shown(const char *word);

#endif
