/* What is typed, or comes from a script. */
#ifndef INPUT_H
#define INPUT_H

#include <stddef.h>

/* Whether standard input is a terminal, where someone sees a prompt and can be asked. */
int is_interactive(void);

/* From now on an interrupt that is typed, which would lose the room unasked, only drops the line. */
void outlive_interrupts(void);

/* The bytes of a line without its end, and a byte 0 behind them. They belong to the input and may be changed until the next call. */
struct text {
    char *bytes;
    size_t length;
};

/* Reads a line, of any length; whether there was one. */
int read_line(struct text *text);

enum consent { YES, NO, NO_ANSWER };

/* Asks whoever types; NO_ANSWER at the end of input. */
enum consent ask(const char *question);

void free_input(void);

#endif
