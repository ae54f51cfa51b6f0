/* The words and numbers of a line, and how they are shown where something is wrong with them. */
#include "words.h"

#include <stdlib.h>
#include <string.h>

static const char BLANKS[] = " \t";

static int is_blank_or_end(char byte)
{
    return byte == '\0' || strchr(BLANKS, byte) != NULL;
}

enum found take_word(char **text, char **word)
{
    char *begin = *text + strspn(*text, BLANKS);
    if (*begin == '\0')
        return NO_WORD;
    int is_quoted = *begin == '"';
    *word = begin + is_quoted;
    char *end = *word + strcspn(*word, is_quoted ? "\"" : BLANKS);
    if (is_quoted && (*end == '\0' || !is_blank_or_end(end[1])))
        return OPEN_QUOTE;
    *text = *end == '\0' ? end : end + 1;
    *end = '\0';
    return A_WORD;
}

/* A number that 64 bits do not hold becomes their highest, which is above `most` too. */
enum number read_number(const char *word, uint32_t most, uint32_t *number)
{
    if (*word == '\0' || word[strspn(word, "0123456789")] != '\0')
        return NO_NUMBER;
    unsigned long long typed = strtoull(word, NULL, 10);
    if (typed > most)
        return TOO_HIGH;
    *number = (uint32_t)typed;
    return A_NUMBER;
}

struct shown shown(const char *word)
{
    enum { MOST = 40 };
    struct shown shown = {""};
    size_t length = 0;
    for (; length < MOST && word[length] != '\0'; length++)
        shown.text[length] = word[length] >= ' ' && word[length] <= '~' ? word[length] : '?';
    if (word[length] != '\0')
        strcpy(shown.text + length, "...");
    return shown;
}
