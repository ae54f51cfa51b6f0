/* Lines understood and carried out. A line is taken whole or refused whole, by its first word at fault. */
#include "lines.h"

#include <string.h>

#include "answers.h"
#include "panel.h"
#include "words.h"

static int say_open_quote(void)
{
    return misunderstood("a quote is not closed");
}

/* The highest number that a line's command can carry there; the unit judges those below. */
static uint32_t most_of(const struct line *line, const struct operand *operand)
{
    if (line->command->code == 0)
        return UINT32_MAX;
    return operand->kind == WIDE_NUMBER ? UINT16_MAX : UINT8_MAX;
}

static int set_number(struct line *line, int at, const char *word)
{
    const struct operand *operand = &line->command->operand[at];
    uint32_t most = most_of(line, operand);
    switch (read_number(word, most, &line->number[at])) {
    case A_NUMBER: return 1;
    case TOO_HIGH: return misunderstood("%s is more than a command can carry as %s (%lu)", shown(word).text, operand->name, (unsigned long)most);
    default: return misunderstood("%s is a number, not `%s`", operand->name, shown(word).text);
    }
}

/* Of two words the first stands for 0, the second for 1, as the unit has them. */
static int set_choice(struct line *line, int at, const char *word, const char *first, const char *second)
{
    line->number[at] = strcmp(word, second) == 0;
    if (line->number[at] == 1 || strcmp(word, first) == 0)
        return 1;
    return misunderstood("%s is `%s` or `%s`, not `%s`", line->command->operand[at].name, first, second, shown(word).text);
}

_Static_assert(ROOM_LEVEL_CELL == 0 && ROOM_HEADING_CELL == 1 && ROOM_LIVE == 0 && ROOM_FROZEN == 1, "words in the order of their numbers");

/* Two quotes with nothing between them name no file. */
static int set_text(struct line *line, int at, const char *word)
{
    line->text = word;
    return *word != '\0' || misunderstood("%s is missing", line->command->operand[at].name);
}

static int set_operand(struct line *line, int at, const char *word)
{
    switch (line->command->operand[at].kind) {
    case CELL: return set_choice(line, at, word, "level", "heading");
    case ROOM: return set_choice(line, at, word, "live", "frozen");
    case TEXT:
    case OPTIONAL_TEXT: return set_text(line, at, word);
    default: return set_number(line, at, word);
    }
}

static int take_operand(struct line *line, int at, char **rest)
{
    const struct operand *operand = &line->command->operand[at];
    char *word;
    switch (take_word(rest, &word)) {
    case A_WORD: return set_operand(line, at, word);
    case OPEN_QUOTE: return say_open_quote();
    default: return operand->kind == OPTIONAL_TEXT || misunderstood("%s is missing", operand->name);
    }
}

static int is_at_end(char *rest)
{
    char *word;
    switch (take_word(&rest, &word)) {
    case A_WORD: return misunderstood("`%s` is left over", shown(word).text);
    case OPEN_QUOTE: return say_open_quote();
    default: return 1;
    }
}

static int take_operands(struct line *line, char *rest)
{
    const struct operand *operand = line->command->operand;
    for (int at = 0; at < MOST_OPERANDS && operand[at].kind != NO_OPERAND; at++)
        if (!take_operand(line, at, &rest))
            return 0;
    return is_at_end(rest);
}

static int is_understood(struct line *line, char *rest)
{
    char *word;
    if (take_word(&rest, &word) == OPEN_QUOTE)
        return say_open_quote();
    line->command = find_typed_command(word, &line->is_sure);
    if (line->command == NULL)
        return say_no_command(word);
    if (take_operands(line, rest))
        return 1;
    show_usage(line->command);
    return 0;
}

/* Whether there is nothing to do: the line is empty or a comment. */
static int is_skipped(const struct text *text)
{
    size_t blanks = strspn(text->bytes, " \t");
    return blanks == text->length || text->bytes[blanks] == '#';
}

/* A carriage return at the end is a blank. */
static void blank_carriage_return(const struct text *text)
{
    if (text->length > 0 && text->bytes[text->length - 1] == '\r')
        text->bytes[text->length - 1] = ' ';
}

void follow(const struct text *text)
{
    struct line line = {0};
    blank_carriage_return(text);
    if (is_skipped(text))
        return;
    if (strlen(text->bytes) != text->length)
        misunderstood("the line has a byte 0 in it");
    else if (is_understood(&line, text->bytes))
        line.command->carry_out(&line);
}
