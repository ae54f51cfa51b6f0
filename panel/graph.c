/* The version graph in the terminal: a line for each version, the newest first, with its lanes, its number, what it is and who stands on it.
 *
 * How to draw it by hand. A lane is a column that waits for a version: that of the next `*` in it.
 * - Each present console has a column of its own, consoles rising, and waits there for its head. Nothing is drawn in it above that head, unless a
 *   merge is joined to it.
 * - A version's `*` stands in the first column that waits for it, a console's own before any other. The others that wait for it end on its line,
 *   joined to the `*`: `'` where a lane comes from above; `o` where none does, as there a console stands on the version too.
 * - Then the column of the `*` waits for the version's parent; of a merge, for the receiver's version.
 * - A merge's line is joined also to a column that waits for the giver's version: the first as above, else the first free one, which is opened. There
 *   stands `.` where a lane begins (but an `o` stays), and `+` where one is joined on its way. No column is free on the line on which its lane ends.
 * - A column that is no console's own and comes to wait for a version that another waits for goes on beside it, as long as no more than 16 columns
 *   wait. Else it ends with its `*`, joined to the other as the giver's side of a merge is.
 * - `|` is a lane that passes, also where a join crosses it; `-` is the rest of a join.
 *
 * By commands no more than 33 columns come together: whatever is waited for on a line was some console's head when that version was made, which makes
 * 16 beside the consoles' own. A tape from elsewhere may have more sides than consoles, so that there are columns enough for any. */
#include "history_parts.h"

/* Each merge opens at most one column. */
enum { COLUMNS = ROOM_CONSOLES + ROOM_MAX_CAPACITY };
enum { FREE = -1, NO_COLUMN = -1 };

struct lane {
    int waits_for; /* a version, or FREE */
    int is_own;    /* a console's own column, until it ends */
    int is_begun;  /* it comes from above */
};

/* The lanes below the line that was laid last, and that line: a character for each column, and the first and last column that its join touches. */
struct picture {
    const struct history *history;
    int columns; /* that have been used so far */
    struct lane lane[COLUMNS];
    char drawn[COLUMNS];
    int join_from;
    int join_to;
};

static void begin(struct picture *picture, const struct history *history)
{
    picture->history = history;
    picture->columns = 0;
    for (unsigned console = 0; console < ROOM_CONSOLES; console++)
        if (history->head[console] != ABSENT)
            picture->lane[picture->columns++] = (struct lane){.waits_for = history->head[console], .is_own = 1};
}

/* ---- a line is laid ---- */

/* The first column that waits for a version, a console's own before any other, or NO_COLUMN. */
static int waiting_column(const struct picture *picture, int version)
{
    int found = NO_COLUMN;
    for (int column = 0; column < picture->columns; column++) {
        const struct lane *lane = &picture->lane[column];
        if (lane->waits_for == version && (found == NO_COLUMN || (lane->is_own && !picture->lane[found].is_own)))
            found = column;
    }
    return found;
}

static int waiting_columns(const struct picture *picture)
{
    int waiting = 0;
    for (int column = 0; column < picture->columns; column++)
        waiting += picture->lane[column].waits_for != FREE;
    return waiting;
}

/* The first column in which a lane can begin on this line, a new one at the right where there is no other. */
static int free_column(struct picture *picture)
{
    int column = 0;
    while (column < picture->columns &&
           (picture->lane[column].waits_for != FREE || (picture->drawn[column] != ' ' && picture->drawn[column] != 'o')))
        column++;
    if (column == picture->columns)
        picture->drawn[picture->columns++] = ' ';
    return column;
}

/* The column that waits for a version; where none does, a free one that now will. */
static int column_for(struct picture *picture, int version)
{
    int column = waiting_column(picture, version);
    if (column == NO_COLUMN) {
        column = free_column(picture);
        picture->lane[column] = (struct lane){.waits_for = version};
    }
    return column;
}

static void draw(struct picture *picture, int column, char character)
{
    picture->drawn[column] = character;
    if (column < picture->join_from)
        picture->join_from = column;
    if (column > picture->join_to)
        picture->join_to = column;
}

static void draw_passing(struct picture *picture)
{
    for (int column = 0; column < picture->columns; column++)
        picture->drawn[column] = picture->lane[column].is_begun ? '|' : ' ';
}

static void end_lane(struct picture *picture, int column)
{
    picture->lane[column] = (struct lane){.waits_for = FREE};
}

/* Ends the lanes that wait for the version in other columns than its own. */
static void end_others(struct picture *picture, int own_column, int version)
{
    for (int column = 0; column < picture->columns; column++)
        if (column != own_column && picture->lane[column].waits_for == version) {
            draw(picture, column, picture->lane[column].is_begun ? '\'' : 'o');
            end_lane(picture, column);
        }
}

/* Joins the line to a lane that waits for a parent of its version. */
static void join(struct picture *picture, int column)
{
    struct lane *lane = &picture->lane[column];
    char opened = picture->drawn[column] == 'o' ? 'o' : '.';
    draw(picture, column, lane->is_begun ? '+' : opened);
    lane->is_begun = 1;
}

/* The lane of the version goes on to its parent, or ends here where another does. */
static void go_on(struct picture *picture, int column, int parent)
{
    struct lane *lane = &picture->lane[column];
    int other = waiting_column(picture, parent);
    if (other == NO_COLUMN || lane->is_own || waiting_columns(picture) <= ROOM_CONSOLES) {
        lane->waits_for = parent;
        lane->is_begun = 1;
    } else {
        end_lane(picture, column);
        join(picture, other);
    }
}

static void lay_line(struct picture *picture, unsigned number)
{
    const struct version *version = &picture->history->version[number];
    draw_passing(picture);
    int column = column_for(picture, (int)number);
    picture->join_from = picture->join_to = column;
    draw(picture, column, '*');
    end_others(picture, column, (int)number);
    if (number > 0)
        go_on(picture, column, version->parent);
    if (is_merge(version))
        join(picture, column_for(picture, version->giver));
}

/* ---- and printed ---- */

static char drawn_at(const struct picture *picture, int column)
{
    int is_in_join = column > picture->join_from && column < picture->join_to;
    return picture->drawn[column] == ' ' && is_in_join ? '-' : picture->drawn[column];
}

/* The columns, with a place between each two. */
static void print_lanes(const struct picture *picture)
{
    putchar(drawn_at(picture, 0));
    for (int column = 1; column < picture->columns; column++) {
        putchar(column > picture->join_from && column <= picture->join_to ? '-' : ' ');
        putchar(drawn_at(picture, column));
    }
}

/* What stands between the lanes and the words, so that these begin at one place on all lines. */
static void print_gap(const struct picture *picture, int widest)
{
    printf("%*s  ", 2 * (widest - picture->columns), "");
}

static void draw_digits(struct picture *picture, const char digits[ROOM_CONSOLES + 1])
{
    int column = 0;
    for (unsigned console = 0; console < ROOM_CONSOLES; console++)
        if (picture->history->head[console] != ABSENT)
            picture->drawn[column++] = digits[console];
}

/* The consoles over their columns; where one has two digits, the first stands above the second. */
static void print_header(struct picture *picture, int widest)
{
    picture->join_from = picture->join_to = 0;
    draw_digits(picture, "          111111");
    if (picture->drawn[picture->columns - 1] != ' ') {
        print_lanes(picture);
        printf("\n");
    }
    draw_digits(picture, "0123456789012345");
    print_lanes(picture);
    print_gap(picture, widest);
    printf("consoles\n");
}

static void print_words(const struct history *history, unsigned number)
{
    const struct version *version = &history->version[number];
    if (number == 0)
        printf("empty board");
    else if (is_merge(version))
        printf("merge of %u and %u", version->parent, version->giver);
    else
        print_entry(version);
}

static void print_heads(const struct history *history, unsigned number)
{
    if (consoles_on(history, number) == 0)
        return;
    printf("  <- ");
    print_consoles(stdout, history, number);
}

static void print_line(const struct picture *picture, unsigned number, int widest)
{
    int digits = snprintf(NULL, 0, "%u", picture->history->versions - 1);
    print_lanes(picture);
    print_gap(picture, widest);
    printf("%*u  ", digits, number);
    print_words(picture->history, number);
    print_heads(picture->history, number);
    printf("\n");
}

/* How many columns the picture takes: all lines are laid and none is printed. */
static int widest_line(struct picture *picture, const struct history *history)
{
    begin(picture, history);
    for (unsigned number = history->versions; number-- > 0;)
        lay_line(picture, number);
    return picture->columns;
}

void show_graph(const struct history *history)
{
    static struct picture picture;
    int widest = widest_line(&picture, history);
    begin(&picture, history);
    print_header(&picture, widest);
    for (unsigned number = history->versions; number-- > 0;) {
        lay_line(&picture, number);
        print_line(&picture, number, widest);
    }
}
