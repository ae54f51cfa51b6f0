/* The version graph as a Graphviz file, top down. In a room of more than 100 versions the entries of a chain are drawn as one box.
 *
 * A chain is a line of entries, each the only child of the one before, with no console on any but the last. */
#include "history_parts.h"

#include <string.h>

enum { MOST_WITHOUT_CHAINS = 100 };

/* For each version how many are made of it, by an entry or as a side of a merge, and the newest of them. */
struct family {
    uint16_t children[ROOM_MAX_CAPACITY];
    uint16_t newest_child[ROOM_MAX_CAPACITY];
};

static void add_child(struct family *family, unsigned parent, unsigned child)
{
    family->children[parent]++;
    family->newest_child[parent] = (uint16_t)child;
}

static void find_children(struct family *family, const struct history *history)
{
    memset(family, 0, sizeof *family);
    for (unsigned number = 1; number < history->versions; number++) {
        const struct version *version = &history->version[number];
        add_child(family, version->parent, number);
        if (is_merge(version))
            add_child(family, version->giver, number);
    }
}

static int is_entry(const struct history *history, unsigned number)
{
    return number > 0 && !is_merge(&history->version[number]);
}

/* Whether an entry is drawn in one box with the one after it. */
static int is_inside_chain(const struct history *history, const struct family *family, unsigned number)
{
    return history->versions > MOST_WITHOUT_CHAINS && is_entry(history, number) && family->children[number] == 1 &&
           is_entry(history, family->newest_child[number]) && consoles_on(history, number) == 0;
}

static void write_edge(FILE *file, unsigned parent, unsigned child, const char *style)
{
    fprintf(file, "  v%u -> v%u%s;\n", parent, child, style);
}

static void write_chain(FILE *file, unsigned first, unsigned last, unsigned entries)
{
    fprintf(file, "  v%u [label=\"%u to %u: %u entries\"];\n", last, first, last, entries);
}

static void write_entry(FILE *file, unsigned number, const struct version *entry)
{
    fprintf(file, "  v%u [label=\"%u: ", number, number);
    print_change(file, entry);
    fprintf(file, "\\nstrip %u\"];\n", entry->strip);
}

/* An entry that is the last of its chain, with the chain. */
static void write_box(FILE *file, const struct history *history, const struct family *family, unsigned last)
{
    unsigned first = last;
    unsigned entries = 1;
    while (is_inside_chain(history, family, history->version[first].parent)) {
        first = history->version[first].parent;
        entries++;
    }
    if (entries > 1)
        write_chain(file, first, last, entries);
    else
        write_entry(file, last, &history->version[last]);
    write_edge(file, history->version[first].parent, last, "");
}

/* The giver's side is drawn dashed. */
static void write_merge(FILE *file, unsigned number, const struct version *merge)
{
    fprintf(file, "  v%u [label=\"%u\", shape=circle, width=0.3, margin=0.02];\n", number, number);
    write_edge(file, merge->parent, number, " [weight=4]");
    write_edge(file, merge->giver, number, " [style=dashed]");
}

/* One box for all consoles on the version. */
static void write_heads(FILE *file, const struct history *history, unsigned number)
{
    if (consoles_on(history, number) == 0)
        return;
    fprintf(file, "  h%u [label=\"", number);
    print_consoles(file, history, number);
    fprintf(file, "\", style=filled, fillcolor=lightblue];\n  v%u -> h%u [arrowhead=none];\n", number, number);
}

static void write_version(FILE *file, const struct history *history, const struct family *family, unsigned number)
{
    if (number == 0)
        fprintf(file, "  v0 [label=\"0: empty board\"];\n");
    else if (is_merge(&history->version[number]))
        write_merge(file, number, &history->version[number]);
    else if (!is_inside_chain(history, family, number))
        write_box(file, history, family, number);
    write_heads(file, history, number);
}

void write_dot(FILE *file, const struct history *history)
{
    struct family family;
    find_children(&family, history);
    fprintf(file, "digraph room {\n"
                  "  rankdir=TB;\n"
                  "  nodesep=0.2;\n"
                  "  ranksep=0.3;\n"
                  "  node [shape=box, fontname=\"Helvetica\", fontsize=11, height=0.3, margin=\"0.08,0.04\"];\n"
                  "  edge [arrowsize=0.6];\n");
    for (unsigned number = 0; number < history->versions; number++)
        write_version(file, history, &family, number);
    fprintf(file, "}\n");
}
