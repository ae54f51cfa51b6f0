/* A pause tape taken apart, and its versions and heads in words. */
#include "history_parts.h"

static size_t record_bytes(uint8_t code)
{
    switch (code) {
    case ROOM_TAPE_START: return 3;
    case ROOM_TAPE_ENTRY: return 7;
    case ROOM_TAPE_MERGE: return 5;
    case ROOM_TAPE_HEAD: return 4;
    default: return 1;
    }
}

static uint16_t field(const uint8_t *record, size_t at)
{
    return (uint16_t)(record[at] * 256u + record[at + 1]);
}

static struct version entry_of(const uint8_t *record)
{
    return (struct version){.parent = field(record, 1), .code = record[3], .strip = record[4], .operand = field(record, 5)};
}

static struct version merge_of(const uint8_t *record)
{
    return (struct version){.code = ROOM_MERGE, .parent = field(record, 1), .giver = field(record, 3)};
}

static void read_record(struct history *history, const uint8_t *record)
{
    switch (record[0]) {
    case ROOM_TAPE_START: history->capacity = field(record, 1); break;
    case ROOM_TAPE_ENTRY: history->version[history->versions++] = entry_of(record); break;
    case ROOM_TAPE_MERGE: history->version[history->versions++] = merge_of(record); break;
    case ROOM_TAPE_HEAD: history->head[record[1]] = field(record, 2); break;
    case ROOM_TAPE_HUB: history->is_hub_room = 1; break;
    default: break;
    }
}

/* Version 0 and no console: what a tape says comes on top. */
static void begin(struct history *history)
{
    *history = (struct history){.versions = 1};
    for (unsigned console = 0; console < ROOM_CONSOLES; console++)
        history->head[console] = ABSENT;
}

void take_tape_apart(struct history *history, const uint8_t *tape, size_t length)
{
    begin(history);
    for (size_t at = 0; at < length; at += record_bytes(tape[at]))
        read_record(history, tape + at);
}

int is_full(const struct history *history)
{
    return history->versions == history->capacity;
}

int is_merge(const struct version *version)
{
    return version->code == ROOM_MERGE;
}

static void print_setting(FILE *file, const char *name, unsigned value)
{
    fprintf(file, "%s %u%s", name, value, value == 0 ? " (none given)" : "");
}

void print_change(FILE *file, const struct version *entry)
{
    switch (entry->code) {
    case ROOM_LEVEL: print_setting(file, "level", entry->operand); break;
    case ROOM_HEADING: print_setting(file, "heading", entry->operand); break;
    case ROOM_MARK_PUT: fprintf(file, "mark %u", entry->operand); break;
    case ROOM_MARK_TAKEN: fprintf(file, "mark %u taken", entry->operand); break;
    case ROOM_CALL: fprintf(file, "call"); break;
    case ROOM_ALERT_ON: fprintf(file, "alert"); break;
    default: fprintf(file, "alert cleared"); break;
    }
}

void print_entry(const struct version *entry)
{
    print_change(stdout, entry);
    printf(" %s strip %u", entry->code == ROOM_MARK_TAKEN ? "from" : "on", entry->strip);
}

void show_entry(const struct history *history, unsigned version)
{
    printf("version %u: ", version);
    print_entry(&history->version[version]);
    printf("\n");
}

static int stands_on(const struct history *history, unsigned console, unsigned version)
{
    return console < ROOM_CONSOLES && history->head[console] == (int)version;
}

unsigned consoles_on(const struct history *history, unsigned version)
{
    unsigned consoles = 0;
    for (unsigned console = 0; console < ROOM_CONSOLES; console++)
        consoles += (unsigned)stands_on(history, console, version);
    return consoles;
}

/* The last of the consoles from this one up, without a gap, that stand on the version. */
static unsigned last_of_run(const struct history *history, unsigned console, unsigned version)
{
    while (stands_on(history, console + 1, version))
        console++;
    return console;
}

void print_consoles(FILE *file, const struct history *history, unsigned version)
{
    const char *before = consoles_on(history, version) == 1 ? "console " : "consoles ";
    for (unsigned console = 0; console < ROOM_CONSOLES; console++) {
        if (!stands_on(history, console, version))
            continue;
        fprintf(file, "%s%u", before, console);
        before = ", ";
        unsigned last = last_of_run(history, console, version);
        if (last > console + 1) {
            fprintf(file, " to %u", last);
            console = last;
        }
    }
}
