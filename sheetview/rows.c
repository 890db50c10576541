/*
 * What the rows of a sheet say: its plan, its units and its links. The first cell says which; a row that cannot be read
 * ends the program with its line, what was found and what may stand there.
 */
#include <ctype.h>
#include <stdlib.h>
#include <string.h>

#include "sheetview.h"

enum { MOST_IN_16_BITS = 0xFFFF };

/* A cell's text for an error: in quotes, of one line, and not longer than helps. */
static const char *found(const char *cell)
{
    enum { MOST_SHOWN = 24 };
    static char shown[MOST_SHOWN + sizeof "''.."];
    size_t length = strlen(cell), whole = length;
    if (length > MOST_SHOWN) {
        length = MOST_SHOWN;
        while (((unsigned char)cell[length] & 0xC0) == 0x80 && length > 0) {
            length--; /* not in the middle of a letter of UTF-8 */
        }
    }
    snprintf(shown, sizeof shown, "'%.*s%s'", (int)length, cell, length < whole ? ".." : "");
    for (char *letter = shown; *letter != '\0'; letter++) {
        if (iscntrl((unsigned char)*letter)) {
            *letter = '?';
        }
    }
    return shown;
}

static bool is_word(const char *cell, const char *word)
{
    while (*word != '\0' && tolower((unsigned char)*cell) == *word) {
        cell++;
        word++;
    }
    return *word == '\0' && *cell == '\0';
}

/* The number of a cell, decimal or behind 0x hexadecimal. */
static uint32_t number_at(const struct text *text, const struct row *row, size_t place, const char *kind, uint32_t most)
{
    const char *cell = row->cells[place];
    bool is_hexadecimal = cell[0] == '0' && (cell[1] == 'x' || cell[1] == 'X');
    const char *digits = is_hexadecimal ? cell + 2 : cell;
    size_t count = strspn(digits, is_hexadecimal ? "0123456789abcdefABCDEF" : "0123456789");
    unsigned long long value = strtoull(digits, NULL, is_hexadecimal ? 16 : 10);
    if (*cell == '\0') {
        fail_at(text->name, row->line, "cell %zu is empty, and no %s: a number from 0 to %u", place + 1, kind,
                (unsigned)most);
    }
    if (count == 0 || digits[count] != '\0' || value > most) {
        fail_at(text->name, row->line, "%s is no %s: a number from 0 to %u", found(cell), kind, (unsigned)most);
    }
    return (uint32_t)value;
}

static uint16_t address_at(const struct text *text, const struct row *row, size_t place)
{
    return (uint16_t)number_at(text, row, place, "address", MOST_IN_16_BITS);
}

static uint32_t beacon_at(const struct text *text, const struct row *row, size_t place)
{
    if (row->count <= place || is_word(row->cells[place], "long")) {
        return BRAIDLARK_TYPE_BEACON;
    }
    if (!is_word(row->cells[place], "short")) {
        fail_at(text->name, row->line, "%s is no kind of beacons: long or short", found(row->cells[place]));
    }
    return BRAIDLARK_TYPE_SHORT_BEACON;
}

static void read_plan(struct sheet *sheet, const struct text *text, const struct row *row)
{
    enum { NETWORK = 1, MANAGER, MAX_HOPS, ROWS, DATA_SLOTS, SLOT_MS, BEACONS, CELLS };
    if (sheet->plan.line != 0) {
        fail_at(text->name, row->line, "a second plan: one stands on line %zu, and a sheet has one", sheet->plan.line);
    }
    if (row->count < BEACONS || row->count > CELLS) {
        fail_at(text->name, row->line,
                "%zu cell%s behind 'plan': NETWORK, MANAGER, MAX HOPS, ROWS, DATA SLOTS, SLOT MS and perhaps BEACONS",
                row->count - 1, words_plural((int)row->count - 1));
    }
    sheet->plan = (struct plan){
        .line = row->line,
        .network = (uint16_t)number_at(text, row, NETWORK, "network", MOST_IN_16_BITS),
        .manager = address_at(text, row, MANAGER),
        .max_hops = number_at(text, row, MAX_HOPS, "number of hops", MOST_IN_16_BITS),
        .rows = number_at(text, row, ROWS, "number of rows", MOST_IN_16_BITS),
        .data_slots = number_at(text, row, DATA_SLOTS, "number of data slots", MOST_IN_16_BITS),
        .slot_ms = number_at(text, row, SLOT_MS, "number of ms", MOST_IN_16_BITS),
        .beacon = beacon_at(text, row, BEACONS),
    };
}

/* A unit may have no slot, or more than it may hold: that is the call's to say. */
static void read_unit(struct sheet *sheet, const struct text *text, const struct row *row)
{
    enum { ADDRESS = 1, FIRST_SLOT };
    if (sheet->unit_count == MOST_UNITS) {
        fail_at(text->name, row->line,
                "more than %d units: that is the most that is read, and a plan has at most %d rows", MOST_UNITS,
                BRAIDLARK_MOST_MEMBERS);
    }
    if (row->count <= ADDRESS) {
        fail_at(text->name, row->line, "nothing behind 'unit': its address stands there, and its data slots");
    }
    if (row->count > MOST_CELLS) {
        fail_at(text->name, row->line, "%zu data slots: there are at most %d", row->count - FIRST_SLOT, MASK_SLOTS);
    }
    struct unit *unit = &sheet->units[sheet->unit_count++];
    *unit = (struct unit){.line = row->line, .address = address_at(text, row, ADDRESS)};
    for (size_t place = FIRST_SLOT; place < row->count; place++) {
        uint32_t slot = number_at(text, row, place, "data slot", MASK_SLOTS - 1);
        if ((unit->slots >> slot & 1) != 0) {
            fail_at(text->name, row->line, "data slot %u stands in this row twice", (unsigned)slot);
        }
        unit->slots |= (uint64_t)1 << slot;
    }
}

static void read_link(struct sheet *sheet, const struct text *text, const struct row *row)
{
    enum { ONE = 1, OTHER, CELLS };
    if (sheet->link_count == MOST_LINKS) {
        fail_at(text->name, row->line, "more than %d links: that is the most that is read", MOST_LINKS);
    }
    if (row->count != CELLS) {
        fail_at(text->name, row->line, "%zu cell%s behind 'link': the addresses of two units stand there",
                row->count - 1, words_plural((int)row->count - 1));
    }
    sheet->links[sheet->link_count++] =
        (struct link){.line = row->line, .ends = {address_at(text, row, ONE), address_at(text, row, OTHER)}};
}

void rows_read(struct sheet *sheet, struct text *text)
{
    struct reader reader = {.name = text->name, .at = text->bytes, .line = 1};
    struct row row;
    while (cells_next(&reader, &row)) {
        if (row.count == 0 || row.cells[0][0] == '#') {
            continue;
        }
        if (is_word(row.cells[0], "plan")) {
            read_plan(sheet, text, &row);
        } else if (is_word(row.cells[0], "unit")) {
            read_unit(sheet, text, &row);
        } else if (is_word(row.cells[0], "link")) {
            read_link(sheet, text, &row);
        } else {
            fail_at(text->name, row.line, "%s begins no row: plan, unit, link or # does", found(row.cells[0]));
        }
    }
    if (sheet->plan.line == 0) {
        fail_at(text->name, 0, "there is no plan: a row 'plan,NETWORK,MANAGER,MAX HOPS,ROWS,DATA SLOTS,SLOT MS'");
    }
}
