/*
 * A text as rows of cells: commas or semicolons between them, double quotes around those that need them. The text of a
 * cell is brought to its form where it lies.
 */
#include <string.h>

#include "sheetview.h"

static const char BLANKS[] = " \t\n";

/* Takes what stands in quotes, where separators and line feeds are text and two quotes are one. Answers the end of what
 * was put. */
static char *take_quoted(struct reader *reader, char *put)
{
    size_t began = reader->line;
    reader->at++;
    while (reader->at[0] != '"' || reader->at[1] == '"') {
        if (*reader->at == '\0') {
            fail_at(reader->name, began, "a double quote begins a cell, and no other one ends it");
        }
        reader->at += *reader->at == '"';
        reader->line += *reader->at == '\n';
        *put++ = *reader->at++;
    }
    reader->at++;
    return put;
}

/* Takes one cell, without the blanks around it, and says what stands behind it: a separator, a line feed or the end. */
static const char *take_cell(struct reader *reader, char *behind)
{
    reader->at += strspn(reader->at, " \t");
    char *start = reader->at, *put = start;
    if (*start == '"') {
        put = take_quoted(reader, put);
    }
    size_t rest = strcspn(reader->at, ",;\n");
    memmove(put, reader->at, rest);
    put += rest;
    reader->at += rest;
    *behind = *reader->at;
    reader->line += *behind == '\n';
    reader->at += *behind != '\0';
    while (put > start && strchr(BLANKS, put[-1]) != NULL) {
        put--;
    }
    *put = '\0';
    return start + strspn(start, BLANKS);
}

/* False where the text is over. */
bool cells_next(struct reader *reader, struct row *row)
{
    if (*reader->at == '\0') {
        return false;
    }
    char behind;
    size_t place = 0;
    row->line = reader->line;
    row->count = 0;
    do {
        const char *cell = take_cell(reader, &behind);
        if (place < MOST_CELLS) {
            row->cells[place] = cell;
        }
        place++;
        if (*cell != '\0') {
            row->count = place;
        }
    } while (behind == ',' || behind == ';');
    return true;
}
