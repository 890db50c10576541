/*
 * Checks the sheet that a planner sends from a spreadsheet, and draws who shares what: what the program is asked for,
 * and its parts in order. The verdict is the call's, braidlark_check_sheet. The marks of the drawing are the program's
 * own, and where they come to something else it is an error.
 */
#include <stdarg.h>
#include <stdlib.h>
#include <string.h>

#include "sheetview.h"

struct wishes {
    const char *file;
    uint32_t lost_link;
};

static const char USAGE[] =
    "usage: sheetview [--lose N] FILE | -\n"
    "       sheetview --help\n"
    "\n"
    "Checks a sheet on which distant units share data slots, in a FILE or on standard input (-): CSV, as a\n"
    "spreadsheet saves it. The first cell of a row says what it is:\n"
    "\n"
    "  plan,NETWORK,MANAGER,MAX HOPS,ROWS,DATA SLOTS,SLOT MS,BEACONS\n"
    "                         the plan of the site, once; BEACONS is long or short (long if nothing is said)\n"
    "  unit,ADDRESS,SLOT,..   a unit and the data slots proposed for it, counted from 0\n"
    "  link,ADDRESS,ADDRESS   two units that hear each other\n"
    "  #..                    a note, which is passed over, as rows of empty cells are\n"
    "\n"
    "Rows stand in any order, at most 64 of units and 1,024 of links. Between cells stand commas or semicolons, and\n"
    "double quotes may stand around them. Numbers are decimal, or hexadecimal behind 0x; words may have capitals.\n"
    "\n"
    "It draws a line for each unit, with a column for each data slot and the units that it hears: a dot where it\n"
    "does not send, T where it sends alone, S where it shares the slot with units that are far enough away, X where\n"
    "it does so with one that is near: linked, or with a unit that hears both. Slots behind a bar are none of the\n"
    "plan's. Then comes a line for each slot that is shared and, as the last line, the verdict of the library:\n"
    "\n"
    "  fine: ..        the sheet may be used\n"
    "  unit ..         the lowest unit with no slot, more than four, or one that the plan does not have\n"
    "  pair ..         else the first two units that are near and share a slot\n"
    "  refused N: ..   the sheet cannot be judged, and is not drawn: a refusal number, and why\n"
    "\n"
    "  --lose N   the drawing leaves out the N-th link, counted from 1: for trying that the program notices where\n"
    "             its marks and the verdict disagree\n"
    "  --help     this text\n"
    "\n"
    "Status 0: the sheet is fine. 1: it is not, or something was in the way. 2: wrong use, or a file that is no such\n"
    "sheet.\n";

/* Wrong use. */
static void refuse(const char *format, ...) LIKE_PRINTF(1, 2);
static void refuse(const char *format, ...)
{
    fputs("sheetview: ", stderr);
    va_list arguments;
    va_start(arguments, format);
    vfprintf(stderr, format, arguments);
    va_end(arguments);
    fputs("; --help says what there is\n", stderr);
    exit(2);
}

static uint32_t read_lost_link(const char *words)
{
    size_t digits = strspn(words, "0123456789");
    unsigned long long value = strtoull(words, NULL, 10);
    if (digits == 0 || words[digits] != '\0' || value < 1 || value > MOST_LINKS) {
        refuse("--lose takes a number from 1 to %d, not '%s'", MOST_LINKS, words);
    }
    return (uint32_t)value;
}

static struct wishes read_wishes(int count, char **words)
{
    struct wishes wishes = {.file = NULL, .lost_link = 0};
    for (int index = 1; index < count; index++) {
        const char *word = words[index];
        if (strcmp(word, "--help") == 0) {
            fputs(USAGE, stdout);
            words_written();
            exit(EXIT_SUCCESS);
        } else if (strcmp(word, "--lose") == 0) {
            if (++index == count) {
                refuse("--lose needs a number behind it");
            }
            wishes.lost_link = read_lost_link(words[index]);
        } else if (word[0] == '-' && word[1] != '\0') {
            refuse("there is no option '%s'", word);
        } else if (word[0] == '\0') {
            refuse("the name of FILE is empty");
        } else if (wishes.file != NULL) {
            refuse("one FILE at most, and '%s' is one more", word);
        } else {
            wishes.file = word;
        }
    }
    if (wishes.file == NULL) {
        refuse("no FILE is named");
    }
    return wishes;
}

/* Prints all but the verdict, and answers what the program itself comes to. */
static struct verdict draw(const struct sheet *sheet, struct graph *graph, struct reasons *reasons, uint32_t lost_link)
{
    drawing_head(sheet);
    reasons_find(reasons, sheet);
    if (reasons->refusal != BRAIDLARK_ACCEPTED) {
        return (struct verdict){.refusal = reasons->refusal};
    }
    graph_make(graph, sheet, lost_link);
    drawing_print(graph);
    return marks_verdict(graph);
}

int main(int count, char **words)
{
    static struct text text;
    static struct sheet sheet;
    static struct graph graph;
    static struct reasons reasons;
    struct wishes wishes = read_wishes(count, words);
    text_read(&text, wishes.file);
    rows_read(&sheet, &text);
    if (wishes.lost_link > (uint32_t)sheet.link_count) {
        refuse("--lose %u leaves out no link, for there are %d", (unsigned)wishes.lost_link, sheet.link_count);
    }
    struct verdict verdict = verdict_ask(&sheet), own = draw(&sheet, &graph, &reasons, wishes.lost_link);
    verdict_compare(&verdict, &own);
    verdict_tell(&verdict, &graph, &reasons);
    words_written();
    bool is_fine = verdict.refusal == BRAIDLARK_ACCEPTED && verdict.named == BRAIDLARK_SHEET_FINE;
    return is_fine ? EXIT_SUCCESS : EXIT_FAILURE;
}
