/*
 * The verdict, which is the call's: what it says of the sheet, in words that name the slots and units it is about. The
 * program's own view only has to agree, and it is an error where it does not.
 */
#include "sheetview.h"

struct verdict verdict_ask(const struct sheet *sheet)
{
    struct sheet_bytes bytes;
    struct verdict verdict = {.refusal = BRAIDLARK_ACCEPTED};
    sheet_write(sheet, &bytes);
    verdict.refusal = braidlark_check_sheet(
        bytes.plan, sizeof bytes.plan, bytes.links, (size_t)sheet->link_count * BRAIDLARK_LINK_SIZE, bytes.units,
        (size_t)sheet->unit_count * BRAIDLARK_SHEET_ROW_SIZE, &verdict.named, &verdict.lower, &verdict.higher);
    return verdict;
}

/* In a few words. */
static void describe(const struct verdict *verdict, char *words, size_t size)
{
    if (verdict->refusal != BRAIDLARK_ACCEPTED) {
        snprintf(words, size, "refused %u", (unsigned)verdict->refusal);
    } else if (verdict->named == BRAIDLARK_SHEET_FINE) {
        snprintf(words, size, "fine");
    } else if (verdict->named == BRAIDLARK_SHEET_UNIT) {
        snprintf(words, size, "unit 0x%04X", (unsigned)verdict->lower);
    } else {
        snprintf(words, size, "pair 0x%04X 0x%04X", (unsigned)verdict->lower, (unsigned)verdict->higher);
    }
}

void verdict_compare(const struct verdict *call, const struct verdict *own)
{
    char said[32], seen[32];
    if (call->refusal != own->refusal || call->named != own->named || call->lower != own->lower ||
        call->higher != own->higher) {
        describe(call, said, sizeof said);
        describe(own, seen, sizeof seen);
        fail("the call says '%s', and the program itself comes to '%s': one of them is wrong", said, seen);
    }
}

static void tell_slots(uint64_t slots)
{
    int count = marks_count(slots), told = 0;
    printf("slot%s ", words_plural(count));
    for (int slot = 0; slot < MASK_SLOTS; slot++) {
        if ((slots >> slot & 1) != 0) {
            printf("%s%d", words_between(told++, count), slot);
        }
    }
}

static void tell_unit(const struct graph *graph, int unit)
{
    uint64_t past = marks_past(graph, unit);
    int held = marks_count(graph->units[unit]->slots);
    printf("unit 0x%04X: ", (unsigned)graph->units[unit]->address);
    if (held == 0) {
        printf("no slot, at least one");
    }
    if (held > BRAIDLARK_MOST_HELD) {
        printf("%d slots, four at most%s", held, past == 0 ? "" : "; ");
    }
    if (past != 0) {
        tell_slots(past);
        printf(marks_count(past) == 1 ? " is not one" : " are not");
        printf(" of the plan's %u", (unsigned)graph->data_slots);
    }
    putchar('\n');
}

static void tell_between(const struct graph *graph, int one, int other)
{
    int count = 0, told = 0;
    for (int between = 0; between < graph->unit_count; between++) {
        count += graph_has_common(graph, one, other, between);
    }
    for (int between = 0; between < graph->unit_count; between++) {
        if (graph_has_common(graph, one, other, between)) {
            printf("%s0x%04X", words_between(told++, count), (unsigned)graph->units[between]->address);
        }
    }
    puts(count == 1 ? " hears both" : " hear both");
}

static void tell_pair(const struct graph *graph, int one, int other)
{
    printf("pair 0x%04X 0x%04X: both send in ", (unsigned)graph->units[one]->address,
           (unsigned)graph->units[other]->address);
    tell_slots(graph->units[one]->slots & graph->units[other]->slots);
    printf(", and ");
    if (graph->linked[one][other]) {
        puts("are linked");
    } else {
        tell_between(graph, one, other);
    }
}

static void tell_further(const struct reasons *reasons)
{
    enum { MOST_TOLD = 8 };
    int told = reasons->further < MOST_TOLD ? reasons->further : MOST_TOLD, more = reasons->further - told;
    printf("; line%s ", words_plural(reasons->further));
    for (int index = 0; index < told; index++) {
        printf("%s%zu", words_between(index, told + (more > 0)), reasons->lines[index]);
    }
    if (more > 0) {
        printf(" and %d more", more);
    }
    printf(reasons->further == 1 ? " is a reason too" : " are reasons too");
}

static void tell_refusal(const struct reasons *reasons)
{
    printf("refused %u: line %zu: %s", (unsigned)reasons->refusal, reasons->first_line, reasons->first);
    if (reasons->further > 0) {
        tell_further(reasons);
    }
    putchar('\n');
}

/* The last line. The program's own view is the same. */
void verdict_tell(const struct verdict *verdict, const struct graph *graph, const struct reasons *reasons)
{
    putchar('\n');
    if (verdict->refusal != BRAIDLARK_ACCEPTED) {
        tell_refusal(reasons);
    } else if (verdict->named == BRAIDLARK_SHEET_UNIT) {
        tell_unit(graph, graph_find(graph, verdict->lower));
    } else if (verdict->named == BRAIDLARK_SHEET_PAIR) {
        tell_pair(graph, graph_find(graph, verdict->lower), graph_find(graph, verdict->higher));
    } else if (graph->unit_count == 0) {
        puts("fine: no unit is on the sheet");
    } else {
        printf("fine: every unit has 1 to %d of the plan's %u data slots, and near ones share none\n",
               BRAIDLARK_MOST_HELD, (unsigned)graph->data_slots);
    }
}
