/*
 * What is printed above the verdict: how much the sheet has, a line for each unit with a mark for each data slot and
 * with the units that it hears, and a line for each slot that is shared.
 */
#include "sheetview.h"

void drawing_head(const struct sheet *sheet)
{
    int data_slots = (int)sheet->plan.data_slots;
    printf("%d unit%s, %d link%s, %d data slot%s\n", sheet->unit_count, words_plural(sheet->unit_count),
           sheet->link_count, words_plural(sheet->link_count), data_slots, words_plural(data_slots));
}

/* The plan's data slots, and all up to the last one that a unit names past them. */
static int count_columns(const struct graph *graph)
{
    int columns = (int)graph->data_slots;
    for (int unit = 0; unit < graph->unit_count; unit++) {
        for (int slot = columns; slot < MASK_SLOTS; slot++) {
            columns = marks_sends(graph, unit, slot) ? slot + 1 : columns;
        }
    }
    return columns;
}

/* A bar stands behind the last slot of the plan where a column follows. */
static void put_column(const struct graph *graph, int slot, int letter)
{
    if (slot == (int)graph->data_slots) {
        putchar('|');
    }
    putchar(letter);
}

static void print_ruler(const struct graph *graph, int columns)
{
    printf("\n        ");
    for (int slot = 0; slot <= (columns - 1) / 10 * 10; slot++) {
        put_column(graph, slot, slot % 10 == 0 ? '0' + slot / 10 : ' ');
    }
    printf("\n        ");
    for (int slot = 0; slot < columns; slot++) {
        put_column(graph, slot, '0' + slot % 10);
    }
    puts("  hears");
}

static void print_unit(const struct graph *graph, int unit, int columns)
{
    printf("0x%04X  ", (unsigned)graph->units[unit]->address);
    for (int slot = 0; slot < columns; slot++) {
        put_column(graph, slot, marks_at(graph, unit, slot));
    }
    int heard = 0;
    for (int other = 0; other < graph->unit_count; other++) {
        if (graph->linked[unit][other]) {
            printf("%s0x%04X", heard++ == 0 ? "  " : " ", (unsigned)graph->units[other]->address);
        }
    }
    puts(heard == 0 ? "  nobody" : "");
}

static int count_senders(const struct graph *graph, int slot)
{
    int senders = 0;
    for (int unit = 0; unit < graph->unit_count; unit++) {
        senders += marks_sends(graph, unit, slot);
    }
    return senders;
}

static void print_senders(const struct graph *graph, int slot)
{
    int senders = count_senders(graph, slot), told = 0;
    printf("slot %d: ", slot);
    for (int unit = 0; unit < graph->unit_count; unit++) {
        if (marks_sends(graph, unit, slot)) {
            printf("%s0x%04X", words_between(told++, senders), (unsigned)graph->units[unit]->address);
        }
    }
    putchar('\n');
}

/* Of a sheet without units there is nothing to draw. */
void drawing_print(const struct graph *graph)
{
    int columns = count_columns(graph);
    if (graph->unit_count == 0) {
        return;
    }
    print_ruler(graph, columns);
    for (int unit = 0; unit < graph->unit_count; unit++) {
        print_unit(graph, unit, columns);
    }
    bool is_first = true;
    for (int slot = 0; slot < columns; slot++) {
        if (count_senders(graph, slot) > 1) {
            fputs(is_first ? "\n" : "", stdout);
            is_first = false;
            print_senders(graph, slot);
        }
    }
}
