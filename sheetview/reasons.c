/*
 * Why a sheet is refused, and on which lines: the program's own search, in the order of the call, whose refusal is no
 * more than a number.
 */
#include <stdarg.h>
#include <string.h>

#include "sheetview.h"

static bool has_line(const struct reasons *reasons, size_t line)
{
    bool has = reasons->first_line == line;
    for (int index = 0; index < reasons->further; index++) {
        has = has || reasons->lines[index] == line;
    }
    return has;
}

static void add(struct reasons *reasons, uint8_t refusal, size_t line, const char *format, ...) LIKE_PRINTF(4, 5);
static void add(struct reasons *reasons, uint8_t refusal, size_t line, const char *format, ...)
{
    if (reasons->refusal == BRAIDLARK_ACCEPTED) {
        reasons->refusal = refusal;
        reasons->first_line = line;
        va_list arguments;
        va_start(arguments, format);
        vsnprintf(reasons->first, sizeof reasons->first, format, arguments);
        va_end(arguments);
    } else if (!has_line(reasons, line)) {
        reasons->lines[reasons->further++] = line;
    }
}

static void look_at_address(struct reasons *reasons, size_t line, uint16_t address)
{
    if (address < BRAIDLARK_LOWEST_ADDRESS || address > BRAIDLARK_HIGHEST_ADDRESS) {
        add(reasons, BRAIDLARK_BAD_FIELD, line, "0x%04X is no unit's address: %d to 0x%04X", (unsigned)address,
            BRAIDLARK_LOWEST_ADDRESS, BRAIDLARK_HIGHEST_ADDRESS);
    }
}

/* The slots in use and those of a superframe, as document 01 counts them. */
static uint32_t active_slots(const struct plan *plan)
{
    uint32_t thirds = (plan->rows + 2) / 3, discovery = thirds < 2 ? 2 : thirds > 5 ? 5 : thirds;
    return plan->max_hops + 1 + plan->rows + plan->data_slots + discovery;
}

static uint32_t superframe_ms(const struct plan *plan)
{
    uint32_t slots = (10 * active_slots(plan) + 2) / 3;
    return (slots < BRAIDLARK_MOST_SLOTS ? slots : BRAIDLARK_MOST_SLOTS) * plan->slot_ms;
}

static void look_at_plan(struct reasons *reasons, const struct plan *plan)
{
    uint8_t refusal = BRAIDLARK_OUT_OF_RULE;
    if (plan->network == 0) {
        add(reasons, refusal, plan->line, "the plan's network is 0, which is none");
    } else if (plan->manager < BRAIDLARK_LOWEST_ADDRESS || plan->manager > BRAIDLARK_HIGHEST_ADDRESS) {
        add(reasons, refusal, plan->line, "the plan's manager, 0x%04X, is no unit's address", (unsigned)plan->manager);
    } else if (plan->max_hops < 1 || plan->max_hops > BRAIDLARK_MOST_HOPS) {
        add(reasons, refusal, plan->line, "the plan's max hops are 1 to %d, not %u", BRAIDLARK_MOST_HOPS,
            (unsigned)plan->max_hops);
    } else if (plan->rows < BRAIDLARK_FEWEST_ROWS) {
        add(reasons, refusal, plan->line, "a plan has at least %d rows, not %u", BRAIDLARK_FEWEST_ROWS,
            (unsigned)plan->rows);
    } else if (plan->data_slots < plan->rows) {
        add(reasons, refusal, plan->line, "the plan has %u data slots for %u rows: at least one for each",
            (unsigned)plan->data_slots, (unsigned)plan->rows);
    } else if (active_slots(plan) > BRAIDLARK_MOST_ACTIVE_SLOTS) {
        add(reasons, refusal, plan->line, "the plan has %u slots in use, at most %d", (unsigned)active_slots(plan),
            BRAIDLARK_MOST_ACTIVE_SLOTS);
    } else if (plan->slot_ms == 0) {
        add(reasons, refusal, plan->line, "the plan's slots have 0 ms: at least 1");
    } else {
        add(reasons, refusal, plan->line, "the plan's superframe has %u ms: with long beacons at most %d",
            (unsigned)superframe_ms(plan), BRAIDLARK_LONGEST_PLAN_MS);
    }
}

static const struct unit *find(const struct sheet *sheet, uint16_t address)
{
    for (int unit = 0; unit < sheet->unit_count; unit++) {
        if (sheet->units[unit].address == address) {
            return &sheet->units[unit];
        }
    }
    return NULL;
}

static void look_at_units(struct reasons *reasons, const struct sheet *sheet)
{
    if ((uint32_t)sheet->unit_count > sheet->plan.rows) {
        add(reasons, BRAIDLARK_OUT_OF_RULE, sheet->units[sheet->plan.rows].line,
            "one unit too many: the plan has %u rows", (unsigned)sheet->plan.rows);
    }
    for (int index = 0; index < sheet->unit_count; index++) {
        const struct unit *unit = &sheet->units[index], *first = find(sheet, unit->address);
        if (first != unit) {
            add(reasons, BRAIDLARK_OUT_OF_RULE, unit->line, "unit 0x%04X stands on line %zu already",
                (unsigned)unit->address, first->line);
        }
    }
}

static void look_at_link(struct reasons *reasons, const struct sheet *sheet, const struct link *link)
{
    for (int end = 0; end < 2; end++) {
        if (find(sheet, link->ends[end]) == NULL) {
            add(reasons, BRAIDLARK_OUT_OF_RULE, link->line, "the link names 0x%04X, which is no unit of the sheet",
                (unsigned)link->ends[end]);
        }
    }
    if (link->ends[0] == link->ends[1]) {
        add(reasons, BRAIDLARK_OUT_OF_RULE, link->line, "the link names 0x%04X twice", (unsigned)link->ends[0]);
    }
}

/* A bad address goes before everything else, so that where there is one nothing else is looked for. */
void reasons_find(struct reasons *reasons, const struct sheet *sheet)
{
    uint8_t plan[BRAIDLARK_PLAN_SIZE];
    memset(reasons, 0, sizeof *reasons);
    for (int unit = 0; unit < sheet->unit_count; unit++) {
        look_at_address(reasons, sheet->units[unit].line, sheet->units[unit].address);
    }
    for (int link = 0; link < sheet->link_count; link++) {
        look_at_address(reasons, sheet->links[link].line, sheet->links[link].ends[0]);
        look_at_address(reasons, sheet->links[link].line, sheet->links[link].ends[1]);
    }
    if (reasons->refusal != BRAIDLARK_ACCEPTED) {
        return;
    }
    if (!sheet_plan(&sheet->plan, plan)) {
        look_at_plan(reasons, &sheet->plan);
    }
    look_at_units(reasons, sheet);
    for (int link = 0; link < sheet->link_count; link++) {
        look_at_link(reasons, sheet, &sheet->links[link]);
    }
}
