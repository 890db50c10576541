/*
 * The sheet as the bytes that the call takes, its rows and links in the order of the file.
 */
#include <string.h>

#include "sheetview.h"

static uint8_t *put_number(uint8_t *at, int bytes, uint64_t number)
{
    for (int index = 0; index < bytes; index++) {
        *at++ = (uint8_t)(number >> 8 * index);
    }
    return at;
}

/* False where the plan is out of rule: then its bytes stay as they are. */
bool sheet_plan(const struct plan *plan, uint8_t *bytes)
{
    return braidlark_plan(bytes, BRAIDLARK_PLAN_SIZE, plan->network, plan->manager, plan->max_hops, plan->rows,
                          plan->data_slots, plan->slot_ms, plan->beacon) == BRAIDLARK_ACCEPTED;
}

/* A plan out of rule has no bytes: zeros stand for it, which are a plan out of rule too, so that the call says which of
 * its refusals comes first. */
void sheet_write(const struct sheet *sheet, struct sheet_bytes *bytes)
{
    memset(bytes, 0, sizeof *bytes);
    sheet_plan(&sheet->plan, bytes->plan);
    uint8_t *at = bytes->units;
    for (int unit = 0; unit < sheet->unit_count; unit++) {
        at = put_number(at, 2, sheet->units[unit].address);
        at = put_number(at, 8, sheet->units[unit].slots);
    }
    at = bytes->links;
    for (int link = 0; link < sheet->link_count; link++) {
        at = put_number(at, 2, sheet->links[link].ends[0]);
        at = put_number(at, 2, sheet->links[link].ends[1]);
    }
}
