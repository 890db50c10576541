/*
 * What the picture of the night is drawn from: values that belong to one unit at a time, of which only the changes are
 * kept, and the tries of orders that were lost.
 */
#include "greenhouse.h"

void record_note(struct record *record, uint64_t time, int unit)
{
    bool same = record->count > 0 ? record->changes[record->count - 1].unit == unit : unit == NOBODY;
    if (same || record->count == MOST_CHANGES) {
        return;
    }
    record->changes[record->count].time = time;
    record->changes[record->count].unit = unit;
    record->count++;
}

void record_loss(struct site *site, int order)
{
    if (site->loss_count < MOST_LOSSES) {
        site->losses[site->loss_count++] = (struct loss){.time = site->now, .order = order};
    }
}
