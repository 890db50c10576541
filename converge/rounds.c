/*
 * A round: each unit hears all pages that its neighbours write from their tables as these stood before the round, and
 * merges them in any order.
 */
#include <string.h>

#include "converge.h"

struct page {
    int sender;
    uint32_t number;
    uint32_t length;
    uint8_t bytes[BRAIDLARK_MOST_FRAME];
};

/* What comes to one unit in a round. */
struct heard {
    struct page pages[(MOST_UNITS - 1) * MOST_PAGES];
    int count;
};

/* The bytes of a page, or 0 where there is no such page: before the round the sender's table named exactly the units
 * within one link fewer than the round has as its number. */
static uint32_t expected_length(const struct site *site, int sender, uint32_t number)
{
    uint32_t named = (uint32_t)graph_within(&site->graph, sender, site->round - 1);
    uint32_t earlier = number * BRAIDLARK_MOST_ENTRIES;
    if (number > 0 && earlier >= named) {
        return 0;
    }
    uint32_t left = named - earlier;
    uint32_t entries = left < BRAIDLARK_MOST_ENTRIES ? left : BRAIDLARK_MOST_ENTRIES;
    return BRAIDLARK_LENGTH_UPDATE + entries * BRAIDLARK_ENTRY_SIZE;
}

/* Writes a page into a buffer that it just fits into, or that has room to spare; false where there is no such page. */
static bool write_page(struct site *site, int sender, uint32_t number, struct page *page)
{
    const struct unit *self = &site->units[sender];
    uint32_t expected = expected_length(site, sender, number);
    uint32_t room = expected + random_below(&site->random, BRAIDLARK_MOST_FRAME - expected + 1);
    uint8_t expected_status = expected == 0 ? BRAIDLARK_OUT_OF_RULE : BRAIDLARK_ACCEPTED;
    *page = (struct page){.sender = sender, .number = number};
    uint8_t status = braidlark_page(self->before, sizeof self->before, number, unit_tick(site, sender), page->bytes,
                                    room, &page->length);
    site->tally.calls++;
    if (status != expected_status) {
        differ(site, "page %u of unit %04X: expected %d, answered %d", (unsigned)number, self->address, expected_status,
               status);
    }
    if (page->length != expected) {
        differ(site, "page %u of unit %04X: expected %u bytes, written are %u", (unsigned)number, self->address,
               (unsigned)expected, (unsigned)page->length);
    }
    return status == BRAIDLARK_ACCEPTED;
}

/* All pages of all neighbours. */
static void hear_neighbours(struct site *site, int unit, struct heard *heard)
{
    heard->count = 0;
    for (int sender = 0; sender < site->graph.units; sender++) {
        struct page page;
        uint32_t number = 0;
        while (site->graph.linked[unit][sender] && write_page(site, sender, number, &page)) {
            heard->pages[heard->count++] = page;
            number++;
        }
    }
}

/* Into any order, whoever sent them. */
static void mix(struct site *site, struct heard *heard)
{
    for (int left = heard->count; left > 1; left--) {
        int index = (int)random_below(&site->random, (uint32_t)left);
        struct page last = heard->pages[left - 1];
        heard->pages[left - 1] = heard->pages[index];
        heard->pages[index] = last;
    }
}

/* Often the lowest that is accepted: routes of it are the nearest to being refused. */
static uint8_t draw_quality(struct site *site)
{
    uint32_t spread = UINT8_MAX - BRAIDLARK_LOWEST_QUALITY + 1;
    uint32_t above = random_below(&site->random, 4) > 0 ? random_below(&site->random, spread) : 0;
    return (uint8_t)(BRAIDLARK_LOWEST_QUALITY + above);
}

static void merge(struct site *site, int unit, const struct page *page)
{
    struct unit *self = &site->units[unit];
    uint8_t quality = draw_quality(site);
    uint8_t skipped = UINT8_MAX;    /* so that it shows whether 0 was written */
    uint16_t compared = UINT16_MAX; /* and here, whether anything was */
    uint8_t status = braidlark_merge(self->table, sizeof self->table, page->bytes, page->length, quality,
                                     unit_tick(site, unit), &skipped, &compared);
    site->tally.calls++;
    if (status != BRAIDLARK_ACCEPTED || skipped != 0) {
        differ(site, "unit %04X merges page %u of unit %04X: expected 0 with 0 skipped, answered %d with %d skipped",
               self->address, (unsigned)page->number, site->units[page->sender].address, status, skipped);
    }
    if (compared > BRAIDLARK_MOST_COMPARED) {
        differ(site, "unit %04X merges page %u of unit %04X: expected at most %d rows compared, answered %d",
               self->address, (unsigned)page->number, site->units[page->sender].address, BRAIDLARK_MOST_COMPARED,
               compared);
    }
}

static void listen(struct site *site, int unit)
{
    struct heard heard;
    hear_neighbours(site, unit, &heard);
    mix(site, &heard);
    for (int index = 0; index < heard.count; index++) {
        const struct page *page = &heard.pages[index];
        site->tally.pages++;
        if (site->tally.pages != site->lost_page) {
            merge(site, unit, page);
        } else {
            printf("round %d: page %u of unit %04X is lost on its way to unit %04X\n", site->round,
                   (unsigned)page->number, site->units[page->sender].address, site->units[unit].address);
        }
    }
}

void round_play(struct site *site)
{
    for (int unit = 0; unit < site->graph.units; unit++) {
        struct unit *self = &site->units[unit];
        memcpy(self->before, self->table, sizeof self->before);
    }
    for (int unit = 0; unit < site->graph.units; unit++) {
        listen(site, unit);
    }
}
