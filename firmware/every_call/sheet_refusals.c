/*
 * What the check of a sheet refuses, in order: lengths, addresses, then the plan, the units and the links. The sheets
 * would offend, too.
 */
#include "sheets.h"

/* Another length is said before an address that is none. */
static void refuse_lengths(void)
{
    enum { PLAN = BRAIDLARK_PLAN_SIZE, LINK = BRAIDLARK_LINK_SIZE, ROW = BRAIDLARK_SHEET_ROW_SIZE };
    static const struct {
        size_t plan, links, sheet;
    } lengths[] = {
        {0, LINK, 2 * ROW},        {PLAN - 1, LINK, 2 * ROW}, {PLAN + 1, LINK, 2 * ROW}, {PLAN, 1, 2 * ROW},
        {PLAN, LINK - 1, 2 * ROW}, {PLAN, LINK + 1, 2 * ROW}, {PLAN, LINK + 2, 2 * ROW}, {PLAN, LINK, 1},
        {PLAN, LINK, ROW - 1},     {PLAN, LINK, ROW + 1},     {PLAN, LINK, ROW + 2},     {PLAN, LINK, 2 * ROW - 1},
    };
    struct asked asked;
    size_t each;
    for (each = 0; each < sizeof lengths / sizeof lengths[0]; each++) {
        give(&asked, "A0 B0", "AB", 0);
        asked.plan_length = lengths[each].plan;
        asked.links_length = lengths[each].links;
        asked.sheet_length = lengths[each].sheet;
        expect_refused(&asked, BRAIDLARK_OUT_OF_RULE);
        put_unit(asked.links, 0);
        put_unit(asked.sheet, 0);
        expect_refused(&asked, BRAIDLARK_OUT_OF_RULE);
    }
}

/* An address that is none is said before all that is behind, wherever it stands. */
static void refuse_addresses(const struct asked *asked)
{
    static const uint16_t none[] = {0, BRAIDLARK_EVERY_UNIT};
    struct asked spoilt = *asked;
    size_t each, place;
    for (each = 0; each < sizeof none / sizeof none[0]; each++) {
        for (place = 0; place < asked->sheet_length; place += BRAIDLARK_SHEET_ROW_SIZE) {
            put_unit(spoilt.sheet + place, none[each]);
            expect_refused(&spoilt, BRAIDLARK_BAD_FIELD);
            spoilt = *asked;
        }
        for (place = 0; place < asked->links_length; place += UNIT_SIZE) {
            put_unit(spoilt.links + place, none[each]);
            expect_refused(&spoilt, BRAIDLARK_BAD_FIELD);
            spoilt = *asked;
        }
    }
}

/* One of a plan's bytes is out of rule. Beacons of either kind will do. */
static void refuse_plans(void)
{
    static const struct {
        uint8_t place, byte;
    } flaws[] = {
        {0, 0}, /* the network */
        {2, 0}, /* the manager */
        {4, 0}, /* max hops */
        {4, BRAIDLARK_MOST_HOPS + 1},
        {5, BRAIDLARK_FEWEST_ROWS - 1}, /* rows */
        {5, BRAIDLARK_MOST_MEMBERS + 1},
        {6, LISTED - 1}, /* data slots, of which each row needs one */
        {6, BRAIDLARK_MOST_DATA_SLOTS + 1},
        {7, 0},                /* the ms of a slot */
        {9, LONG_BEACONS - 1}, /* the kind of beacons */
        {9, SHORT_BEACONS + 1},
    };
    struct asked asked;
    size_t each;
    for (each = 0; each < sizeof flaws / sizeof flaws[0]; each++) {
        give(&asked, "A0 B0", "AB", 0);
        asked.plan[flaws[each].place] = flaws[each].byte;
        expect_refused(&asked, BRAIDLARK_OUT_OF_RULE);
        refuse_addresses(&asked);
    }
    give(&asked, "A0 B0", "AB", 0);
    refuse_addresses(&asked);
    asked.plan[9] = SHORT_BEACONS;
    expect_named(&asked, BRAIDLARK_SHEET_PAIR, unit_of('A'), unit_of('B'));
}

static void refuse_sheets(void)
{
    static const struct {
        const char *sheet, *links;
    } cases[] = {
        {"A0 B0 C1 D2 E3 F4", "AB"}, /* more units than the plan has rows */
        {"A0 A0", ""},               /* a unit listed twice */
        {"A0 B0 A1", "AB"},
        {"A0 B0 B", "AB"},
        {"A0 B0", "AB AF"}, /* a link that names a unit that is not on the sheet */
        {"A0 B0", "FB AB"},
        {"A0 B0", "AB CD"},
        {"", "AB"},
        {"A0 B0", "AB AA"}, /* a link that names one unit twice */
        {"A0", "AA"},
    };
    struct asked asked;
    size_t each;
    int way;
    for (each = 0; each < sizeof cases / sizeof cases[0]; each++)
        for (way = 0; way < WAYS; way++) {
            give(&asked, cases[each].sheet, cases[each].links, way);
            expect_refused(&asked, BRAIDLARK_OUT_OF_RULE);
            refuse_addresses(&asked);
        }
}

void try_sheet_refusals(void)
{
    refuse_lengths();
    refuse_plans();
    refuse_sheets();
}
