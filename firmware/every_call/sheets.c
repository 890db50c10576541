/*
 * The planners' sheets: which of them are fine, and which units the check of another names.
 */
#include "sheets.h"

#include <string.h>

enum { UNTOUCHED = 0xFF, UNTOUCHED_UNIT = 0xFFFF }; /* what stands in the answers until there is one */

/* The bytes of B and C, and the signs of D and E, would stand in another order. */
uint16_t unit_of(char letter)
{
    static const uint16_t units[] = {BRAIDLARK_LOWEST_ADDRESS, 0x01FF, 0x0200, 0x7FFF, 0x8000,
                                     BRAIDLARK_HIGHEST_ADDRESS};
    return units[letter - 'A'];
}

void put_unit(uint8_t *place, uint16_t unit)
{
    place[0] = (uint8_t)unit;
    place[1] = (uint8_t)(unit >> 8);
}

/* An empty sheet for a plan. */
static void begin_sheet(struct asked *asked, uint32_t rows, uint32_t data_slots)
{
    memset(asked, 0, sizeof *asked);
    asked->plan_length = BRAIDLARK_PLAN_SIZE;
    EXPECT(braidlark_plan(asked->plan, asked->plan_length, NETWORK, unit_of('A'), 1, rows, data_slots, 20,
                          LONG_BEACONS) == BRAIDLARK_ACCEPTED);
}

static void add_unit(struct asked *asked, uint16_t unit)
{
    put_unit(asked->sheet + asked->sheet_length, unit);
    asked->sheet_length += BRAIDLARK_SHEET_ROW_SIZE;
}

/* To the unit that was added last. */
static void add_slot(struct asked *asked, int slot)
{
    uint8_t *slots = asked->sheet + asked->sheet_length - BRAIDLARK_SHEET_ROW_SIZE + UNIT_SIZE;
    slots[slot / 8] = (uint8_t)(slots[slot / 8] | 1 << slot % 8);
}

static void add_link(struct asked *asked, uint16_t one, uint16_t other)
{
    put_unit(asked->links + asked->links_length, one);
    put_unit(asked->links + asked->links_length + UNIT_SIZE, other);
    asked->links_length += BRAIDLARK_LINK_SIZE;
}

static void take_text(struct asked *asked, const char *sheet, const char *links)
{
    begin_sheet(asked, LISTED, DATA_SLOTS);
    for (; *sheet != '\0'; sheet++)
        if (*sheet >= '0' && *sheet <= '9')
            add_slot(asked, *sheet - '0');
        else if (*sheet != ' ')
            add_unit(asked, unit_of(*sheet));
    for (; *links != '\0'; links += links[2] == ' ' ? 3 : 2)
        add_link(asked, unit_of(links[0]), unit_of(links[1]));
}

static uint8_t check(const struct asked *asked, uint8_t *named, uint16_t *lower, uint16_t *higher)
{
    *named = UNTOUCHED;
    *lower = *higher = UNTOUCHED_UNIT;
    return braidlark_check_sheet(
        asked->plan_length > 0 ? asked->plan : NULL, asked->plan_length, asked->links_length > 0 ? asked->links : NULL,
        asked->links_length, asked->sheet_length > 0 ? asked->sheet : NULL, asked->sheet_length, named, lower, higher);
}

void expect_named(const struct asked *asked, uint8_t expected, uint16_t expected_lower, uint16_t expected_higher)
{
    uint8_t named;
    uint16_t lower, higher;
    EXPECT(check(asked, &named, &lower, &higher) == BRAIDLARK_ACCEPTED);
    EXPECT(named == expected && lower == expected_lower && higher == expected_higher);
}

void expect_refused(const struct asked *asked, uint8_t refusal)
{
    uint8_t named;
    uint16_t lower, higher;
    EXPECT(check(asked, &named, &lower, &higher) == refusal);
    EXPECT(named == UNTOUCHED && lower == UNTOUCHED_UNIT && higher == UNTOUCHED_UNIT);
}

/* ---- the ways to give a sheet, and what is named in all of them */

static void turn_round(uint8_t *bytes, size_t length, size_t size)
{
    uint8_t kept[BRAIDLARK_SHEET_ROW_SIZE];
    size_t low = 0, high = length;
    for (; low + size < high; low += size) {
        high -= size;
        memcpy(kept, bytes + low, size);
        memcpy(bytes + low, bytes + high, size);
        memcpy(bytes + high, kept, size);
    }
}

void give(struct asked *asked, const char *sheet, const char *links, int way)
{
    size_t length;
    take_text(asked, sheet, links);
    length = asked->links_length;
    if (way & ROWS_BACK)
        turn_round(asked->sheet, asked->sheet_length, BRAIDLARK_SHEET_ROW_SIZE);
    if (way & LINKS_TWICE) {
        memcpy(asked->links + length, asked->links, length);
        asked->links_length += length;
    }
    if (way & LINKS_BACK)
        turn_round(asked->links, length, UNIT_SIZE);
}

/* Whichever way it is given, the check names the same units. */
static void expect_always(const char *sheet, const char *links, const char *named)
{
    uint8_t count = (uint8_t)strlen(named);
    struct asked asked;
    int way;
    for (way = 0; way < WAYS; way++) {
        give(&asked, sheet, links, way);
        expect_named(&asked, count, count > 0 ? unit_of(named[0]) : 0, count > 1 ? unit_of(named[1]) : 0);
    }
}

static void name_nobody(void)
{
    static const struct {
        const char *sheet, *links;
    } cases[] = {
        {"", ""},
        {"B0", ""},          /* without the manager */
        {"A2345", ""},       /* as many slots as may be, the plan's last one among them */
        {"A0123 B0123", ""}, /* who is not linked may share all */
        {"A024 B135", "AB"},
        {"A0 B1 C0", "AB"},
        {"A0 B1 C0 D1", "AB CD"},
        {"A0 B1 C2 D0", "AB BC CD"}, /* the ends of a line of four */
        {"A0 B1 C2 D0 E1", "AB BC CD DE"},
        {"A0 B1 C2 D3 E45", "AB AC AD AE BC BD BE CD CE DE"},
    };
    size_t each;
    for (each = 0; each < sizeof cases / sizeof cases[0]; each++)
        expect_always(cases[each].sheet, cases[each].links, "");
}

static void name_a_unit(void)
{
    static const struct {
        const char *sheet, *links, *named;
    } cases[] = {
        {"A", "", "A"},                /* no slot */
        {"A01234", "", "A"},           /* more than four */
        {"A012345", "", "A"},          /* all that the plan has */
        {"A6", "", "A"},               /* one that it does not have */
        {"A0127", "", "A"},            /* the same beside others */
        {"B C01234", "", "B"},         /* the lowest of two */
        {"D6 E", "", "D"},             /* whatever is wrong with each */
        {"A0 B1 E7 F", "AB", "E"},     /* behind two that are fine */
        {"A0 B01234", "AB", "B"},      /* before the pair that it is of */
        {"A0 B0 C", "AB", "C"},        /* before a pair of lower ones, linked */
        {"A0 B0 C1 D6", "AC BC", "D"}, /* or with a common neighbour */
    };
    size_t each;
    for (each = 0; each < sizeof cases / sizeof cases[0]; each++)
        expect_always(cases[each].sheet, cases[each].links, cases[each].named);
}

static void name_a_pair(void)
{
    static const struct {
        const char *sheet, *links, *named;
    } cases[] = {
        {"A0 B0", "AB", "AB"},
        {"B025 C1345", "BC", "BC"},
        {"D0 E0", "DE", "DE"},
        {"E0 F0", "EF", "EF"},
        {"A1 B0 C0", "AB AC", "BC"}, /* a common neighbour below, between and above the two */
        {"A0 B1 C0", "AB BC", "AC"},
        {"A0 B0 C1", "AC BC", "AB"},
        {"A0 B0 C0", "AB BC CA", "AB"},
        {"A0 B1 C1 D0", "AD BC", "AD"},     /* the lowest lower unit */
        {"A01 B2 C0 D1", "AB AC AD", "AC"}, /* then the lowest higher one */
        {"A0 B1 C1 D0", "AB BC BD", "AD"},  /* with a common neighbour before linked ones, and the reverse */
        {"A0 B1 C1 D0", "AD BD CD", "AD"},
        {"A0 B1 C0 D0", "AB BC CD", "AC"},
        {"A0 B1 C2 D2 E0", "AB BC CD DE", "CD"},
    };
    size_t each;
    for (each = 0; each < sizeof cases / sizeof cases[0]; each++)
        expect_always(cases[each].sheet, cases[each].links, cases[each].named);
}

/* Two linked units with a slot each, of all that a plan can have and of those that a mask has beyond. */
static void use_every_slot(void)
{
    struct asked asked;
    int slot, same;
    for (slot = 0; slot < 64; slot++)
        for (same = 0; same < 2; same++) {
            int known = slot < BRAIDLARK_MOST_DATA_SLOTS;
            begin_sheet(&asked, 2, BRAIDLARK_MOST_DATA_SLOTS);
            add_link(&asked, unit_of('A'), unit_of('B'));
            add_unit(&asked, unit_of('A'));
            add_slot(&asked, slot);
            add_unit(&asked, unit_of('B'));
            add_slot(&asked, same ? slot : (slot + 1) % BRAIDLARK_MOST_DATA_SLOTS);
            if (known && !same)
                expect_named(&asked, BRAIDLARK_SHEET_FINE, 0, 0);
            else
                expect_named(&asked, known ? BRAIDLARK_SHEET_PAIR : BRAIDLARK_SHEET_UNIT, unit_of('A'),
                             known ? unit_of('B') : 0);
        }
}

/* As many units as a plan can have rows, each of which hears all others, and one more. */
static void fill_sheet(void)
{
    enum { LOWEST_LISTED = 0x1000, ALL = BRAIDLARK_MOST_MEMBERS };
    struct asked asked;
    int one, other;
    begin_sheet(&asked, ALL, ALL);
    for (one = 0; one < ALL; one++) {
        add_unit(&asked, (uint16_t)(LOWEST_LISTED + one));
        add_slot(&asked, one);
        for (other = 0; other < ALL; other++)
            if (other != one)
                add_link(&asked, (uint16_t)(LOWEST_LISTED + one), (uint16_t)(LOWEST_LISTED + other));
    }
    expect_named(&asked, BRAIDLARK_SHEET_FINE, 0, 0);
    add_slot(&asked, ALL - 2);
    expect_named(&asked, BRAIDLARK_SHEET_PAIR, LOWEST_LISTED + ALL - 2, LOWEST_LISTED + ALL - 1);
    add_unit(&asked, LOWEST_LISTED + ALL);
    expect_refused(&asked, BRAIDLARK_OUT_OF_RULE);
}

void try_sheets(void)
{
    name_nobody();
    name_a_unit();
    name_a_pair();
    use_every_slot();
    fill_sheet();
}
