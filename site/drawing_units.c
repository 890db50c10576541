/*
 * How the units look in the picture. Any two colours differ clearly for those too who see no red, no green or no blue:
 * dark ones for the office and the relays, light ones for the benches.
 */
#include <string.h>

#include "drawing.h"

static const char *const COLOURS[UNITS] = {
    [OFFICE] = "#2b2b2b",  [MIDDLE_RELAY] = "#b52008", [NORTH_RELAY] = "#193ba9", [BACK_RELAY] = "#03705b",
    [BENCH_1] = "#9a85ff", [BENCH_2] = "#de7d4c",      [BENCH_3] = "#fed4a8",     [BENCH_4] = "#ffa9b6",
    [BENCH_5] = "#8fb7ff", [BENCH_6] = "#12aa7f",      [BENCH_7] = "#c9deff",     [BENCH_8] = "#aea700",
    [BENCH_9] = "#d2e906",
};

const char *drawing_colour(int unit)
{
    return COLOURS[unit];
}

/* The colour of words on that of the unit. */
const char *drawing_ink(int unit)
{
    return unit < BENCH_1 ? "#fff" : "#111";
}

const char *drawing_name(const struct site *site, int unit)
{
    static const char ARTICLE[] = "the ";
    const char *name = site->units[unit].name;
    size_t length = strlen(ARTICLE);
    return strncmp(name, ARTICLE, length) == 0 ? name + length : name;
}
