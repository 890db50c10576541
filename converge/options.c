/*
 * What the program is asked for: its arguments read, and refused where no site can be had of them.
 */
#include <stdarg.h>
#include <stdlib.h>
#include <string.h>

#include "converge.h"

static const char USAGE[] =
    "usage: converge [--units N] [--links N] [--seed N] [--sites N] [--lose N] [--help]\n"
    "\n"
    "Plays how a new site comes to know itself. Units with empty tables tell their neighbours what they know, round\n"
    "by round. After each round every table has to name exactly the units within as many links as there were rounds,\n"
    "each with the fewest hops; when all are known, every path is followed from next hop to next hop.\n"
    "\n"
    "  --units N    the site has N units, 2 to 49 (49 if nothing is said)\n"
    "  --links N    it has N two-way links in all, from one less than units to one for any two units (if nothing is\n"
    "               said, a quarter of the units more than the fewest: 60 for 49 units)\n"
    "  --seed N     which site is drawn: the same for the same number, 0 to 4294967295 (15 if nothing is said)\n"
    "  --sites N    plays N sites, 1 to 1000000, with seeds counted up, and prints a line for each; if nothing is\n"
    "               said of units or links, they differ from site to site\n"
    "  --lose N     the N-th page that is heard, counted from 1 over the whole run, is lost: for trying that the\n"
    "               program notices\n"
    "  --help       this text\n"
    "\n"
    "Status 0: every table was as proved. 1: one was not, and standard error says which. 2: a bad argument, a site\n"
    "that could not be drawn, or output that could not be written.\n";

/* An option that a number follows. */
struct option {
    const char *name;
    uint32_t least;
    uint32_t most;
    uint32_t *value;
};

static void refuse(const char *format, ...) LIKE_PRINTF(1, 2);
static void refuse(const char *format, ...)
{
    fputs("converge: ", stderr);
    va_list arguments;
    va_start(arguments, format);
    vfprintf(stderr, format, arguments);
    va_end(arguments);
    fputs("; --help says what there is\n", stderr);
    exit(2);
}

static uint32_t number_for(const struct option *option, const char *words)
{
    size_t digits = strspn(words, "0123456789");
    unsigned long long value = strtoull(words, NULL, 10);
    if (digits == 0 || digits > 10 || words[digits] != '\0' || value < option->least || value > option->most) {
        refuse("%s takes a number from %u to %u, not '%s'", option->name, (unsigned)option->least,
               (unsigned)option->most, words);
    }
    return (uint32_t)value;
}

/* A number of links that was said has to do for the number of units, so that has to be one for all sites. */
static void check_links(const struct wishes *wishes)
{
    uint32_t units = options_units(wishes, wishes->seed), fewest = units - 1, most = units * (units - 1) / 2;
    if (wishes->sites > 1 && wishes->units == 0) {
        refuse("--links together with --sites needs --units");
    }
    if (wishes->links < fewest || wishes->links > most) {
        refuse("%u units take %u to %u links, not %u", (unsigned)units, (unsigned)fewest, (unsigned)most,
               (unsigned)wishes->links);
    }
}

/* From the seed that is taken if none is said, 40 sites have from 2 to 49 units and diameters from 1 to 16: both ends
 * of what the theorem is about. */
struct wishes options_read(int count, char **words)
{
    struct wishes wishes = {.seed = 15, .sites = 1};
    const struct option options[] = {
        {"--units", FEWEST_UNITS, MOST_UNITS, &wishes.units}, {"--links", 1, MOST_LINKS, &wishes.links},
        {"--seed", 0, UINT32_MAX, &wishes.seed},              {"--sites", 1, 1000000, &wishes.sites},
        {"--lose", 1, UINT32_MAX, &wishes.lost_page},
    };
    size_t known = sizeof options / sizeof options[0];
    for (int index = 1; index < count; index++) {
        const char *word = words[index];
        size_t option = 0;
        if (strcmp(word, "--help") == 0) {
            fputs(USAGE, stdout);
            exit(EXIT_SUCCESS);
        }
        while (option < known && strcmp(word, options[option].name) != 0) {
            option++;
        }
        if (option == known) {
            refuse("there is no option '%s'", word);
        } else if (++index == count) {
            refuse("%s needs a number behind it", word);
        } else {
            *options[option].value = number_for(&options[option], words[index]);
        }
    }
    if (wishes.links != 0) {
        check_links(&wishes);
    }
    return wishes;
}

/* How many units the site of a seed has. In a sweep seeds that follow one another give every number. */
uint32_t options_units(const struct wishes *wishes, uint32_t seed)
{
    if (wishes->units != 0) {
        return wishes->units;
    }
    return wishes->sites == 1 ? MOST_UNITS : FEWEST_UNITS + seed % (MOST_UNITS - FEWEST_UNITS + 1);
}

/* And how many links: few enough for several rounds. In a sweep sites are trees, or have up to half as many links more
 * as they have units. */
uint32_t options_links(const struct wishes *wishes, uint32_t seed)
{
    if (wishes->links != 0) {
        return wishes->links;
    }
    uint32_t units = options_units(wishes, seed), most = units * (units - 1) / 2;
    uint32_t eighths = wishes->sites == 1 ? 2 : seed % 5;
    uint32_t links = units - 1 + units * eighths / 8;
    return links < most ? links : most;
}
