/*
 * A night in a greenhouse, played with real frames over lossy links through the calls of braidlark.h: what the program
 * is asked for, and its parts in order.
 */
#include <stdlib.h>
#include <string.h>

#include "greenhouse.h"

struct wishes {
    uint32_t length_ms;
    bool short_beacons;
    uint32_t seed;
    const char *drawing;
};

static const char USAGE[] =
    "usage: greenhouse [--hours N | --short] [--short-beacons] [--seed N] [--svg FILE] [--help]\n"
    "\n"
    "Plays a night in a greenhouse whose middle relay is unbolted and whose office has a power cut, and checks what\n"
    "happens. In the morning after it the office dies for good and a relay takes over, which takes 24 min more (with\n"
    "--short-beacons 64). The clocks of the units have run for 49.7 days: the office's starts 21 min 30 s before\n"
    "2^32 ms (with --short-beacons 34 min 50 s) and the others within a minute of it, so that they begin again at 0\n"
    "after the unbolting and before it is noticed.\n"
    "\n"
    "  --hours N        the night has N hours, 2 to 12 (9 if nothing is said)\n"
    "  --short          the night has one hour (with --short-beacons two), with all that happens in it; not together\n"
    "                   with --hours\n"
    "  --short-beacons  the plan has short beacons and slots of 1,000 ms, not 200: a superframe of 100 s, which is\n"
    "                   longer than long beacons can say, and no image of the book\n"
    "  --seed N         which packets are lost: the same for the same number, 0 to 4294967295 (7 if nothing is said)\n"
    "  --svg FILE       also draws the night: the links, who held which slots, and what became of the orders\n"
    "  --help           this text\n"
    "\n"
    "Status 0: every check held. 1: one did not, or the drawing could not be written. 2: a bad argument.\n";

static void refuse(const char *reason, const char *argument)
{
    fprintf(stderr, "greenhouse: %s'%s'; --help says what there is\n", reason, argument);
    exit(2);
}

static uint32_t number_for(const char *option, const char *words, uint32_t least, uint32_t most)
{
    size_t digits = strspn(words, "0123456789");
    unsigned long long value = strtoull(words, NULL, 10);
    if (digits == 0 || digits > 10 || words[digits] != '\0' || value < least || value > most) {
        char reason[80];
        snprintf(reason, sizeof reason, "%s takes a number from %u to %u, not ", option, (unsigned)least,
                 (unsigned)most);
        refuse(reason, words);
    }
    return (uint32_t)value;
}

static struct wishes read_wishes(int count, char **words)
{
    enum { HOUR = 3600000 };
    struct wishes wishes = {.length_ms = 9 * HOUR, .short_beacons = false, .seed = 7, .drawing = NULL};
    bool is_short = false, has_hours = false;
    for (int index = 1; index < count; index++) {
        const char *word = words[index];
        if (strcmp(word, "--help") == 0) {
            fputs(USAGE, stdout);
            exit(EXIT_SUCCESS);
        } else if (strcmp(word, "--short") == 0) {
            is_short = true;
        } else if (strcmp(word, "--short-beacons") == 0) {
            wishes.short_beacons = true;
        } else if (strcmp(word, "--hours") != 0 && strcmp(word, "--seed") != 0 && strcmp(word, "--svg") != 0) {
            refuse("there is no option ", word);
        } else if (++index == count) {
            refuse("nothing follows ", word);
        } else if (strcmp(word, "--hours") == 0) {
            has_hours = true;
            wishes.length_ms = number_for(word, words[index], 2, 12) * HOUR;
        } else if (strcmp(word, "--seed") == 0) {
            wishes.seed = number_for(word, words[index], 0, UINT32_MAX);
        } else {
            wishes.drawing = words[index];
        }
    }
    if (is_short && has_hours) {
        refuse("--short does not go together with ", "--hours");
    }
    if (is_short) {
        wishes.length_ms = wishes.short_beacons ? 2 * HOUR : HOUR;
    }
    return wishes;
}

/* Whether all that was printed or drawn has reached its file. */
static bool is_written(FILE *file)
{
    return fflush(file) == 0 && ferror(file) == 0;
}

int main(int count, char **words)
{
    static struct site site;
    struct wishes wishes = read_wishes(count, words);
    FILE *drawing = wishes.drawing == NULL ? NULL : fopen(wishes.drawing, "w");
    if (wishes.drawing != NULL && drawing == NULL) {
        fprintf(stderr, "greenhouse: %s cannot be written\n", wishes.drawing);
        return EXIT_FAILURE;
    }
    layout_set(&site, wishes.seed, wishes.length_ms, wishes.short_beacons);
    superframes_run(&site);
    check_end(&site);
    summary_print(&site);
    if (drawing != NULL) {
        drawing_write(&site, drawing);
        printf("The picture of the night is in %s\n", wishes.drawing);
    }
    if (!is_written(stdout) || (drawing != NULL && (!is_written(drawing) || fclose(drawing) != 0))) {
        fprintf(stderr, "greenhouse: not everything could be written\n");
        return EXIT_FAILURE;
    }
    return EXIT_SUCCESS;
}
