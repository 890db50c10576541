/*
 * The lines that a grower reads: the time of the clock, then what happened in plain words.
 */
#include <stdarg.h>
#include <stdlib.h>

#include "greenhouse.h"

enum { START_HOUR = 22 };

/* The time of the clock, as 22:14:05. */
void clock_words(uint64_t time, char words[9])
{
    uint32_t seconds = (uint32_t)(time / 1000);
    snprintf(words, 9, "%02u:%02u:%02u", (unsigned)((START_HOUR + seconds / 3600) % 24), (unsigned)(seconds / 60 % 60),
             (unsigned)(seconds % 60));
}

/* Puts an order that arrived in good time with the others of a quiet stretch. */
void timeline_quiet(struct site *site, uint64_t took_ms)
{
    struct quiet *quiet = &site->quiet;
    quiet->since = quiet->count == 0 ? site->now : quiet->since;
    quiet->slowest_ms = took_ms > quiet->slowest_ms ? took_ms : quiet->slowest_ms;
    quiet->count++;
}

static void end_quiet(struct site *site)
{
    char words[9];
    if (site->quiet.count > 0) {
        clock_words(site->quiet.since, words);
        printf("%s  quiet: %d order%s followed within %u s\n", words, site->quiet.count,
               site->quiet.count == 1 ? " is" : "s in a row are", (unsigned)(site->quiet.slowest_ms / 1000 + 1));
        site->quiet = (struct quiet){0};
    }
}

static void begin_line(struct site *site)
{
    char words[9];
    end_quiet(site);
    clock_words(site->now, words);
    printf("%s  ", words);
}

/* The lines that follow belong together. */
void scene(struct site *site, const char *title)
{
    end_quiet(site);
    printf("%s%s\n", site->now == 0 ? "" : "\n", title);
}

void say(struct site *site, const char *format, ...)
{
    begin_line(site);
    va_list arguments;
    va_start(arguments, format);
    vprintf(format, arguments);
    va_end(arguments);
    putchar('\n');
}

/* A check that does not hold ends the run. */
void fail(struct site *site, const char *format, ...)
{
    begin_line(site);
    printf("CHECK FAILED: ");
    va_list arguments;
    va_start(arguments, format);
    vprintf(format, arguments);
    va_end(arguments);
    putchar('\n');
    fflush(stdout);
    exit(EXIT_FAILURE);
}

/* The numbers of a set, as 1, 2 and 5. */
void number_words(uint32_t numbers, char words[80])
{
    size_t used = 0;
    words[0] = '\0';
    for (int number = 0; number < 32; number++) {
        if (numbers >> number & 1) {
            bool last = (numbers >> number) == 1;
            used += (size_t)snprintf(words + used, 80 - used, "%s%d", used == 0 ? "" : last ? " and " : ", ", number);
        }
    }
}
