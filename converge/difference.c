/*
 * The first difference between what the library answered and what is proved of it: told in words, with the options that
 * play the same site again. It ends the run.
 */
#include <stdarg.h>
#include <stdlib.h>

#include "converge.h"

void differ(const struct site *site, const char *format, ...)
{
    const struct graph *graph = &site->graph;
    fflush(stdout);
    fprintf(stderr, "converge: --units %d --links %d --seed %u, round %d: ", graph->units, graph->links,
            (unsigned)site->seed, site->round);
    va_list arguments;
    va_start(arguments, format);
    vfprintf(stderr, format, arguments);
    va_end(arguments);
    fputc('\n', stderr);
    exit(EXIT_FAILURE);
}
