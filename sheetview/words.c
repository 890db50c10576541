/*
 * What a run without a verdict ends with, and the small words that lines are made of.
 */
#include <stdarg.h>
#include <stdlib.h>

#include "sheetview.h"

enum { STATUS_NO_SHEET = 2 };

/* Something was in the way. */
void fail(const char *format, ...)
{
    fflush(stdout);
    fputs("sheetview: ", stderr);
    va_list arguments;
    va_start(arguments, format);
    vfprintf(stderr, format, arguments);
    va_end(arguments);
    fputc('\n', stderr);
    exit(EXIT_FAILURE);
}

/* The file is no such sheet: line 0 is none in particular. */
void fail_at(const char *name, size_t line, const char *format, ...)
{
    fputs(name, stderr);
    if (line != 0) {
        fprintf(stderr, ":%zu", line);
    }
    fputs(": ", stderr);
    va_list arguments;
    va_start(arguments, format);
    vfprintf(stderr, format, arguments);
    va_end(arguments);
    fputc('\n', stderr);
    exit(STATUS_NO_SHEET);
}

/* All that was printed has to reach its file. */
void words_written(void)
{
    if (fflush(stdout) != 0 || ferror(stdout) != 0) {
        fail("not everything could be written");
    }
}

/* What stands in front of one of several things that are told in a row: "a, b and c". */
const char *words_between(int index, int count)
{
    if (index == 0) {
        return "";
    }
    return index + 1 == count ? " and " : ", ";
}

/* The end of a word for so many. */
const char *words_plural(int count)
{
    return count == 1 ? "" : "s";
}
