/*
 * A file as text: read as a whole, and made the same whatever a spreadsheet puts at its front and at its lines' ends.
 */
#include <errno.h>
#include <string.h>

#include "sheetview.h"

/* How many bytes the file has. */
static size_t read_bytes(struct text *text, const char *file)
{
    bool is_input = strcmp(file, "-") == 0;
    FILE *from = is_input ? stdin : fopen(file, "rb");
    if (from == NULL) {
        fail("the file %s could not be opened: %s", file, strerror(errno));
    }
    text->name = is_input ? "standard input" : file;
    size_t length = fread(text->bytes, 1, MOST_BYTES + 1, from);
    if (ferror(from) != 0) {
        fail("%s%s could not be read: %s", is_input ? "" : "the file ", text->name, strerror(errno));
    }
    if (!is_input) {
        fclose(from);
    }
    return length;
}

/* Line feeds alone end the lines, where carriage returns did too or instead. */
static void unify_line_ends(char *bytes)
{
    char *out = bytes;
    for (const char *in = bytes; *in != '\0'; in++) {
        if (*in != '\r') {
            *out++ = *in;
        } else if (in[1] != '\n') {
            *out++ = '\n';
        }
    }
    *out = '\0';
}

void text_read(struct text *text, const char *file)
{
    static const char MARK[] = "\xEF\xBB\xBF";
    size_t length = read_bytes(text, file), mark = strlen(MARK);
    if (length > MOST_BYTES) {
        fail_at(text->name, 0, "more than %d bytes, which no sheet needs", MOST_BYTES);
    }
    text->bytes[length] = '\0';
    if (strlen(text->bytes) < length) {
        fail_at(text->name, 0, "a zero byte, which no text has: save the sheet as CSV, in UTF-8 or plain ASCII");
    }
    if (strncmp(text->bytes, MARK, mark) == 0) {
        memmove(text->bytes, text->bytes + mark, length - mark + 1);
    }
    unify_line_ends(text->bytes);
}
