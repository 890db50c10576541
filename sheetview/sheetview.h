/*
 * What a planner's sheet is made of: the plan of the site, the units with the data slots proposed for them, and the
 * links between units, each with the line of the file that it stands on. The subjects are a file each; what they offer
 * one another stands at the end.
 */
#ifndef SHEETVIEW_H
#define SHEETVIEW_H

#include <stdbool.h>
#include <stddef.h>
#include <stdint.h>
#include <stdio.h>

#include "braidlark.h"

enum {
    MOST_BYTES = 1 << 20, /* of a file */
    MOST_UNITS = 64,      /* three times what the largest plan has rows for, so that the call can say so */
    MOST_LINKS = 1024,
    MASK_SLOTS = 64,            /* that a row of the call has bits for */
    MOST_CELLS = 2 + MASK_SLOTS /* of a row that can be read: `unit`, its address and its slots */
};

/* A file as text: its lines end in a line feed alone, and a zero is behind the last. */
struct text {
    const char *name; /* as errors say it */
    char bytes[MOST_BYTES + 2];
};

/* How far a text has been read. */
struct reader {
    const char *name;
    char *at;
    size_t line;
};

/* The cells of one row, where they lie in the text. */
struct row {
    size_t line;
    size_t count; /* without the empty cells at the end; past MOST_CELLS they are only counted */
    const char *cells[MOST_CELLS];
};

struct plan {
    size_t line;
    uint16_t network;
    uint16_t manager;
    uint32_t max_hops;
    uint32_t rows;
    uint32_t data_slots;
    uint32_t slot_ms;
    uint32_t beacon; /* a frame's type */
};

struct unit {
    size_t line;
    uint16_t address;
    uint64_t slots; /* bit i is data slot i */
};

struct link {
    size_t line;
    uint16_t ends[2];
};

struct sheet {
    struct plan plan;
    int unit_count;
    struct unit units[MOST_UNITS]; /* as they stand in the file */
    int link_count;
    struct link links[MOST_LINKS];
};

/* A sheet as the call takes it. */
struct sheet_bytes {
    uint8_t plan[BRAIDLARK_PLAN_SIZE];
    uint8_t units[MOST_UNITS * BRAIDLARK_SHEET_ROW_SIZE];
    uint8_t links[MOST_LINKS * BRAIDLARK_LINK_SIZE];
};

/* Who hears whom, of a sheet that is not refused: units are known by their places in ascending order of addresses. */
struct graph {
    uint32_t data_slots;
    int unit_count;
    const struct unit *units[MOST_UNITS];
    bool linked[MOST_UNITS][MOST_UNITS];
};

/* What is said of a sheet: a refusal, or how many units are named and which. */
struct verdict {
    uint8_t refusal;
    uint8_t named;
    uint16_t lower;
    uint16_t higher;
};

/* Why a sheet is refused: the first reason in words, and the lines with others. */
struct reasons {
    uint8_t refusal;
    char first[160];
    size_t first_line;
    int further;
    size_t lines[1 + MOST_UNITS + MOST_LINKS];
};

/* The compiler compares the arguments from `first` on with the format. */
#ifdef __GNUC__
#define LIKE_PRINTF(format_place, first) __attribute__((format(printf, format_place, first)))
#else
#define LIKE_PRINTF(format_place, first)
#endif

/* words.c: what a run without a verdict ends with, and words that lines are made of */
void fail(const char *format, ...) LIKE_PRINTF(1, 2);
void fail_at(const char *name, size_t line, const char *format, ...) LIKE_PRINTF(3, 4);
void words_written(void);
const char *words_between(int index, int count);
const char *words_plural(int count);

/* text.c: a file as text */
void text_read(struct text *text, const char *file);

/* cells.c: a text as rows of cells */
bool cells_next(struct reader *reader, struct row *row);

/* rows.c: what the rows say */
void rows_read(struct sheet *sheet, struct text *text);

/* sheet.c: the bytes for the call */
bool sheet_plan(const struct plan *plan, uint8_t *bytes);
void sheet_write(const struct sheet *sheet, struct sheet_bytes *bytes);

/* graph.c: who hears whom, and who is near whom */
void graph_make(struct graph *graph, const struct sheet *sheet, uint32_t lost_link);
int graph_find(const struct graph *graph, uint16_t address);
bool graph_has_common(const struct graph *graph, int one, int other, int between);
bool graph_is_near(const struct graph *graph, int one, int other);

/* marks.c: the marks of the drawing, and the verdict that they come to */
bool marks_sends(const struct graph *graph, int unit, int slot);
int marks_count(uint64_t slots);
uint64_t marks_past(const struct graph *graph, int unit);
char marks_at(const struct graph *graph, int unit, int slot);
struct verdict marks_verdict(const struct graph *graph);

/* drawing.c: the lines above the verdict */
void drawing_head(const struct sheet *sheet);
void drawing_print(const struct graph *graph);

/* reasons.c: why a sheet is refused */
void reasons_find(struct reasons *reasons, const struct sheet *sheet);

/* verdict.c: the call, what it says, and whether the program's own view agrees with it */
struct verdict verdict_ask(const struct sheet *sheet);
void verdict_compare(const struct verdict *call, const struct verdict *own);
void verdict_tell(const struct verdict *verdict, const struct graph *graph, const struct reasons *reasons);

#endif
