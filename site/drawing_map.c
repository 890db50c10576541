/*
 * A small map: the units, and the links between them with their qualities.
 */
#include "drawing.h"

enum { NODE_HEIGHT = 18, NODE_WORDS = 10 };

struct spot {
    int across;
    int down;
};

/* From left to right away from the office, as far as links allow. */
static const struct spot SPOTS[UNITS] = {
    [OFFICE] = {210, 100},  [MIDDLE_RELAY] = {390, 50}, [NORTH_RELAY] = {390, 150}, [BACK_RELAY] = {610, 118},
    [BENCH_1] = {790, 66},  [BENCH_2] = {790, 118},     [BENCH_3] = {790, 170},     [BENCH_4] = {585, 52},
    [BENCH_5] = {570, 12},  [BENCH_6] = {50, 40},       [BENCH_7] = {50, 100},      [BENCH_8] = {50, 160},
    [BENCH_9] = {570, 186},
};

static void draw_link(FILE *file, struct spot one, struct spot other, int quality)
{
    fprintf(file, "<path d=\"M%d %dL%d %d\" stroke=\"#777\" stroke-width=\"1.5\"/>\n", one.across, one.down,
            other.across, other.down);
    fprintf(file, "<text x=\"%d\" y=\"%d\" class=\"over\" text-anchor=\"middle\">%d</text>\n",
            (one.across + other.across) / 2, (one.down + other.down) / 2 + 4, quality);
}

static void draw_node(const struct site *site, FILE *file, int unit)
{
    struct spot spot = SPOTS[unit];
    const char *name = drawing_name(site, unit);
    double width = drawing_width(name, NODE_WORDS) + 12;
    fprintf(file, "<rect x=\"%.1f\" y=\"%d\" width=\"%.1f\" height=\"%d\" rx=\"4\" fill=\"%s\"/>\n",
            spot.across - width / 2, spot.down - NODE_HEIGHT / 2, width, NODE_HEIGHT, drawing_colour(unit));
    fprintf(file, "<text x=\"%d\" y=\"%d\" text-anchor=\"middle\" font-size=\"%d\" fill=\"%s\">%s</text>\n",
            spot.across, spot.down + 4, NODE_WORDS, drawing_ink(unit), name);
}

void drawing_map(const struct site *site, FILE *file, int top)
{
    static const char TITLE[] = "Who hears whom, with the quality of each link; the back relay has two antennas";
    fprintf(file, "<text x=\"%d\" y=\"%d\" class=\"head\">%s</text>\n", LEFT, top, TITLE);
    fprintf(file, "<g transform=\"translate(%d %d)\">\n", LEFT, top + 16);
    for (int one = 0; one < UNITS; one++) {
        for (int other = one + 1; other < UNITS; other++) {
            if (site->quality[one][other] > 0) {
                draw_link(file, SPOTS[one], SPOTS[other], site->quality[one][other]);
            }
        }
    }
    for (int unit = 0; unit < UNITS; unit++) {
        draw_node(site, file, unit);
    }
    fprintf(file, "</g>\n");
}
