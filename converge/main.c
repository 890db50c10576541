/*
 * How a new site comes to know itself, played through the calls of braidlark.h: the sites of a run, the rounds of each,
 * and the lines that tell of them.
 */
#include <inttypes.h>
#include <stdlib.h>

#include "converge.h"

/* A site before its first round, as its seed gives it. */
static void draw_site(struct site *site, const struct wishes *wishes, uint32_t seed)
{
    int units = (int)options_units(wishes, seed), links = (int)options_links(wishes, seed);
    site->seed = seed;
    site->random = seed;
    site->round = 0;
    if (!graph_draw(&site->graph, units, links, &site->random)) {
        fprintf(stderr, "converge: seed %u gives no graph of %d units, %d links and a diameter of at most %d\n",
                (unsigned)seed, units, links, MOST_DIAMETER);
        exit(2);
    }
    site->rounds = site->graph.diameter + ROUNDS_MORE;
    units_draw(site);
}

static int all_pairs(const struct graph *graph)
{
    return graph->units * (graph->units - 1);
}

static const char *links_word(int count)
{
    return count == 1 ? "link" : "links";
}

static void tell_site(const struct site *site)
{
    const struct graph *graph = &site->graph;
    printf("seed %u: %d units, %d %s, diameter %d", (unsigned)site->seed, graph->units, graph->links,
           links_word(graph->links), graph->diameter);
}

static void tell_round(const struct site *site, int known)
{
    printf("round %d: %d of %d pairs are known, and %d are within %d %s\n", site->round, known,
           all_pairs(&site->graph), graph_pairs_within(&site->graph, site->round), site->round,
           links_word(site->round));
}

/* All rounds of a site. The theorem has something to say before the first one, too: nobody is known. */
static void play_site(struct site *site, bool tells_rounds)
{
    for (site->round = 0; site->round <= site->rounds; site->round++) {
        if (site->round > 0) {
            round_play(site);
        }
        int known = check_round(site);
        if (tells_rounds) {
            tell_round(site, known);
        }
    }
    site->tally.rounds += (uint64_t)site->rounds;
    site->tally.pairs += (uint64_t)all_pairs(&site->graph);
}

/* One site is told round by round. */
static void play_one(struct site *site, const struct wishes *wishes)
{
    draw_site(site, wishes, wishes->seed);
    tell_site(site);
    putchar('\n');
    play_site(site, true);
}

/* Of several each has a line. */
static void play_sweep(struct site *site, const struct wishes *wishes)
{
    for (uint32_t number = 0; number < wishes->sites; number++) {
        draw_site(site, wishes, wishes->seed + number);
        play_site(site, false);
        tell_site(site);
        printf(": all %d pairs are known after round %d\n", all_pairs(&site->graph), site->graph.diameter);
    }
}

/* What was seen in a run without a difference. */
static void print_summary(const struct site *site, uint32_t sites)
{
    const struct graph *graph = &site->graph;
    const struct tally *tally = &site->tally;
    if (sites == 1) {
        printf("%d units with %d %s and diameter %d", graph->units, graph->links, links_word(graph->links),
               graph->diameter);
    } else {
        printf("%u sites", (unsigned)sites);
    }
    printf(" played %" PRIu64 " rounds in %" PRIu64 " calls: ", tally->rounds, tally->calls);
    printf("every table was as proved after each round, all %" PRIu64 " pairs were known in the end, ", tally->pairs);
    printf("and %" PRIu64 " paths were followed by the fewest hops.\n", tally->paths);
}

int main(int count, char **words)
{
    static struct site site;
    struct wishes wishes = options_read(count, words);
    site.lost_page = wishes.lost_page;
    if (wishes.sites == 1) {
        play_one(&site, &wishes);
    } else {
        play_sweep(&site, &wishes);
    }
    if (wishes.lost_page > site.tally.pages) {
        fprintf(stderr, "converge: no page was lost, for only %" PRIu64 " were heard\n", site.tally.pages);
        return 2;
    }
    print_summary(&site, wishes.sites);
    if (fflush(stdout) != 0 || ferror(stdout) != 0) {
        fprintf(stderr, "converge: not everything could be written\n");
        return 2;
    }
    return EXIT_SUCCESS;
}
