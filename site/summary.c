/*
 * What the grower reads last: the night in numbers, and what it was held to.
 */
#include "greenhouse.h"

/* What became of the orders. */
struct outcome {
    int arrived;
    int replaced;
    int withdrawn;
    int waited; /* of those that arrived */
    int slowest;
    uint64_t slowest_ms;
    int held_back;
    uint64_t longest_held_ms;
    int lost_tries;
    int late; /* of those that arrived, for a lost try */
    uint64_t latest_ms;
};

static uint64_t greater(uint64_t one, uint64_t other)
{
    return one > other ? one : other;
}

static struct outcome count_orders(const struct site *site)
{
    struct outcome outcome = {0};
    for (int index = 0; index < site->manager.order_count; index++) {
        const struct order *order = &site->manager.orders[index];
        outcome.arrived += order->arrived;
        outcome.replaced += !order->arrived && order->replaced;
        outcome.withdrawn += order->withdrawn;
        outcome.held_back += order->held_since > 0;
        outcome.longest_held_ms = greater(order->held_ms, outcome.longest_held_ms);
        outcome.lost_tries += order->lost_at_silent;
        if (!order->arrived) {
            continue;
        }
        uint64_t took_ms = order->arrival - order->given;
        outcome.waited += order->waits_for_route;
        outcome.slowest = took_ms > outcome.slowest_ms ? index : outcome.slowest;
        outcome.slowest_ms = greater(took_ms, outcome.slowest_ms);
        if (order->lost_at_silent > 0) {
            outcome.late++;
            outcome.latest_ms = greater(took_ms, outcome.latest_ms);
        }
    }
    return outcome;
}

static void print_orders(const struct site *site)
{
    struct outcome outcome = count_orders(site);
    int given = site->manager.order_count;
    printf(
        "  orders     %d given; arrived: %d, replaced by a later one for the same bench: %d, withdrawn: %d, still on "
        "their way: %d\n",
        given, outcome.arrived, outcome.replaced, outcome.withdrawn,
        given - outcome.arrived - outcome.replaced - outcome.withdrawn);
    const struct order *slowest = &site->manager.orders[outcome.slowest];
    printf(
        "             the slowest was order %d, which %s followed after %u s; %d that arrived had waited for a way\n",
        outcome.slowest + 1, site->units[slowest->head].name, (unsigned)(outcome.slowest_ms / 1000), outcome.waited);
    printf("             held back, as the manager's route had less than %d s left: %d, for %u s at most\n",
           LEAST_LEFT_MS / 1000, outcome.held_back, (unsigned)(outcome.longest_held_ms / 1000));
    printf("             for none that set out did the manager's route grow too old before its time\n");
    printf("  the relay  %d tries were lost at it; orders late for that: %d, the slowest of them after %u s\n",
           outcome.lost_tries, outcome.late, (unsigned)(outcome.latest_ms / 1000));
    printf("             no frame went to a unit gone for more than %d s; the last to one that was gone, after %u s\n",
           BRAIDLARK_USABLE_MS / 1000, (unsigned)(site->tally.latest_loss_ms / 1000));
}

static void print_power(const struct site *site)
{
    const struct cut *cut = &site->cut;
    unsigned took_s = (unsigned)((cut->recovered - site->script.power_returns) / 1000);
    if (cut->book_lost) {
        printf("  the power  the book was lost, as with short beacons it has no image; nothing went to the flash\n");
        printf("             all %d members had joined anew %u s after the power was back\n", cut->members, took_s);
    } else {
        printf("  the power  %d members kept rows, slots and schedules; all had spoken again %u s after the power was "
               "back\n",
               cut->members, took_s);
        printf("             the flash was written %u times in the night\n",
               (unsigned)site->units[OFFICE].flash.writes);
    }
}

static void print_takeover(const struct site *site)
{
    const struct takeover *takeover = &site->takeover;
    const struct tally *tally = &site->tally;
    uint64_t died = site->script.office_dies;
    char words[9];
    clock_words(died, words);
    printf("  the office died at %s; %s was elected %u s later, and its book began after %u s\n", words,
           site->units[takeover->winner].name, (unsigned)((takeover->elected - died) / 1000),
           (unsigned)((takeover->begun - died) / 1000));
    printf("             all %d members were in it after %u s; %d orders given since arrived and were reported\n",
           takeover->members, (unsigned)((takeover->recovered - died) / 1000), takeover_orders(site));
    printf("             %u election messages were sent; polls named a winner %u times, %u pairs with the same "
           "messages one\n",
           (unsigned)tally->elections, (unsigned)tally->named, (unsigned)tally->agreements);
    printf(
        "             never did two units manage at once; %u times before or since a relay missed beacons: nobody took "
        "over\n",
        (unsigned)tally->alarms);
}

static void print_joining(const struct site *site)
{
    const struct inheritance *inheritance = &site->inheritance;
    char slots[80];
    number_words(inheritance->held, slots);
    printf("  joining    %u requests refused, with every row live; places lost and asked for anew: %u\n",
           (unsigned)site->tally.refused_joins, (unsigned)site->tally.started_over);
    printf("             bench 9%s got row %d, which had been that of %s, and data slots %s\n",
           inheritance->after_refusal ? ", refused before," : "", inheritance->row, site->units[inheritance->from].name,
           slots);
}

static void print_clocks(const struct site *site)
{
    char first[9], last[9];
    clock_words(site->turns.first, first);
    clock_words(site->turns.last, last);
    printf("  clocks     the worst clock of a member was %u ms off, of %u that the slots leave room for\n",
           (unsigned)site->tally.worst_clock_ms, (unsigned)plan_clock_tolerance_ms(&site->plan));
    printf("             %d passed 2^32 ms and began again at 0, from %s to %s\n", site->turns.count, first, last);
}

/* What beacons took of the air, and what they would have as the other kind; and how often there were two. */
static void print_beacons(const struct site *site)
{
    const struct tally *tally = &site->tally;
    bool is_short = site->plan.beacon == BRAIDLARK_TYPE_SHORT_BEACON;
    uint32_t other_bytes = tally->beacons * (is_short ? BRAIDLARK_LENGTH_BEACON : BRAIDLARK_LENGTH_SHORT_BEACON);
    printf("  beacons    %u sent, all of them %s: %u bytes in the air; %s ones would have been %u\n",
           (unsigned)tally->beacons, is_short ? "short" : "long", (unsigned)tally->beacon_bytes,
           is_short ? "long" : "short", (unsigned)other_bytes);
    printf("             %s chose between two %u times, by the better link; never while the middle relay was gone\n",
           site->units[BACK_RELAY].name, (unsigned)tally->choices);
}

void summary_print(struct site *site)
{
    const struct tally *tally = &site->tally;
    scene(site, "The night in numbers");
    print_orders(site);
    print_power(site);
    print_takeover(site);
    printf("  routes     %u looked at: none outlives the last update of its next hop by more than %d ms\n",
           (unsigned)tally->routes, BRAIDLARK_USABLE_MS);
    printf("             %u frames handed to a next hop, whose last update was at most %u ms old; %u had no way that "
           "would do\n",
           (unsigned)tally->handed_over, (unsigned)tally->oldest_word_ms, (unsigned)tally->without_route);
    printf("             one merge compared %u rows at most, of %d that an update can come to\n",
           (unsigned)tally->most_compared, BRAIDLARK_MOST_COMPARED);
    printf("  slots      %u schedules, and all that was in the air: no control or data slot has two senders\n",
           (unsigned)tally->schedules);
    print_joining(site);
    print_clocks(site);
    print_beacons(site);
    printf("  the air    %u packets sent, %u losses on links\n", (unsigned)tally->packets,
           (unsigned)tally->lost_on_links);
    printf("All checks hold.\n");
}
