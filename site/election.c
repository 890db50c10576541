/*
 * Choosing a manager when no beacon comes any more. A relay that heard none in a superframe sends its election message
 * in each slot of its own, and behind it those that it has heard, since not all relays hear each other. Every unit
 * keeps a poll of them. A relay that wins takes over after some superframes without a beacon, but only with the word of
 * every other relay; the others take it for the manager when they have the same.
 *
 * That it needs the word of every relay keeps it safe: priorities are settings, so only one unit can win, and a beacon
 * that some of them missed makes no second manager. As long as a relay is gone, nobody is elected.
 */
#include "greenhouse.h"

/* Power came, or a beacon, and with it the manager: what was said before counts no more. */
void election_fresh(struct site *site, int unit)
{
    struct unit *self = &site->units[unit];
    self->election = (struct election){0};
    uint8_t status =
        braidlark_poll_fresh(self->election.poll, sizeof self->election.poll, self->address, self->priority);
    check_status(site, "braidlark_poll_fresh", status, 0);
}

/* The next message that a relay sends in a slot of its own, if any: its own, then those that it has heard. */
bool election_turn(struct site *site, int unit, size_t room, struct packet *packet)
{
    struct unit *self = &site->units[unit];
    struct election *election = &self->election;
    bool calls = self->priority > 0 && !self->beacon_heard && !unit_manages(self);
    if (!calls || election->told > election->heard_count || room < BRAIDLARK_LENGTH_ELECTION) {
        election->told = 0;
        return false;
    }
    struct message own = {.unit = unit, .priority = self->priority};
    const struct message *message = election->told == 0 ? &own : &election->heard[election->told - 1];
    uint32_t fields[BRAIDLARK_FIELDS_ELECTION] = {
        [BRAIDLARK_FIELD_TYPE] = BRAIDLARK_TYPE_ELECTION,
        [BRAIDLARK_FIELD_ELECTION_NODE] = site->units[message->unit].address,
        [BRAIDLARK_FIELD_ELECTION_PRIORITY] = message->priority,
    };
    packet_write(site, packet, BRAIDLARK_EVERY_UNIT, fields, BRAIDLARK_FIELDS_ELECTION, NULL, 0);
    election->told++;
    site->tally.elections++;
    return true;
}

/* The priority in the last message of a unit that another one knows, its own included; NOBODY if it knows none. */
static int last_priority(const struct site *site, int unit, int other)
{
    const struct election *election = &site->units[unit].election;
    int priority = other == unit ? site->units[unit].priority : NOBODY;
    for (int index = 0; index < election->heard_count; index++) {
        priority = election->heard[index].unit == other ? election->heard[index].priority : priority;
    }
    return priority;
}

/* Whom the poll of a unit names: of those heard and itself, who has the highest priority, then the lowest address. */
int election_winner(struct site *site, int unit)
{
    const struct election *election = &site->units[unit].election;
    uint16_t winner = 0;
    uint8_t status = braidlark_poll_winner(election->poll, sizeof election->poll, &winner);
    check_status(site, "braidlark_poll_winner", status, 0);
    int best = unit;
    for (int other = 0; other < UNITS; other++) {
        int priority = last_priority(site, unit, other), most = last_priority(site, unit, best);
        bool lower = site->units[other].address < site->units[best].address;
        best = priority > most || (priority == most && lower) ? other : best;
    }
    if (winner != site->units[best].address) {
        fail(site, "the poll of %s names %04X, and by what it took that is %s", site->units[unit].name, winner,
             site->units[best].name);
    }
    site->tally.named++;
    return best;
}

/* Keeps what a poll took: a later message in the place of an earlier one. */
static void keep(struct election *election, int sender, uint8_t priority)
{
    int index = 0;
    while (index < election->heard_count && election->heard[index].unit != sender) {
        index++;
    }
    election->heard[index] = (struct message){.unit = sender, .priority = priority};
    election->heard_count += index == election->heard_count;
}

/* Whoever passed a message on, it is that of the unit that it names. A unit's own comes back to it, and is refused. */
void election_hear(struct site *site, int unit, const struct packet *packet, const struct frame *frame)
{
    struct unit *self = &site->units[unit];
    struct election *election = &self->election;
    int sender = layout_find(site, (uint16_t)frame->fields[BRAIDLARK_FIELD_ELECTION_NODE]);
    uint8_t status = braidlark_poll_hear(election->poll, sizeof election->poll, packet->bytes, packet->length);
    check_status(site, "braidlark_poll_hear", status, REFUSAL(BRAIDLARK_OWN_UNIT));
    if ((status == BRAIDLARK_OWN_UNIT) != (sender == unit)) {
        fail(site, "braidlark_poll_hear answered %d to %s for a message of %s", status, self->name,
             site->units[sender].name);
    }
    if (status == BRAIDLARK_ACCEPTED) {
        keep(election, sender, (uint8_t)frame->fields[BRAIDLARK_FIELD_ELECTION_PRIORITY]);
        election_winner(site, unit);
    }
}

/* Whether a unit has the word of every other relay, but for one that is the manager that fell silent. */
static bool has_heard_all(const struct site *site, int unit)
{
    for (int other = 0; other < UNITS; other++) {
        bool counts = site->units[other].priority > 0 && site->units[other].address != site->units[unit].manager;
        if (counts && last_priority(site, unit, other) == NOBODY) {
            return false;
        }
    }
    return true;
}

/* A unit takes another one for the manager, and knows that the last one is gone. */
static void follow(struct site *site, int unit, int winner)
{
    struct unit *self = &site->units[unit];
    uint16_t lost = self->manager;
    self->manager = site->units[winner].address;
    uint8_t status = braidlark_forget(self->table, sizeof self->table, lost, unit_time(site, unit));
    check_status(site, "braidlark_forget", status, 0);
    takeover_note(site, unit, winner);
}

/* The winner becomes the manager, if it is in its Normal state. Others may count on slots of the lost book for some
 * time yet: for so long it listens, and it lets go of its own. */
static void take_over(struct site *site, int unit)
{
    struct unit *self = &site->units[unit];
    unit_tell(site, unit, BRAIDLARK_EVENT_ELECTED);
    if (self->state[0] == BRAIDLARK_MANAGER) {
        membership_drop(self);
        self->data.count = 0;
        self->listens_until = site->now + BRAIDLARK_LIVE_MS;
        follow(site, unit, unit);
    }
}

/* In the middle of a superframe, when all that was sent in it has been heard. The winner has to be quick, as long as
 * its state is Normal; others wait until places in the lost book have run out, as its manager may come back before. */
void election_tick(struct site *site, int unit)
{
    struct unit *self = &site->units[unit];
    struct election *election = &self->election;
    if (self->beacon_heard || unit_manages(self)) {
        return;
    }
    bool managed = site->now < site->script.office_dies || site->takeover.begun > 0;
    site->tally.alarms += managed && election->missed == 0 && self->priority > 0 && unit_sends(site, unit);
    election->missed++;
    if (!has_heard_all(site, unit)) {
        return;
    }
    int winner = election_winner(site, unit);
    if (winner == unit && election->missed >= plan_patience(&site->plan)) {
        take_over(site, unit);
    } else if (winner != unit && election->missed * site->plan.superframe_ms >= BRAIDLARK_LIVE_MS &&
               site->units[winner].address != self->manager) {
        follow(site, unit, winner);
    }
}

/* Whether the last message of each unit is the same in two polls, their own units' included. */
static bool same_messages(const struct site *site, int one, int other)
{
    for (int unit = 0; unit < UNITS; unit++) {
        if (last_priority(site, one, unit) != last_priority(site, other, unit)) {
            return false;
        }
    }
    return true;
}

/* Polls with the same last messages name one winner. */
void check_polls(struct site *site)
{
    for (int one = 0; one < UNITS; one++) {
        for (int other = one + 1; other < UNITS && site->units[one].powered; other++) {
            bool same = site->units[other].powered && same_messages(site, one, other);
            if (same && election_winner(site, one) != election_winner(site, other)) {
                fail(site, "the polls of %s and %s have the same messages and name two winners", site->units[one].name,
                     site->units[other].name);
            }
            site->tally.agreements += same;
        }
    }
}
