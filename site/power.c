/*
 * A power cut at the office. Its memory is lost, and with it the book and the routes; its flash keeps the last image of
 * the book, and its clock has a battery. When the power is back it makes its book of the image, and every member must
 * find what it held. Of a plan with short beacons there is no image: the office then waits until nobody counts on the
 * lost book any more, begins with a fresh one, and every member must join anew.
 */
#include <string.h>

#include "greenhouse.h"

/* Stores the image of the book, if the plan has one and it is another than the stored one: flash wears out. Whoever
 * changes the book calls this before it tells anybody, so that no unit ever counts on a slot that a power cut would
 * make the manager forget. */
void power_store(struct site *site)
{
    const struct manager *manager = &site->manager;
    struct flash *flash = &site->units[manager->unit].flash;
    uint8_t image[BRAIDLARK_MOST_IMAGE];
    uint32_t length = 0;
    uint8_t status =
        braidlark_image(manager->book, sizeof manager->book, manager_time(site), image, sizeof image, &length);
    if (!plan_has_image(&site->plan)) {
        if (status != BRAIDLARK_OUT_OF_RULE) {
            fail(site, "braidlark_image answered %d for a plan with short beacons", status);
        }
        return;
    }
    check_status(site, "braidlark_image", status, 0);
    if (length == flash->length && memcmp(image, flash->image, length) == 0) {
        return;
    }
    memcpy(flash->image, image, length);
    flash->length = length;
    flash->writes++;
}

/* What of the book outlives the cut. */
static void say_what_is_left(struct site *site)
{
    const struct flash *flash = &site->units[OFFICE].flash;
    if (site->cut.book_lost) {
        say(site, "nothing of the book is in its flash: with short beacons its image is refused, with number %d",
            BRAIDLARK_OUT_OF_RULE);
    } else {
        say(site, "the last image of the book is in its flash: %u bytes, written %u times since the evening",
            (unsigned)flash->length, (unsigned)flash->writes);
    }
}

/* The office's memory is lost, and bench 8, which hangs on the same line, is dark too. */
void power_fails(struct site *site)
{
    struct cut *cut = &site->cut;
    schedules_copy(site, &cut->before);
    for (int unit = OFFICE + 1; unit < UNITS; unit++) {
        cut->members += cut->before.live[unit];
    }
    cut->book_lost = site->units[OFFICE].flash.length == 0;
    unit_power_off(site, OFFICE);
    unit_power_off(site, BENCH_8);
    manager_end(site);
    say(site, "THE POWER FAILS IN THE OFFICE: its book of %d members and its routes are lost; bench 8 is dark too",
        cut->members);
    say_what_is_left(site);
}

void power_returns(struct site *site)
{
    unsigned listening_s = plan_listening_ms(&site->plan) / 1000;
    if (site->cut.book_lost) {
        say(site, "the power is back; the office waits for %u s: so long may units count on slots of the lost book",
            listening_s);
    } else {
        say(site, "the power is back; the office listens for %u s, as every unit does, before it manages", listening_s);
    }
    unit_power_on(site, OFFICE);
    unit_power_on(site, BENCH_8);
}

/* Every member of before the cut has the same schedule, slot for slot. */
static void check_agreement(struct site *site)
{
    const struct schedules *before = &site->cut.before;
    for (int unit = 0; unit < UNITS; unit++) {
        uint8_t kinds[BRAIDLARK_MOST_SLOTS];
        if (!before->live[unit]) {
            continue;
        }
        if (!schedule_of(site, unit, before->hops[unit], kinds)) {
            fail(site, "%s was a member before the power cut and is none now", site->units[unit].name);
        }
        if (memcmp(kinds, before->kinds[unit], sizeof kinds) != 0) {
            fail(site, "%s has another schedule than before the power cut", site->units[unit].name);
        }
    }
}

/* Makes the book of the stored image: its own image must be the same again. */
void power_restore(struct site *site)
{
    struct manager *manager = &site->manager;
    struct flash *flash = &site->units[manager->unit].flash;
    uint32_t writes = flash->writes;
    uint8_t status =
        braidlark_restore(manager->book, sizeof manager->book, flash->image, flash->length, manager_time(site));
    check_status(site, "braidlark_restore", status, 0);
    power_store(site);
    if (flash->writes != writes) {
        fail(site, "the restored book has another image than the one it was made of");
    }
    check_agreement(site);
    site->cut.restored = site->now;
    say(site, "the office has its book again: every member has its row and its slots, every schedule is as before");
}

/* Begins with a fresh book in place of the lost one. */
void power_begin_anew(struct site *site)
{
    schedules_forget(site);
    site->cut.restored = site->now;
    say(site, "the office begins with a fresh book: all %d members have to join anew", site->cut.members);
}

/* The data slots in a schedule that its unit sends in. */
static int count_held(const struct site *site, const uint8_t *kinds)
{
    const struct regions *regions = &site->manager.regions;
    int count = 0;
    for (int slot = regions->data; slot < regions->discovery; slot++) {
        count += kinds[slot] == BRAIDLARK_SLOT_TX;
    }
    return count;
}

/* Every member of before the cut is in the fresh book, with as many data slots as it had. */
static void check_joined_anew(struct site *site)
{
    const struct schedules *before = &site->cut.before;
    for (int unit = 0; unit < UNITS; unit++) {
        uint8_t kinds[BRAIDLARK_MOST_SLOTS];
        if (before->live[unit] && (!schedule_of(site, unit, before->hops[unit], kinds) ||
                                   count_held(site, kinds) != count_held(site, before->kinds[unit]))) {
            fail(site, "%s has not as many data slots as before the power cut", site->units[unit].name);
        }
    }
}

/* A member of before the cut that has not spoken since, or has not been told its slots; NOBODY if there is none. */
static int still_missing(const struct site *site)
{
    for (int unit = OFFICE + 1; unit < UNITS; unit++) {
        bool spoke = site->manager.last_word[unit] > 0 && site->live[unit];
        if (site->cut.before.live[unit] && !(spoke && membership_counts(site, unit))) {
            return unit;
        }
    }
    return NOBODY;
}

/* All members are there again. */
static void recover(struct site *site)
{
    struct cut *cut = &site->cut;
    cut->recovered = site->now;
    if (cut->book_lost) {
        check_joined_anew(site);
        say(site, "all %d members have joined anew and hold as many slots as they held", cut->members);
    } else {
        check_agreement(site);
        say(site,
            "all %d members have spoken again and hold what they held; bench 8 had lost its memory and joined anew",
            cut->members);
    }
}

/* After the cut: every member speaks again while it is live, and holds what it held; or, where the book is lost, has
 * joined anew in good time. */
void power_watch(struct site *site)
{
    static const uint64_t SUPERFRAMES_TO_JOIN = 24;
    const struct cut *cut = &site->cut;
    if (cut->restored == 0 || cut->recovered > 0) {
        return;
    }
    uint64_t limit_ms = cut->book_lost ? SUPERFRAMES_TO_JOIN * site->plan.superframe_ms : BRAIDLARK_LIVE_MS;
    int missing = still_missing(site);
    if (missing == NOBODY) {
        recover(site);
    } else if (site->now - cut->restored > limit_ms) {
        fail(site, "%s has not found its place again after the power cut", site->units[missing].name);
    }
}
