/*
 * How much stack each call of the header needs: it is made on a stack of its own, painted before, and the deepest byte
 * that changed tells. Every call is made in two scenes and accepted in both. Prints Markdown, the greater of the two
 * for each call.
 */
#define _XOPEN_SOURCE 700
#include "scene.h"

#include <stdio.h>
#include <string.h>
#include <ucontext.h>

enum { STACK_SIZE = 256 * 1024, SCENES = 2 };

static struct scene scene;

/* ---- the calls, on what the scene holds */

static uint8_t call_nothing(void)
{
    return 0;
}

static uint8_t call_read(void)
{
    return braidlark_read(scene.beacon, BRAIDLARK_LENGTH_BEACON, scene.fields, BRAIDLARK_MOST_FIELDS, &scene.place,
                          &scene.length);
}

static uint8_t call_read_update(void)
{
    return braidlark_read(scene.update, FULL_UPDATE, scene.fields, BRAIDLARK_MOST_FIELDS, &scene.place, &scene.length);
}

static uint8_t call_entry(void)
{
    return braidlark_entry(scene.update, FULL_UPDATE, BRAIDLARK_MOST_ENTRIES - 1, scene.fields, BRAIDLARK_FIELDS_ENTRY,
                           &scene.place);
}

static uint8_t call_write(void)
{
    return braidlark_write(scene.beacon_fields, BRAIDLARK_FIELDS_BEACON, NULL, 0, scene.out, sizeof scene.out,
                           &scene.length);
}

static uint8_t call_write_data(void)
{
    return braidlark_write(scene.data_fields, BRAIDLARK_FIELDS_DATA, scene.payload, sizeof scene.payload, scene.out,
                           sizeof scene.out, &scene.length);
}

static uint8_t call_table_fresh(void)
{
    return braidlark_table_fresh(scene.table, sizeof scene.table, UNIT, NOW);
}

static uint8_t call_merge(void)
{
    return braidlark_merge(scene.table, sizeof scene.table, scene.update, FULL_UPDATE, QUALITY, NOW, &scene.skipped,
                           &scene.compared);
}

static uint8_t call_forget(void)
{
    return braidlark_forget(scene.table, sizeof scene.table, MANAGER, NOW);
}

static uint8_t call_lookup(void)
{
    return braidlark_lookup(scene.table, sizeof scene.table, MANAGER, NOW, &scene.next_hop, &scene.hops, &scene.left);
}

static uint8_t call_page(void)
{
    return braidlark_page(scene.table, sizeof scene.table, 0, NOW, scene.out, sizeof scene.out, &scene.length);
}

static uint8_t call_relay(void)
{
    return braidlark_relay(scene.table, sizeof scene.table, scene.data, BRAIDLARK_MOST_FRAME, NOW, 0, scene.out,
                           sizeof scene.out, &scene.next_hop, &scene.place, &scene.length, &scene.left);
}

static uint8_t call_forward(void)
{
    return braidlark_forward(scene.table, sizeof scene.table, NETWORK, MANAGER, scene.beacon, BRAIDLARK_LENGTH_BEACON,
                             5, NOW, scene.out, sizeof scene.out, &scene.length);
}

static uint8_t call_forward_short(void)
{
    return braidlark_forward(scene.table, sizeof scene.table, NETWORK, MANAGER, scene.short_beacon,
                             BRAIDLARK_LENGTH_SHORT_BEACON, 5, NOW, scene.out, sizeof scene.out, &scene.length);
}

static uint8_t call_state_fresh(void)
{
    return braidlark_state_fresh(scene.state, sizeof scene.state, NOW);
}

static uint8_t call_state_event(void)
{
    return braidlark_state_event(scene.state, sizeof scene.state, BRAIDLARK_EVENT_READY, NOW);
}

static uint8_t call_state_tick(void)
{
    return braidlark_state_tick(scene.state, sizeof scene.state, 2000, NOW);
}

static uint8_t call_poll_fresh(void)
{
    return braidlark_poll_fresh(scene.poll, sizeof scene.poll, UNIT, PRIORITY);
}

static uint8_t call_poll_hear(void)
{
    return braidlark_poll_hear(scene.poll, sizeof scene.poll, scene.election, BRAIDLARK_LENGTH_ELECTION);
}

static uint8_t call_poll_winner(void)
{
    return braidlark_poll_winner(scene.poll, sizeof scene.poll, &scene.winner);
}

static uint8_t call_clock_step(void)
{
    return braidlark_clock_step(&scene.offset, NOW, NETWORK, scene.beacon, BRAIDLARK_LENGTH_BEACON);
}

static uint8_t call_clock_step_short(void)
{
    return braidlark_clock_step(&scene.offset, NOW, NETWORK, scene.short_beacon, BRAIDLARK_LENGTH_SHORT_BEACON);
}

static uint8_t call_follow(void)
{
    return braidlark_follow(scene.beacon, BRAIDLARK_LENGTH_BEACON, QUALITY, scene.short_beacon,
                            BRAIDLARK_LENGTH_SHORT_BEACON, QUALITY, NETWORK, &scene.which);
}

static uint8_t call_plan(void)
{
    return braidlark_plan(scene.plan, sizeof scene.plan, NETWORK, MANAGER, 1, 21, 22, 20, BRAIDLARK_TYPE_BEACON);
}

static uint8_t call_plan_numbers(void)
{
    return braidlark_plan_numbers(scene.plan, sizeof scene.plan, scene.fields, BRAIDLARK_FIELDS_PLAN);
}

static uint8_t call_book_fresh(void)
{
    return braidlark_book_fresh(scene.book, sizeof scene.book, scene.plan, sizeof scene.plan, NOW);
}

static uint8_t call_join(void)
{
    return braidlark_join(scene.book, sizeof scene.book, scene.join_request, BRAIDLARK_LENGTH_JOIN_REQUEST, NOW,
                          scene.out, sizeof scene.out, &scene.length);
}

static uint8_t call_slot_request(void)
{
    return braidlark_slot_request(scene.book, sizeof scene.book, scene.slot_request, BRAIDLARK_LENGTH_SLOT_REQUEST, NOW,
                                  scene.out, sizeof scene.out, &scene.length);
}

static uint8_t call_heard(void)
{
    return braidlark_heard(scene.book, sizeof scene.book, FIRST_MEMBER, NOW);
}

static uint8_t call_leave(void)
{
    return braidlark_leave(scene.book, sizeof scene.book, FIRST_MEMBER, NOW);
}

static uint8_t call_schedule(void)
{
    return braidlark_schedule(scene.book, sizeof scene.book, FIRST_MEMBER, 1, NOW, scene.out, sizeof scene.out,
                              &scene.length);
}

static uint8_t call_image(void)
{
    return braidlark_image(scene.book, sizeof scene.book, NOW, scene.out, sizeof scene.out, &scene.length);
}

static uint8_t call_restore(void)
{
    return braidlark_restore(scene.book, sizeof scene.book, scene.image, scene.image_length, NOW);
}

static uint8_t call_check_sheet(void)
{
    return braidlark_check_sheet(scene.plan, sizeof scene.plan, scene.links, scene.links_length, scene.sheet,
                                 scene.sheet_length, &scene.named, &scene.lower, &scene.higher);
}

static const struct {
    const char *name;
    uint8_t (*make)(void);
} calls[] = {
    {"read, a beacon", call_read},
    {"read, 24 entries", call_read_update},
    {"entry, the last of 24", call_entry},
    {"write, a beacon", call_write},
    {"write, 245 bytes", call_write_data},
    {"table_fresh", call_table_fresh},
    {"merge", call_merge},
    {"forget", call_forget},
    {"lookup", call_lookup},
    {"page", call_page},
    {"relay", call_relay},
    {"forward, a beacon", call_forward},
    {"forward, a short beacon", call_forward_short},
    {"state_fresh", call_state_fresh},
    {"state_event", call_state_event},
    {"state_tick", call_state_tick},
    {"poll_fresh", call_poll_fresh},
    {"poll_hear", call_poll_hear},
    {"poll_winner", call_poll_winner},
    {"clock_step, a beacon", call_clock_step},
    {"clock_step, a short beacon", call_clock_step_short},
    {"follow, a beacon and a short one", call_follow},
    {"plan", call_plan},
    {"plan_numbers", call_plan_numbers},
    {"book_fresh", call_book_fresh},
    {"join", call_join},
    {"slot_request", call_slot_request},
    {"heard", call_heard},
    {"leave", call_leave},
    {"schedule", call_schedule},
    {"image", call_image},
    {"restore", call_restore},
    {"check_sheet", call_check_sheet},
};

/* ---- the measure */

static uint8_t stack[STACK_SIZE];
static ucontext_t here, there;
static uint8_t (*to_make)(void);
static uint8_t status, paint;
static size_t untouched;

/* Looks at the stack while still on it, before the way back can reach further down. */
static void make_it(void)
{
    size_t place = 0;
    status = to_make();
    while (place < sizeof stack && stack[place] == paint)
        place++;
    untouched = place;
}

/* How far down the stack a call reaches. */
static size_t depth(uint8_t (*make)(void), const struct scene *ready, uint8_t colour)
{
    scene = *ready;
    to_make = make;
    paint = colour;
    memset(stack, paint, sizeof stack);
    getcontext(&there);
    there.uc_stack.ss_sp = stack;
    there.uc_stack.ss_size = sizeof stack;
    there.uc_link = &here;
    makecontext(&there, make_it, 0);
    swapcontext(&here, &there);
    return sizeof stack - untouched;
}

/* Two paints, since a call may leave a byte of one colour. */
static size_t deeper(uint8_t (*make)(void), const struct scene *ready)
{
    size_t one = depth(make, ready, 0xA5), other = depth(make, ready, 0x5A);
    return one > other ? one : other;
}

int main(void)
{
    static struct scene scenes[SCENES];
    for (int mixed = 0; mixed < SCENES; mixed++)
        make_scene(&scenes[mixed], mixed);
    puts("| call | stack, bytes |\n|---|---|");
    for (size_t each = 0; each < sizeof calls / sizeof calls[0]; each++) {
        size_t most = 0;
        for (int mixed = 0; mixed < SCENES; mixed++) {
            size_t without = deeper(call_nothing, &scenes[mixed]), with = deeper(calls[each].make, &scenes[mixed]);
            need(status, calls[each].name);
            if (with - without > most)
                most = with - without;
        }
        printf("| `%s` | %zu |\n", calls[each].name, most);
    }
    return 0;
}
