/*
 * What the subjects of the greenhouse offer one another, file by file.
 */
#ifndef SUBJECTS_H
#define SUBJECTS_H

/* plan.c: the plan in numbers, and what it leaves time for */
void plan_set(struct plan *plan, bool short_beacons);
bool plan_has_image(const struct plan *plan);
bool plan_is_slow(const struct plan *plan);
int plan_patience(const struct plan *plan);
uint32_t plan_listening_ms(const struct plan *plan);
uint32_t plan_clock_tolerance_ms(const struct plan *plan);

/* layout.c: the units, their links, and the times of the story */
void layout_set(struct site *site, uint32_t seed, uint32_t length_ms, bool short_beacons);
int layout_find(const struct site *site, uint16_t address);

/* medium.c: what is in the air in a slot, and what of it reaches whom */
uint32_t medium_random(struct site *site, uint32_t below);
void medium_send(struct site *site, int sender, const struct packet *packet);
int medium_strongest(const struct site *site, int unit, int other);
bool medium_reaches(struct site *site, int unit, const struct on_air *air);
void medium_deliver(struct site *site);

/* antennas.c: what a unit hears of a slot, and which of two beacons it follows */
void antennas_listen(struct site *site, int unit);

/* packet.c: frames in packets, and packets that wait for a slot */
void packet_set(struct packet *packet, uint16_t to, const uint8_t *bytes, size_t length, size_t frame_length);
void packet_write(struct site *site, struct packet *packet, uint16_t to, const uint32_t *fields, size_t count,
                  const uint8_t *part, size_t part_length);
void frame_read(struct site *site, const uint8_t *bytes, size_t length, struct frame *frame);
void queue_put(struct queue *queue, const struct packet *packet);
bool queue_take(struct queue *queue, size_t room, struct packet *packet);

/* clocks.c: what the clocks of the units show, and that they begin again at 0 */
uint64_t unit_wide_time(const struct site *site, int unit);
uint32_t unit_time(const struct site *site, int unit);
uint32_t unit_network_time(const struct site *site, int unit);
bool time_before(uint32_t one, uint32_t other);
void clocks_watch(struct site *site);

/* beacons.c: beacons of either kind, written, forwarded and in the air */
bool packet_is_beacon(const struct packet *packet);
int beacon_hop(struct site *site, const struct packet *packet);
uint16_t beacon_manager(struct site *site, int unit, const struct packet *packet);
void beacons_write(struct site *site, struct packet *packet);
void beacons_forward(struct site *site, int unit, const struct packet *packet);
void beacons_note(struct site *site, int sender, const struct packet *packet);

/* unit.c: a unit's power, state, clock step and routing updates */
void unit_power_on(struct site *site, int unit);
void unit_power_off(struct site *site, int unit);
bool unit_manages(const struct unit *unit);
bool unit_sends(const struct site *site, int unit);
void unit_tell(struct site *site, int unit, uint8_t event);
void unit_begin(struct site *site, int unit);
void unit_tick(struct site *site, int unit);
bool unit_turn(struct site *site, int unit, int slot, size_t room, struct packet *packet);
void unit_hear(struct site *site, int unit, int sender, uint8_t quality, const struct packet *packet);

/* election.c: the poll of a unit, its election messages, and whom it takes for the manager */
void election_fresh(struct site *site, int unit);
int election_winner(struct site *site, int unit);
bool election_turn(struct site *site, int unit, size_t room, struct packet *packet);
void election_hear(struct site *site, int unit, const struct packet *packet, const struct frame *frame);
void election_tick(struct site *site, int unit);
void check_polls(struct site *site);

/* takeover.c: the office dies, and the unit that was elected takes over */
void takeover_office_dies(struct site *site);
void takeover_note(struct site *site, int unit, int winner);
void takeover_begin(struct site *site);
void takeover_watch(struct site *site);
int takeover_orders(const struct site *site);
void check_managers(struct site *site);
void check_takeover(struct site *site);

/* membership.c: asking for a place in the book, carrying such requests for others, and what was granted */
void membership_drop(struct unit *unit);
bool membership_lasts(const struct site *site, int unit, uint32_t for_ms);
bool membership_counts(const struct site *site, int unit);
void membership_begin(struct site *site, int unit);
void membership_ask(struct site *site, int unit, struct packet *packet);
void membership_sponsor(struct site *site, int unit, const struct packet *packet, uint16_t node);
void membership_answer(struct site *site, int unit, const uint8_t *bytes, size_t length);

/* traffic.c: data frames, hop by hop */
void traffic_send(struct site *site, int unit, uint16_t destination, uint8_t kind, const uint8_t *rest, size_t length);
bool traffic_turn(struct site *site, int unit, size_t room, struct packet *packet);
void traffic_hear(struct site *site, int unit, const struct packet *packet, const struct frame *frame);
void traffic_report(struct site *site, int unit);

/* manager.c: the plan, the book and the answers */
uint32_t manager_time(const struct site *site);
void manager_begin(struct site *site, int unit);
void manager_end(struct site *site);
size_t manager_answer(struct site *site, const uint8_t *request, size_t length, uint8_t *out, size_t room);
void manager_hears(struct site *site, uint16_t address);
void manager_takes_out(struct site *site, int unit);

/* power.c: the stored image of the book, and a power cut at the office */
void power_store(struct site *site);
void power_fails(struct site *site);
void power_returns(struct site *site);
void power_restore(struct site *site);
void power_begin_anew(struct site *site);
void power_watch(struct site *site);

/* schedules.c: the schedules, who is a live member, and who holds which slots */
bool schedule_of(struct site *site, int unit, uint8_t hop, uint8_t kinds[BRAIDLARK_MOST_SLOTS]);
void schedules_copy(struct site *site, struct schedules *copy);
void check_schedules(struct site *site);
void schedules_forget(struct site *site);
void check_full(struct site *site);
void check_holdings(struct site *site);

/* orders.c: the orders for the valves */
struct order *orders_find(struct site *site, const struct packet *packet, int *number);
void orders_give(struct site *site, int head, uint8_t setting);
void orders_withdraw(struct site *site, int head);
void orders_repeat(struct site *site);
void orders_arrive(struct site *site, int unit, const uint8_t *words);
void orders_confirm(struct site *site, int unit, const uint8_t *words);
void orders_carried(struct site *site, int carrier, const struct packet *packet);

/* lasting.c: how long the routes of orders last, and orders that are held back for that */
void lasting_set_out(struct site *site, const struct packet *packet, uint32_t left);
void lasting_refused(struct site *site, int unit, const struct packet *packet);

/* routes.c: the ways that units know, and the manager's over the night */
bool routes_find_at(struct site *site, const uint8_t table[BRAIDLARK_TABLE_SIZE], uint16_t destination, uint32_t time,
                    struct route *route);
bool routes_find(struct site *site, int unit, uint16_t destination, struct route *route);
void routes_watch(struct site *site);

/* ways.c: the ways that there are, known or not */
uint32_t ways_find(const struct site *site, int from, bool (*carries)(const struct site *site, int unit));
void ways_watch(struct site *site);
bool ways_settled(const struct site *site, int unit);

/* story.c: what happens when */
void story_slot(struct site *site);
void story_orders(struct site *site);
bool story_is_quiet(const struct site *site);

/* superframes.c: the night, superframe by superframe */
void superframes_run(struct site *site);

/* checks.c: what the program holds the library and itself to */
#define REFUSAL(number) (1u << (number))
void check_status(struct site *site, const char *call, uint8_t status, uint32_t refusals);
void check_merge(struct site *site, int unit, const struct packet *packet, uint16_t compared);
void check_next_hop(struct site *site, int unit, uint16_t next_hop);
void check_routes(struct site *site);
void check_air(struct site *site, int slot);
void check_clocks(struct site *site);
void check_silence(struct site *site, int unit, uint8_t before);
void check_turn(struct site *site, int unit);
void check_gone(struct site *site, int unit);
void check_lasts(struct site *site, int number, const struct order *order);
void check_end(struct site *site);

/* timeline.c: the lines for the grower */
#ifdef __GNUC__
#define LIKE_PRINTF __attribute__((format(printf, 2, 3)))
#else
#define LIKE_PRINTF
#endif
void scene(struct site *site, const char *title);
void say(struct site *site, const char *format, ...) LIKE_PRINTF;
void fail(struct site *site, const char *format, ...) LIKE_PRINTF;
void clock_words(uint64_t time, char words[9]);
void number_words(uint32_t numbers, char words[80]);
void timeline_quiet(struct site *site, uint64_t took_ms);

/* summary.c: the night in numbers, and what it was held to */
void summary_print(struct site *site);

/* record.c: values over the night */
void record_note(struct record *record, uint64_t time, int unit);
void record_loss(struct site *site, int order);

/* drawing.c, and the files beside it: the night as one picture */
void drawing_write(const struct site *site, FILE *file);

#endif
