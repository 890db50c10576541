/*
 * Two frames heard in one slot: which of them is followed.
 */
#include "every_call.h"

#include <string.h>

enum { FIRST, SECOND, NEITHER }; /* the last is no answer: it stands in `which` until there is one */
enum { EMPTY, TOO_LONG, NO_TYPE, NO_BEACON, CUT, GARBLED, BROKEN_RULE, FOREIGN, FLAWS };

static const uint32_t both_kinds[] = {LONG_BEACONS, SHORT_BEACONS};

/* A frame, how well it was heard, and how it is refused where it will not do. */
struct heard {
    uint8_t bytes[BRAIDLARK_MOST_FRAME + 1];
    size_t length;
    uint8_t quality, refusal;
};

/* The manager's beacon of either kind, but for its network and its hop. */
static void hear_kind(struct heard *heard, uint32_t kind, uint32_t network, uint32_t hop, uint8_t quality)
{
    int is_long = kind == LONG_BEACONS;
    uint32_t fields[BRAIDLARK_MOST_FIELDS];
    memset(heard, 0, sizeof *heard);
    heard->length = is_long ? write_beacon(heard->bytes, NOW) : write_short_beacon(heard->bytes, NOW, 9);
    heard->quality = quality;
    read_whole(heard->bytes, heard->length, fields);
    fields[is_long ? (int)BRAIDLARK_FIELD_BEACON_NETWORK : (int)BRAIDLARK_FIELD_SHORT_BEACON_NETWORK] = network;
    fields[is_long ? (int)BRAIDLARK_FIELD_BEACON_HOP : (int)BRAIDLARK_FIELD_SHORT_BEACON_HOP] = hop;
    write_whole(fields, BRAIDLARK_MOST_FIELDS, NULL, 0, heard->bytes);
}

/* Gives a beacon one flaw, and answers its refusal. Both kinds end with max hops, two bytes of sequence and the
 * checksum, which is an exclusive or. */
static uint8_t spoil(struct heard *heard, int flaw)
{
    static const uint32_t data[BRAIDLARK_FIELDS_DATA] = {BRAIDLARK_TYPE_DATA, MANAGER, UNIT, 8, 77, 0};
    uint8_t *end = heard->bytes + heard->length;
    switch (flaw) {
    case EMPTY:
        heard->length = 0;
        return BRAIDLARK_BAD_LENGTH;
    case TOO_LONG:
        heard->length = BRAIDLARK_MOST_FRAME + 1;
        return BRAIDLARK_BAD_LENGTH;
    case NO_TYPE:
        heard->bytes[0] = 0;
        return BRAIDLARK_BAD_TYPE;
    case NO_BEACON:
        heard->length = write_whole(data, BRAIDLARK_FIELDS_DATA, NULL, 0, heard->bytes);
        return BRAIDLARK_BAD_TYPE;
    case CUT:
        heard->length--;
        return BRAIDLARK_BAD_LENGTH;
    case GARBLED:
        end[-2] ^= 0x80;
        return BRAIDLARK_BAD_CHECKSUM;
    case BROKEN_RULE:
        end[-4] ^= 0x80;
        end[-1] ^= 0x80;
        return BRAIDLARK_BAD_FIELD;
    default:
        return BRAIDLARK_OTHER_NETWORK;
    }
}

/* Frames of the lowest hop and the highest quality, none of which will do. */
static void hear_unfit(struct heard *unfit, uint32_t kind)
{
    int flaw;
    for (flaw = EMPTY; flaw < FLAWS; flaw++) {
        hear_kind(&unfit[flaw], kind, flaw == FOREIGN ? NETWORK + 1 : NETWORK, 0, 255);
        unfit[flaw].refusal = spoil(&unfit[flaw], flaw);
    }
}

static void expect_follow(const struct heard *first, const struct heard *second, uint16_t network, uint8_t refusal,
                          uint8_t expected)
{
    uint8_t which = NEITHER;
    EXPECT(braidlark_follow(first->length > 0 ? first->bytes : NULL, first->length, first->quality,
                            second->length > 0 ? second->bytes : NULL, second->length, second->quality, network,
                            &which) == refusal);
    EXPECT(which == expected);
}

/* By hop, then by quality, then the first; either kind against either. */
static void rank_beacons(void)
{
    static const struct {
        uint8_t first_hop, first_quality, second_hop, second_quality, which;
    } cases[] = {
        {1, 0, 2, 255, FIRST},   {2, 255, 1, 0, SECOND},   {0, 0, MAX_HOPS, 255, FIRST}, {MAX_HOPS, 255, 0, 0, SECOND},
        {1, 201, 1, 200, FIRST}, {1, 200, 1, 201, SECOND}, {1, 1, 1, 0, FIRST},          {1, 0, 1, 1, SECOND},
        {1, 200, 1, 200, FIRST}, {0, 0, 0, 0, FIRST},
    };
    struct heard first, second;
    size_t each, kinds;
    for (each = 0; each < sizeof cases / sizeof cases[0]; each++)
        for (kinds = 0; kinds < 4; kinds++) {
            hear_kind(&first, both_kinds[kinds / 2], NETWORK, cases[each].first_hop, cases[each].first_quality);
            hear_kind(&second, both_kinds[kinds % 2], NETWORK, cases[each].second_hop, cases[each].second_quality);
            expect_follow(&first, &second, NETWORK, BRAIDLARK_ACCEPTED, cases[each].which);
        }
}

/* A beacon that will do goes before any frame that will not, at its highest hop and heard as badly as can be. */
static void pass_over_unfit(const struct heard *unfit)
{
    struct heard ours;
    size_t kind;
    for (kind = 0; kind < 2; kind++) {
        hear_kind(&ours, both_kinds[kind], NETWORK, MAX_HOPS, 0);
        expect_follow(&ours, unfit, NETWORK, BRAIDLARK_ACCEPTED, FIRST);
        expect_follow(unfit, &ours, NETWORK, BRAIDLARK_ACCEPTED, SECOND);
    }
}

/* In network 0 no beacon will do: the first one's refusal is then that of the network. */
static void follow_in_no_network(const struct heard *unfit)
{
    uint8_t refusal = unfit->refusal == BRAIDLARK_OTHER_NETWORK ? BRAIDLARK_BAD_FIELD : unfit->refusal;
    struct heard ours;
    size_t kind;
    for (kind = 0; kind < 2; kind++) {
        hear_kind(&ours, both_kinds[kind], NETWORK, 0, QUALITY);
        expect_follow(&ours, unfit, 0, BRAIDLARK_BAD_FIELD, NEITHER);
        expect_follow(unfit, &ours, 0, refusal, NEITHER);
    }
}

void try_follow(void)
{
    struct heard unfit[2 * FLAWS];
    size_t first, second;
    rank_beacons();
    hear_unfit(unfit, LONG_BEACONS);
    hear_unfit(unfit + FLAWS, SHORT_BEACONS);
    for (first = 0; first < 2 * FLAWS; first++) {
        pass_over_unfit(&unfit[first]);
        follow_in_no_network(&unfit[first]);
        for (second = 0; second < 2 * FLAWS; second++)
            if (second != first) /* buffers of a call do not overlap */
                expect_follow(&unfit[first], &unfit[second], NETWORK, unfit[first].refusal, NEITHER);
    }
}
