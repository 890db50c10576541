/*
 * The header's numbers: its lengths and limits fit each other, and each refusal has its text.
 */
#include "every_call.h"

#include <string.h>

static void numbers_fit(void)
{
    EXPECT(BRAIDLARK_MOST_FRAME == BRAIDLARK_LENGTH_DATA + BRAIDLARK_MOST_PAYLOAD);
    EXPECT(BRAIDLARK_MOST_FRAME >= BRAIDLARK_LENGTH_UPDATE + BRAIDLARK_MOST_ENTRIES * BRAIDLARK_ENTRY_SIZE);
    EXPECT((int)BRAIDLARK_MOST_FIELDS == (int)BRAIDLARK_FIELDS_BEACON);
    EXPECT((int)BRAIDLARK_FIELDS_SHORT_BEACON < (int)BRAIDLARK_FIELDS_BEACON);
    EXPECT(BRAIDLARK_RESPONSES_SIZE == (1 + BRAIDLARK_MOST_HELD) * BRAIDLARK_LENGTH_JOIN_RESPONSE);
    EXPECT(BRAIDLARK_TABLE_SIZE == 11 + BRAIDLARK_MOST_ROUTES * 11);
    EXPECT(BRAIDLARK_MOST_COMPARED == (1 + BRAIDLARK_MOST_ENTRIES) * BRAIDLARK_MOST_ROUTES);
    EXPECT(BRAIDLARK_POLL_SIZE == 3 + BRAIDLARK_MOST_POLLED * 3);
    EXPECT(BRAIDLARK_MOST_POLLED >= BRAIDLARK_MOST_MEMBERS - 1); /* one is the poll's own unit */
    EXPECT((int)BRAIDLARK_FIELDS_ELECTION == 3 && BRAIDLARK_LENGTH_ELECTION == 5);
    EXPECT(BRAIDLARK_BOOK_SIZE == BRAIDLARK_PLAN_SIZE + 4 + BRAIDLARK_MOST_MEMBERS * 14);
    EXPECT(BRAIDLARK_MOST_IMAGE == 11 + (BRAIDLARK_PLAN_SIZE - 1) + BRAIDLARK_MOST_MEMBERS * 10); /* without the kind */
    EXPECT(BRAIDLARK_SHEET_ROW_SIZE == 2 + 8 && BRAIDLARK_LINK_SIZE == 2 + 2);
    EXPECT((int)BRAIDLARK_SHEET_FINE == 0 && (int)BRAIDLARK_SHEET_UNIT == 1 && (int)BRAIDLARK_SHEET_PAIR == 2);
    EXPECT(BRAIDLARK_LONGEST_SUPERFRAME_MS == BRAIDLARK_MOST_SLOTS * BRAIDLARK_LONGEST_SLOT_MS);
}

/* Each refusal has a text of its own, and no other number has one. */
static void refusals_have_texts(void)
{
    const char *none = braidlark_refusal_text(-1);
    int number, other;
    for (number = BRAIDLARK_ACCEPTED; number <= BRAIDLARK_NOT_OURS; number++) {
        EXPECT(strlen(braidlark_refusal_text(number)) > 0 && strcmp(braidlark_refusal_text(number), none) != 0);
        for (other = BRAIDLARK_ACCEPTED; other < number; other++)
            EXPECT(strcmp(braidlark_refusal_text(number), braidlark_refusal_text(other)) != 0);
    }
    EXPECT(strcmp(braidlark_refusal_text(BRAIDLARK_NOT_OURS + 1), none) == 0);
    EXPECT(strcmp(braidlark_refusal_text(BRAIDLARK_FULL),
                  "every member row live, or a poll with no room for one more unit") == 0);
}

void try_numbers(void)
{
    numbers_fit();
    refusals_have_texts();
}
