/*
 * The stored image of a book, and a site with short beacons, whose book has none.
 */
#include "every_call.h"

#include <string.h>

/* The manager is switched off and on: the book that comes back is the same, since everyone was heard at its time. */
static void keep(uint8_t *book)
{
    uint8_t image[BRAIDLARK_MOST_IMAGE], restored[BRAIDLARK_BOOK_SIZE];
    uint32_t written = 0;
    EXPECT(braidlark_heard(book, BRAIDLARK_BOOK_SIZE, MANAGER, NOW) == BRAIDLARK_ACCEPTED);
    EXPECT(braidlark_image(book, BRAIDLARK_BOOK_SIZE, NOW, image, sizeof image, &written) == BRAIDLARK_ACCEPTED);
    EXPECT(written == 20 + 10 * ROWS);
    EXPECT(braidlark_restore(restored, sizeof restored, image, written, NOW) == BRAIDLARK_ACCEPTED);
    EXPECT(memcmp(restored, book, sizeof restored) == 0);
}

/* Eight units and slots of a second: 70 s are too long for what a long beacon says of a superframe. */
static void plan_eight_units(uint8_t *plan)
{
    uint32_t numbers[BRAIDLARK_FIELDS_PLAN];
    EXPECT(braidlark_plan(plan, BRAIDLARK_PLAN_SIZE, NETWORK, MANAGER, 1, 8, 8, SLOT_MS, LONG_BEACONS) ==
           BRAIDLARK_OUT_OF_RULE);
    EXPECT(braidlark_plan(plan, BRAIDLARK_PLAN_SIZE, NETWORK, MANAGER, 1, 8, 8, SLOT_MS, SHORT_BEACONS) ==
           BRAIDLARK_ACCEPTED);
    EXPECT(braidlark_plan_numbers(plan, BRAIDLARK_PLAN_SIZE, numbers, BRAIDLARK_FIELDS_PLAN) == BRAIDLARK_ACCEPTED);
    EXPECT(numbers[BRAIDLARK_FIELD_PLAN_SLOTS] == 70);
    EXPECT(numbers[BRAIDLARK_FIELD_PLAN_SUPERFRAME_MS] == 70000);
}

/* Its book works as any, but has no image: that is said behind a time that is too early, and before want of room. */
static void manage_eight_units(void)
{
    uint8_t plan[BRAIDLARK_PLAN_SIZE], book[BRAIDLARK_BOOK_SIZE], image[BRAIDLARK_MOST_IMAGE];
    uint32_t written = 1;
    plan_eight_units(plan);
    EXPECT(braidlark_book_fresh(book, sizeof book, plan, sizeof plan, NOW) == BRAIDLARK_ACCEPTED);
    EXPECT(memcmp(book, plan, sizeof plan) == 0);
    EXPECT(braidlark_heard(book, sizeof book, MANAGER, NOW) == BRAIDLARK_ACCEPTED);
    EXPECT(braidlark_image(book, sizeof book, NOW - 1, image, 0, &written) == BRAIDLARK_TOO_EARLY);
    EXPECT(braidlark_image(book, sizeof book, NOW, image, 0, &written) == BRAIDLARK_OUT_OF_RULE);
    EXPECT(braidlark_image(book, sizeof book, NOW, image, sizeof image, &written) == BRAIDLARK_OUT_OF_RULE);
    EXPECT(written == 1);
}

void try_image(uint8_t *book)
{
    keep(book);
    manage_eight_units();
}
