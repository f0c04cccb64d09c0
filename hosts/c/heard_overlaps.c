/* thawribbon_board_ask with what is heard in the board, a space, rules or marks, or right beside them: at the distances where that changes. */
#include "first_day.h"

#include "bench_parts.h"
#include "groups.h"

#include <string.h>

enum { APART = 16, HEARD = sizeof(thawribbon_heard) };

/* A board and all that it lends, with room between for what is heard. */
static struct memory {
    uint8_t apart_0[APART];
    thawribbon_bytes ordinary;
    uint8_t apart_1[APART];
    thawribbon_bytes ordinary_rules;
    uint8_t apart_2[APART];
    thawribbon_bytes ordinary_marks;
    uint8_t apart_3[APART];
    thawribbon_bytes trusted;
    uint8_t apart_4[APART];
    thawribbon_bytes trusted_rules;
    uint8_t apart_5[APART];
    thawribbon_bytes trusted_marks;
    uint8_t apart_6[APART];
    thawribbon_board board;
    uint8_t apart_7[APART];
} memory, expected;

static void set_up(void)
{
    const thawribbon_board board = {{0, 0x104, 0x00C, THAWRIBBON_EDITION_1}, THAWRIBBON_FRESH,
                                    {&memory.ordinary, &memory.ordinary_rules, &memory.ordinary_marks},
                                    {&memory.trusted, &memory.trusted_rules, &memory.trusted_marks}};
    memset(&memory, 0x5C, sizeof memory);
    memset(&memory.ordinary_marks, 0xA3, THAWRIBBON_SPACE);
    memset(&memory.trusted_marks, 0xA3, THAWRIBBON_SPACE);
    memory.board = board;
    memcpy(&expected, &memory, sizeof memory);
}

/* A Type 0 read, which changes nothing but what is heard, with that at a place of the memory. */
static void asks_at(size_t place, int overlaps)
{
    thawribbon_heard shown = {0, THAWRIBBON_SAID_DATA, {0, 0}, {0x01, 0x00}, 7, {0x5C, 0x5C, 0x5C, 0x5C}};
    const thawribbon_heard heard = overlaps ? nothing_heard(THAWRIBBON_BAD_DESCRIPTION) : shown;
    const thawribbon_asked asked = overlaps ? THAWRIBBON_ASKED_REFUSED : THAWRIBBON_ASKED_DONE;
    set_up();
    memcpy((uint8_t *)&expected + place, &heard, sizeof heard);
    expect(thawribbon_board_ask(&memory.board, of_kind(THAWRIBBON_TYPE0_READ), (thawribbon_heard *)((uint8_t *)&memory + place)) == asked,
           "something else became of it", place);
    expect(memcmp(&memory, &expected, sizeof memory) == 0, "something else is written", place);
}

/* Around the first byte and the last of something so long. */
static void around(size_t start, size_t length)
{
    size_t n;
    for (n = 0; n <= 2 * HEARD; n++) {
        asks_at(start - HEARD + n, n != 0);
        asks_at(start + length - n, n != 0);
    }
}

static void around_spaces(void)
{
    around(offsetof(struct memory, ordinary), THAWRIBBON_SPACE);
    around(offsetof(struct memory, trusted), THAWRIBBON_SPACE);
}

static void around_rules(void)
{
    around(offsetof(struct memory, ordinary_rules), THAWRIBBON_SPACE);
    around(offsetof(struct memory, trusted_rules), THAWRIBBON_SPACE);
}

static void around_marks(void)
{
    around(offsetof(struct memory, ordinary_marks), THAWRIBBON_SPACE);
    around(offsetof(struct memory, trusted_marks), THAWRIBBON_SPACE);
}

static void around_board(void)
{
    around(offsetof(struct memory, board), sizeof(thawribbon_board));
}

void heard_overlaps(void)
{
    group("ask, what is heard in a space or beside it", around_spaces);
    group("ask, what is heard in rules or beside them", around_rules);
    group("ask, what is heard in marks or beside them", around_marks);
    group("ask, what is heard in the board or beside it", around_board);
}
