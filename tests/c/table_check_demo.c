/* Firmware that checks a rule table before it uses it: a good table, every cut of it, and
 * scrambled copies, each with the answer worked out by hand. */

#include <inttypes.h>

#include "sirdofu.h"
#include "support.h"

#define WORD(w) (uint8_t)((w) >> 24), (uint8_t)((w) >> 16), (uint8_t)((w) >> 8), (uint8_t)(w)
#define NODE(kind, a, b) WORD(kind), WORD(a), WORD(b)
#define REGISTERS_FROM(first) \
    WORD(first), WORD(0), WORD(0), WORD(0), WORD(0), WORD(0), WORD(0), WORD(0)

/* Three switches; switch 1 keeps: switch 0's register 0, as known there, was always at most
 * its own. */
static const uint8_t good[] = {
    WORD(1),           /*  0 code: numbers */
    WORD(3),           /*  4 number of switches */
    WORD(4),           /*  8 number of nodes */
    NODE(21, 0, 0),    /* 12 node 0: register 0 */
    NODE(24, 0, 0),    /* 24 node 1: node 0 at switch 0 */
    NODE(11, 1, 0),    /* 36 node 2: node 1 within node 0 */
    NODE(8, 2, 0),     /* 48 node 3: always node 2 */
    WORD(1),           /* 60 number of rules */
    WORD(1), WORD(3),  /* 64 rule 0: at switch 1, node 3 */
    WORD(24),          /* 72 number of starting words */
    REGISTERS_FROM(5), /* 76 switch 0 */
    REGISTERS_FROM(7), /* 108 switch 1 */
    REGISTERS_FROM(0), /* 140 switch 2 */
};

/* The good table with the field at `offset` set to `word`. */
struct scramble {
    size_t offset;
    uint32_t word;
    uint32_t number;
    uint32_t place;
    const char *what;
};

static const struct scramble scrambles[] = {
    {0, 2, 0, 0, "the code of port sets"},
    {0, 0, SIRDOFU_FIELD, 0, "code 0"},
    {0, 3, SIRDOFU_FIELD, 0, "code 3"},
    {0, 0x01000000, SIRDOFU_FIELD, 0, "code with its low byte first"},
    {4, 0, SIRDOFU_FIELD, 4, "no switches"},
    {4, 17, SIRDOFU_FIELD, 4, "17 switches"},
    {4, 0xffffffff, SIRDOFU_FIELD, 4, "the most switches a word can say"},
    {4, 2, SIRDOFU_FIELD, 72, "starting words for another number of switches"},
    {4, 1, SIRDOFU_RULE, 0, "rule 0 names switch 1 of 1"},
    {8, 0, SIRDOFU_FIELD, 8, "no nodes"},
    {8, 49, SIRDOFU_FIELD, 8, "49 nodes"},
    {8, 3, SIRDOFU_RULE, 0, "3 nodes: node 3 is read as 8 rules, the first naming node 0"},
    {8, 5, SIRDOFU_NODE, 4, "5 nodes: the rule is read as node 4"},
    {12, 13, SIRDOFU_NODE, 0, "kind 13"},
    {16, 8, SIRDOFU_NODE, 0, "register 8"},
    {16, 7, 0, 0, "register 7"},
    {20, 1, SIRDOFU_NODE, 0, "an unused b that is not 0"},
    {28, 3, SIRDOFU_NODE, 1, "a node at switch 3 of 3"},
    {28, 2, 0, 0, "a node at switch 2 of 3"},
    {32, 1, SIRDOFU_NODE, 1, "a node that names itself"},
    {40, 2, SIRDOFU_NODE, 2, "a node that names itself"},
    {40, 3, SIRDOFU_NODE, 2, "a node that names a higher one"},
    {52, 1, SIRDOFU_NODE, 3, "a reading node where a truth node is wanted"},
    {60, 17, SIRDOFU_FIELD, 60, "17 rules"},
    {60, 0, SIRDOFU_FIELD, 64, "no rules: the rule's switch is read as the number of words"},
    {64, 3, SIRDOFU_RULE, 0, "a rule at switch 3 of 3"},
    {68, 1, SIRDOFU_RULE, 0, "a rule that names a reading node"},
    {68, 4, SIRDOFU_RULE, 0, "a rule that names node 4 of 4"},
    {68, 2, 0, 0, "a rule that names another truth node"},
    {72, 23, SIRDOFU_FIELD, 72, "23 starting words"},
    {72, 25, SIRDOFU_FIELD, 72, "25 starting words"},
    {76, 0xffffffff, 0, 0, "another starting word"},
    {168, 0x80000000, 0, 0, "another last starting word"},
};

static struct guarded guarded;
static unsigned checks;
static unsigned faults;

static void expect(const uint8_t *bytes, size_t length, uint32_t number, uint32_t place,
                   const char *what)
{
    uint32_t answer = table_check(guarded_at_end(&guarded, bytes, length), length);

    checks++;
    if (SIRDOFU_NUMBER(answer) != number || SIRDOFU_PLACE(answer) != place) {
        faults++;
        fprintf(stderr,
                "%s (%zu bytes): wanted %" PRIu32 " at %" PRIu32 ", got %" PRIu32 " at %" PRIu32
                "\n",
                what, length, number, place, SIRDOFU_NUMBER(answer), SIRDOFU_PLACE(answer));
    }
}

static void expect_good(void)
{
    expect(good, sizeof good, 0, 0, "the good table");
}

/* Every cut ends in front of a field or inside of one, which is then the missing field. */
static void expect_cuts(void)
{
    for (size_t length = 0; length < sizeof good; length++)
        expect(good, length, SIRDOFU_LENGTH, (uint32_t)(length / 4 * 4), "a cut");
}

static void expect_bytes_left(void)
{
    uint8_t longer[sizeof good + 8] = {0};

    memcpy(longer, good, sizeof good);
    for (size_t more = 1; more <= 8; more++)
        expect(longer, sizeof good + more, SIRDOFU_LENGTH, 172, "bytes left");
}

static void expect_scrambles(void)
{
    for (size_t i = 0; i < sizeof scrambles / sizeof scrambles[0]; i++) {
        const struct scramble *s = &scrambles[i];
        const uint8_t field[4] = {WORD(s->word)};
        uint8_t bytes[sizeof good];

        memcpy(bytes, good, sizeof good);
        memcpy(bytes + s->offset, field, sizeof field);
        expect(bytes, sizeof bytes, s->number, s->place, s->what);
    }
}

int main(void)
{
    if (sizeof good != 172)
        fail("the good table is not 172 bytes");
    guarded = guarded_new(2 * sizeof good);
    expect_good();
    expect_cuts();
    expect_bytes_left();
    expect_scrambles();
    printf("firmware demo: %u checks, %u faults\n", checks, faults);
    return faults == 0 ? 0 : 1;
}
