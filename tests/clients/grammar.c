/* A C client of the judge for grammars: grammar-c
 *
 * Judges logs of nested loans, looks at the order that is returned by a stack of its own, compares a table number by number, judges 1,000 letters, and makes
 * every refused call on buffers full of guard values. Any difference is printed and makes the exit status 1.
 */
#include "fumarehi.h"

#include <stdio.h>
#include <string.h>

static unsigned long compared, failed;

static void expect(int holds, const char *what, const char *log)
{
    compared++;
    if (holds)
        return;
    failed++;
    printf("FAILED: %s, %s\n", what, log);
}

enum { RECORD = 10, LONG = 1000, NUMBERS = RECORD * (LONG + 2) };

/* Loans in loans: a lends a set and b takes it back; a set may hold sets. Name 0 is such a log, 1 lends, 2 takes back, 3 is a log and what takes back. */
static const uint16_t nested[6] = {
    FUMAREHI_NAMES_RULE(0, 1, 2), FUMAREHI_NAMES_RULE(0, 1, 3), FUMAREHI_NAMES_RULE(0, 0, 0),
    FUMAREHI_NAMES_RULE(3, 0, 2), FUMAREHI_LETTER_RULE(1, 0), FUMAREHI_LETTER_RULE(2, 1),
};

static uint8_t log_of[LONG + 4000], order[LONG + 8];
static uint32_t work[NUMBERS];
static uint16_t sets[(LONG + 2) * (LONG + 2)];
static uint64_t told[4];

static size_t letters(const char *text)
{
    size_t len = strlen(text);
    for (size_t i = 0; i < len; i++)
        log_of[i] = (uint8_t)(text[i] - 'a');
    return len;
}

static uint32_t judge(const uint16_t *masks, size_t len)
{
    return fumarehi_grammar(2, masks, 2, 4, nested, 6, log_of, len, order, LONG + 8, work, NUMBERS, sets, (LONG + 2) * (LONG + 2), told);
}

/* Each loan is taken back, the last one first: the open loans never fall below none, and none is open at the end. */
static int is_nested(const uint8_t *log, size_t len)
{
    size_t open = 0;
    for (size_t i = 0; i < len; i++) {
        if (log[i] == 1 && open == 0)
            return 0;
        open = log[i] == 0 ? open + 1 : open - 1;
    }
    return open == 0 && len > 0;
}

static int same_letters(const uint8_t *one, const uint8_t *other, size_t len)
{
    size_t as = 0, bs = 0;
    for (size_t i = 0; i < len; i++) {
        as += one[i] == 0;
        bs += other[i] == 0;
    }
    return as == bs;
}

/* ---- Logs with verdict, P and looks ---- */

static const struct row {
    const char *log;
    uint16_t masks[2];
    uint64_t verdict, prefixes, looks;
} rows[] = {
    {"", {2, 1}, 0, 1, 0},
    {"ab", {2, 1}, 1, 4, 4},
    {"ba", {0, 0}, 0, 3, 2},
    {"ba", {2, 1}, 1, 4, 4},
    {"ba", {0, 1}, 1, 4, 4},
    {"ba", {2, 0}, 0, 3, 2},
    {"bbaa", {2, 1}, 1, 9, 12},
    {"aab", {2, 1}, 0, 6, 7},
    {"abab", {0, 0}, 1, 5, 4},
    {"aabb", {0, 0}, 1, 5, 4},
    {"abba", {0, 0}, 0, 5, 4},
};

static void judged_row(const struct row *row)
{
    size_t len = letters(row->log);
    memset(order, 0xA5, sizeof order);
    uint32_t answer = judge(row->masks, len);
    expect(answer == 0 && told[0] == 0, "an answer", row->log);
    expect(told[1] == row->verdict && told[2] == row->prefixes && told[3] == row->looks, "verdict, P and looks", row->log);
    if (row->verdict)
        expect(is_nested(order, len) && same_letters(order, log_of, len), "an order of nested loans", row->log);
    for (size_t i = row->verdict ? len : 0; i < sizeof order; i++)
        expect(order[i] == 0xA5, "a byte past the order", row->log);
    for (size_t r = 0; r < told[2]; r++)
        expect(work[RECORD * r + 8] == 0 && work[RECORD * r + 9] == 0, "forward and backward", row->log);
}

/* ba with both ways: the records of the empty prefix, b, a, ab, and nothing behind them. */
static void table_of_ba(void)
{
    static const uint32_t firsts[4] = {0, 65536, 1, 65537};
    memset(work, 0xA5, sizeof work);
    judge((const uint16_t[2]){2, 1}, letters("ba"));
    for (size_t r = 0; r < 4; r++) {
        expect(work[RECORD * r] == firsts[r], "a record's counts", "ba");
        for (size_t i = 1; i < RECORD; i++)
            expect(work[RECORD * r + i] == 0, "a record's other numbers", "ba");
    }
    expect(work[4 * RECORD] == 0xA5A5A5A5, "a number past the records", "ba");
}

/* 500 loans in one another, none of which can be exchanged; one letter more cannot be derived. */
static void long_log(void)
{
    memset(log_of, 0, LONG / 2);
    memset(log_of + LONG / 2, 1, LONG / 2 + 1);
    uint32_t answer = judge((const uint16_t[2]){0, 0}, LONG);
    expect(answer == 0 && told[1] == 1 && told[2] == LONG + 1 && !memcmp(order, log_of, LONG), "1,000 letters", "a..ab..b");
    answer = judge((const uint16_t[2]){0, 0}, LONG + 1);
    expect(answer == 0 && told[1] == 0 && told[2] == LONG + 2, "1,001 letters", "a..ab..bb");
}

/* ---- Refusals ---- */

struct call {
    size_t k, masks, names, rules, len, order, work, sets;
    uint16_t mask, rule;
    uint8_t letter;
};

/* ba with all that it needs and no more. */
static const struct call right = {2, 2, 4, 6, 2, 2, 4 * RECORD, 16, 1, FUMAREHI_LETTER_RULE(2, 1), 1};

static uint32_t answered(const struct call *c, uint16_t *some_sets, uint8_t *some_order, uint32_t *some_work)
{
    uint16_t masks[20] = {2, c->mask}, rules[66];
    for (size_t i = 0; i < 66; i++)
        rules[i] = i < 5 ? nested[i] : c->rule;
    memset(log_of, 0, sizeof log_of);
    log_of[0] = c->letter;
    return fumarehi_grammar(c->k, masks, c->masks, c->names, rules, c->rules, log_of, c->len, some_order, c->order, some_work, c->work, some_sets, c->sets, told);
}

/* The call is refused by the number, at the place, and what it was lent stays, save the work table at 10 and 22. */
static void refused(struct call c, uint32_t number, uint64_t place, const char *what)
{
    uint8_t some_order[16];
    uint32_t some_work[8 * RECORD];
    uint16_t some_sets[64];
    memset(some_order, 0xA5, sizeof some_order);
    memset(some_work, 0xA5, sizeof some_work);
    memset(some_sets, 0xA5, sizeof some_sets);
    memset(told, 0xA5, sizeof told);
    expect(answered(&c, some_sets, some_order, some_work) == number, "the number", what);
    expect(told[0] == place && told[1] == 0 && told[2] == 0 && told[3] == 0, "the place", what);
    for (size_t i = 0; i < sizeof some_order; i++)
        expect(some_order[i] == 0xA5, "the order buffer", what);
    for (size_t i = 0; i < 64; i++)
        expect(some_sets[i] == 0xA5A5, "the sets", what);
    for (size_t i = number == 10 || number == 22 ? c.work : 0; i < 8 * RECORD; i++)
        expect(some_work[i] == 0xA5A5A5A5, "the work table", what);
}

enum { DEFECTS = 8 };
static const uint32_t given[DEFECTS] = {2, 4, 21, 7, 8, 9, 10, 22};

static struct call with_defect(struct call c, int defect)
{
    switch (defect) {
    case 0: c.masks = 1; break;
    case 1: c.mask = 3; break;
    case 2: c.names = 0; break;
    case 3: c.len = 4001; break;
    case 4: c.letter = 2; break;
    case 5: c.order = 1; break;
    case 6: c.work--; break;
    default: c.sets--; break;
    }
    return c;
}

/* Every defect alone, and every two of them: the first in the header's order is given. */
static void refusals(void)
{
    for (int first = 0; first < DEFECTS; first++)
        for (int second = first; second < DEFECTS; second++) {
            struct call c = with_defect(with_defect(right, first), second);
            refused(c, given[first], 0, "two defects");
        }
}

/* 21, on each side of every limit. */
static void rule_limits(void)
{
    static const struct {
        size_t names, rules;
        uint16_t rule;
        uint32_t number;
    } limits[] = {
        {16, 64, FUMAREHI_NAMES_RULE(15, 15, 15), 0}, {17, 6, 513, 21}, {0, 0, 513, 21}, {4, 64, 513, 0}, {4, 65, 513, 21},
        {4, 6, FUMAREHI_NAMES_RULE(4, 0, 0), 21}, {4, 6, FUMAREHI_NAMES_RULE(0, 4, 0), 21}, {4, 6, FUMAREHI_NAMES_RULE(0, 0, 4), 21},
        {4, 6, FUMAREHI_NAMES_RULE(3, 3, 3), 0}, {4, 6, FUMAREHI_LETTER_RULE(3, 1), 0}, {4, 6, FUMAREHI_LETTER_RULE(0, 2), 21},
        {4, 6, FUMAREHI_LETTER_RULE(4, 0), 21}, {4, 6, 8192, 21}, {4, 6, 65535, 21},
    };
    for (size_t i = 0; i < sizeof limits / sizeof *limits; i++) {
        struct call c = right;
        c.names = limits[i].names;
        c.rules = limits[i].rules;
        c.rule = limits[i].rule;
        uint8_t some_order[2];
        uint32_t some_work[4 * RECORD];
        uint16_t some_sets[16];
        expect(answered(&c, some_sets, some_order, some_work) == limits[i].number, "a limit of names and rules", "ba");
    }
}

int main(void)
{
    for (size_t i = 0; i < sizeof rows / sizeof *rows; i++)
        judged_row(&rows[i]);
    table_of_ba();
    long_log();
    refusals();
    rule_limits();
    printf("grammar.c: %lu comparisons, %lu failed\n", compared, failed);
    return failed != 0;
}
