/* A C client of the ceiling: ceiling-c
 *
 * Asks for the ceilings of document 01's cases and judges them with a table of just that size, looks at the edges of 18 and 19, and makes every refused
 * call with two damages on arrays full of guard values. Any difference is printed and makes the exit status 1.
 */
#include "fumarehi.h"

#include <stdio.h>
#include <string.h>

static unsigned long compared, failed;

static void expect(int holds, const char *what, const char *log)
{
    compared++;
    if (holds)
        return;
    failed++;
    printf("FAILED: %s, %s\n", what, log);
}

enum { MOST = 4000, GUARD = 4, GROUPS = 17, NUMBERS = 1000 };

/* ---- Document 01's cases: the ceiling, P, and a table of that size ---- */

static const struct row {
    const char *log;
    size_t k, groups_len;
    uint16_t masks[4], groups[4];
    uint64_t ceiling, prefixes;
} rows[] = {
    {"", 2, 2, {2, 1}, {1, 2}, 1, 1},
    {"bbaa", 2, 2, {2, 1}, {1, 2}, 9, 9},
    {"bab", 2, 2, {2, 1}, {1, 2}, 6, 6},
    {"ba", 2, 1, {0, 0}, {3}, 3, 3},
    {"ba", 2, 2, {0, 0}, {1, 2}, 4, 3},
    {"abcbad", 4, 2, {2, 1, 0, 0}, {13, 2}, 15, 9},
    {"abcbad", 4, 2, {2, 1, 0, 0}, {13, 14}, 25, 9},
    {"abcbad", 4, 3, {2, 1, 0, 0}, {13, 0, 2}, 15, 9},
    {"cab", 3, 2, {2, 5, 2}, {5, 2}, 6, 6},
    {"bbaa", 2, 2, {0, 1}, {1, 2}, 9, 9},
    {"bbaa", 2, 2, {2, 0}, {1, 2}, 9, 5},
};

static void bounded_row(const struct row *row)
{
    static const uint32_t moves[4] = {1, 1, 1, 1};
    static uint32_t work[NUMBERS];
    uint8_t log[8], order[8];
    uint64_t told[2] = {77, 77}, judged[4];
    size_t n = strlen(row->log);
    for (size_t i = 0; i < n; i++)
        log[i] = (uint8_t)(row->log[i] - 'a');
    uint32_t answer = fumarehi_ceiling(row->k, row->masks, row->k, log, n, row->groups, row->groups_len, told);
    expect(answer == 0 && told[0] == 0 && told[1] == row->ceiling, "a ceiling", row->log);
    size_t work_len = told[1] * FUMAREHI_RECORD_NUMBERS;
    answer = fumarehi_judge(row->k, 1, 0, 1, row->masks, row->k, moves, row->k, log, n, order, n, work, work_len, judged);
    expect(answer == 0 && judged[2] == row->prefixes && judged[2] <= told[1], "the judge with a table of that size", row->log);
}

/* ---- The edges ---- */

static uint16_t singles[GROUPS];
static const uint16_t apart[16];

static void edge(size_t k, const uint8_t *log, size_t n, size_t groups_len, uint32_t number, uint64_t ceiling, const char *what)
{
    uint64_t told[2] = {77, 77};
    uint32_t answer = fumarehi_ceiling(k, apart, k, log, n, singles, groups_len, told);
    expect(answer == number && told[0] == 0 && told[1] == ceiling, what, "edges");
}

/* So many events of each letter, one letter after the other; how many they are. */
static size_t put_events(uint8_t *log, const size_t *counts, size_t letters)
{
    size_t n = 0;
    for (size_t a = 0; a < letters; a++)
        for (size_t i = 0; i < counts[a]; i++)
            log[n++] = (uint8_t)a;
    return n;
}

static void edges(void)
{
    static const size_t threes[16] = {3, 3, 3, 3, 3, 3, 3, 3, 3, 3, 3, 3, 3, 3, 3, 3};
    static const size_t highest[7] = {3, 8, 6, 10, 30, 150, 331}, most[3] = {1333, 1333, 1334};
    static uint8_t log[MOST + 1];
    for (size_t i = 0; i < GROUPS; i++)
        singles[i] = (uint16_t)(1u << i % 16);
    size_t n = put_events(log, threes, 16);
    edge(16, log, n, 16, 19, 0, "4 to the 16");
    edge(16, log, n - 1, 16, 0, 3221225472, "one event less");
    edge(16, log, n, 15, 18, 0, "a letter in no group before 19");
    edge(16, log, n, 17, 18, 0, "seventeen groups");
    edge(16, log, n, 0, 18, 0, "no group");
    n = put_events(log, highest, 7);
    edge(7, log, n - 1, 7, 0, 4294967292, "the highest ceiling");
    edge(7, log, n, 7, 19, 0, "one event more");
    n = put_events(log, most, 3);
    edge(3, log, n, 3, 0, 1334ull * 1334 * 1335, "4,000 events");
    memset(log, 0, sizeof log);
    edge(1, log, MOST, 1, 0, MOST + 1, "4,000 times one letter");
    edge(1, log, MOST + 1, 1, 7, 0, "4,001 events");
}

/* ---- Refused calls ---- */

struct lent {
    size_t k, masks_len, log_len, groups_len;
    uint16_t masks[GUARD + 2 + GUARD], groups[GUARD + GROUPS + GUARD];
    uint8_t log[GUARD + MOST + 1 + GUARD];
    uint64_t told[GUARD + 2 + GUARD];
};

/* Two letters exchanged one way; bba. */
static void answered_call(struct lent *l)
{
    memset(l, 0, sizeof *l);
    l->k = l->masks_len = 2;
    l->masks[GUARD + 1] = 1;
    l->groups_len = 2;
    l->groups[GUARD] = 1;
    l->groups[GUARD + 1] = 2;
    l->log_len = 3;
    l->log[GUARD] = l->log[GUARD + 1] = 1;
    memset(l->told, 0xA5, sizeof l->told);
}

static uint32_t ceiling(struct lent *l)
{
    return fumarehi_ceiling(l->k, l->masks + GUARD, l->masks_len, l->log + GUARD, l->log_len, l->groups + GUARD, l->groups_len, l->told + GUARD);
}

static void k_0(struct lent *l) { l->k = 0; }
static void k_17(struct lent *l) { l->k = 17; }
static void k_wide(struct lent *l) { l->k = (size_t)1 << 32 | 2; }
static void masks_1(struct lent *l) { l->masks_len = 1; }
static void masks_3(struct lent *l) { l->masks_len = 3; }
static void own_bit(struct lent *l) { l->masks[GUARD + 1] |= 2; }
static void bit_k(struct lent *l) { l->masks[GUARD] |= 4; }
static void bit_15(struct lent *l) { l->masks[GUARD] |= 0x8000; }
static void long_log(struct lent *l) { l->log_len = MOST + 1; }
static void letter_k(struct lent *l) { l->log[GUARD + 2] = 2; }
static void letter_255(struct lent *l) { l->log[GUARD + 2] = 255; }
static void no_group(struct lent *l) { l->groups_len = 0; }
static void groups_17(struct lent *l) { l->groups_len = 17; }
static void missing(struct lent *l) { l->groups_len = 1; }
static void exchanged(struct lent *l) { l->groups[GUARD] = 3; }
static void group_bit_k(struct lent *l) { l->groups[GUARD + 1] |= 4; }
static void group_bit_15(struct lent *l) { l->groups[GUARD] |= 0x8000; }

/* 32 events of letter b, and groups 1, 2 and then fourteen that hold b alone: 33 to the 15. */
static void high(struct lent *l)
{
    if (l->log_len < 33)
        l->log_len = 33;
    for (size_t i = 3; i < 33; i++)
        l->log[GUARD + i] = 1;
    if (l->groups_len == 2) {
        l->groups_len = 16;
        for (size_t i = 2; i < 16; i++)
            l->groups[GUARD + i] = 2;
    }
}

static const struct damage {
    const char *what;
    uint32_t number;
    uint64_t place;
    void (*apply)(struct lent *);
} damages[] = {
    {"k 0", 2, 0, k_0},
    {"k 17", 2, 0, k_17},
    {"k past 32 bits", 2, 0, k_wide},
    {"one mask", 2, 0, masks_1},
    {"three masks", 2, 0, masks_3},
    {"a mask with its own bit", 4, 0, own_bit},
    {"a mask with bit k", 4, 0, bit_k},
    {"a mask with bit 15", 4, 0, bit_15},
    {"4,001 events", 7, 0, long_log},
    {"letter k", 8, 2, letter_k},
    {"letter 255", 8, 2, letter_255},
    {"no group", 18, 0, no_group},
    {"seventeen groups", 18, 0, groups_17},
    {"a letter in no group", 18, 0, missing},
    {"two letters exchanged one way", 18, 0, exchanged},
    {"a group with bit k", 18, 0, group_bit_k},
    {"a group with bit 15", 18, 0, group_bit_15},
    {"a ceiling above 32 bits", 19, 0, high},
};

enum { DAMAGES = sizeof damages / sizeof *damages };

/* A call with two damages, the first of a lower number, or twice the same: it is refused for the first, and nothing is changed but 'told'. */
static void refused(const struct damage *lower, const struct damage *higher)
{
    static struct lent l, expected;
    answered_call(&l);
    lower->apply(&l);
    if (higher != lower)
        higher->apply(&l);
    memcpy(&expected, &l, sizeof l);
    expected.told[GUARD] = lower->place;
    expected.told[GUARD + 1] = 0;
    expect(ceiling(&l) == lower->number, higher->what, lower->what);
    expect(!memcmp(&l, &expected, sizeof l), "the arguments and 'told'", lower->what);
}

static void refused_calls(void)
{
    for (const struct damage *lower = damages; lower < damages + DAMAGES; lower++)
        for (const struct damage *higher = lower; higher < damages + DAMAGES; higher++)
            if (lower == higher || lower->number < higher->number)
                refused(lower, higher);
}

int main(void)
{
    for (const struct row *row = rows; row < rows + sizeof rows / sizeof *rows; row++)
        bounded_row(row);
    edges();
    refused_calls();
    printf("ceiling.c: %lu comparisons, %lu failed\n", compared, failed);
    return failed != 0;
}
