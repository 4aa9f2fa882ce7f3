/* A C client of the closest order, with terms and without: closest-c
 *
 * Orders, swaps and floors by hand for every budget that matters, a log of more than 65,536 swaps and one of 4,000 events in two terms, the judge's answer
 * and table beside it, one term that has every day, every refusal alone and in pairs on buffers full of guard values, and every length of a cost table. Any
 * difference is printed and makes the exit status 1.
 */
#include "fumarehi.h"

#include <stdio.h>
#include <stdlib.h>
#include <string.h>

static unsigned long compared, failed;

static void expect(int holds, const char *what, const char *log)
{
    compared++;
    if (holds)
        return;
    failed++;
    printf("FAILED: %s, %s\n", what, log);
}

enum { RECORD = 10, BYTES = 16, NUMBERS = 200, COSTS = 200, MOST = 4000 };

struct profile {
    size_t k, s, start;
    uint32_t finals;
    uint16_t masks[4];
    uint32_t moves[20];
};

/* Alt of document 01; one state that accepts everything, with both pairs, and with one direction only; courses abab (states 0 to 4) and baba (0, 5 to 8). */
static const struct profile alt = {2, 2, 0, 1, {2, 1}, {2, 0, 0, 1}};
static const struct profile any = {2, 1, 0, 1, {2, 1}, {1, 1}};
static const struct profile rising = {2, 1, 0, 1, {2, 0}, {1, 1}};
static const struct profile falling = {2, 1, 0, 1, {0, 1}, {1, 1}};
static const struct profile two = {2, 9, 0, 272, {2, 1}, {2, 32, 0, 4, 8, 0, 0, 16, 0, 0, 64, 0, 0, 128, 256, 0, 0, 0}};

struct lent {
    uint8_t order[BYTES];
    uint32_t work[NUMBERS], costs[COSTS];
    uint64_t told[6];
};

static void guard(struct lent *lent)
{
    memset(lent, 0xA5, sizeof *lent);
}

static size_t letters(const char *text, uint8_t *log)
{
    size_t n = strlen(text);
    for (size_t i = 0; i < n; i++)
        log[i] = (uint8_t)(text[i] - 'a');
    return n;
}

/* From these numbers on nothing has changed. */
static int untouched(const struct lent *lent, size_t bytes, size_t numbers, size_t costs)
{
    struct lent before;
    guard(&before);
    return !memcmp(lent->order + bytes, before.order + bytes, sizeof before.order - bytes)
        && !memcmp(lent->work + numbers, before.work + numbers, sizeof before.work - numbers * sizeof before.work[0])
        && !memcmp(lent->costs + costs, before.costs + costs, sizeof before.costs - costs * sizeof before.costs[0]);
}

static int told_is(const uint64_t told[6], uint64_t place, uint64_t verdict, uint64_t prefixes, uint64_t looks, uint64_t swaps, uint64_t least)
{
    return told[0] == place && told[1] == verdict && told[2] == prefixes && told[3] == looks && told[4] == swaps && told[5] == least;
}

/* ---- Orders by hand ---- */

#define ALL UINT64_MAX

/* The digit of an event is its term, of two; NULL is the call without terms. */
static const struct row {
    const struct profile *profile;
    const char *log, *terms;
    uint64_t budget, verdict, prefixes, looks, swaps, least;
    const char *order;
} rows[] = {
    /* The pairs are the empty prefix at 0 swaps, a and ab at 2, aab and aabb at 3. */
    {&alt, "bbaa", NULL, 0, 1, 9, 12, 3, 0, "abab"},
    {&alt, "bbaa", NULL, 1, 1, 9, 12, 3, 2, "abab"},
    {&alt, "bbaa", NULL, 2, 1, 9, 12, 3, 2, "abab"},
    {&alt, "bbaa", NULL, 3, 1, 9, 12, 3, 3, "abab"},
    {&alt, "bbaa", NULL, 4, 1, 9, 12, 3, 3, "abab"},
    {&alt, "bbaa", NULL, 5, 1, 9, 12, 3, 3, "abab"},
    {&alt, "bbaa", NULL, ALL, 1, 9, 12, 3, 3, "abab"},
    /* The pairs are the empty prefix, b and ab at 0 swaps, a at 1: three of four do not cover all. */
    {&any, "ba", NULL, 0, 1, 4, 4, 1, 0, "ab"},
    {&any, "ba", NULL, 3, 1, 4, 4, 1, 0, "ab"},
    {&any, "ba", NULL, 4, 1, 4, 4, 0, 0, "ba"},
    {&any, "ba", NULL, (uint64_t)1 << 32, 1, 4, 4, 0, 0, "ba"},
    {&any, "ba", NULL, ((uint64_t)1 << 32) + 3, 1, 4, 4, 0, 0, "ba"},
    {&any, "bbaa", NULL, ALL, 1, 9, 12, 0, 0, "bbaa"},
    {&any, "bbaa", NULL, 8, 1, 9, 12, 4, 0, "aabb"},
    /* One way: b before a may not become a before b, or the other way round. */
    {&rising, "ba", NULL, 0, 1, 3, 2, 0, 0, "ba"},
    {&rising, "ba", NULL, 3, 1, 3, 2, 0, 0, "ba"},
    {&falling, "ba", NULL, 3, 1, 4, 4, 1, 0, "ab"},
    {&falling, "ba", NULL, 4, 1, 4, 4, 0, 0, "ba"},
    /* Both courses are one swap away from abba, and the earlier is given; baba is none away from itself. */
    {&two, "abba", NULL, ALL, 1, 9, 12, 1, 1, "abab"},
    {&two, "baba", NULL, ALL, 1, 9, 12, 0, 0, "baba"},
    {&two, "baba", NULL, 1, 1, 9, 12, 2, 0, "abab"},
    {&alt, "bab", NULL, 0, 0, 6, 7, 0, 0, ""},
    {&alt, "bab", NULL, ALL, 0, 6, 7, 0, 0, ""},
    {&alt, "", NULL, 0, 1, 1, 0, 0, 0, ""},
    {&alt, "", NULL, 1, 1, 1, 0, 0, 0, ""},
    /* In two terms: the pairs are the empty prefix at 0 swaps, a and ab at 1, aba and abab at 2. Days may fall. */
    {&alt, "baba", "1122", 0, 1, 7, 8, 2, 0, "abab"},
    {&alt, "baba", "1122", 1, 1, 7, 8, 2, 1, "abab"},
    {&alt, "baba", "1122", 2, 1, 7, 8, 2, 1, "abab"},
    {&alt, "baba", "1122", 3, 1, 7, 8, 2, 2, "abab"},
    {&alt, "baba", "1122", 5, 1, 7, 8, 2, 2, "abab"},
    {&alt, "baba", "2211", 1, 1, 7, 8, 2, 1, "abab"},
    {&alt, "baba", "2211", ALL, 1, 7, 8, 2, 2, "abab"},
    /* Seven pairs, of which five take no swap: six do not cover all. */
    {&any, "baba", "2211", 6, 1, 7, 8, 2, 0, "abab"},
    {&any, "baba", "2211", 7, 1, 7, 8, 0, 0, "baba"},
    {&any, "baba", "1111", 9, 1, 9, 12, 0, 0, "baba"},
    /* With the last event in a term of its own only baba is left of the two courses. */
    {&two, "abba", "1122", ALL, 1, 7, 8, 1, 1, "abab"},
    {&two, "abba", "1112", ALL, 1, 7, 8, 1, 1, "baba"},
    {&two, "abba", "2221", 0, 1, 7, 8, 1, 0, "baba"},
    {&falling, "ba", "22", 4, 1, 4, 4, 0, 0, "ba"},
    {&falling, "ba", "12", 2, 1, 3, 2, 0, 0, "ba"},
    /* No accepted order: in two terms b stays before a. */
    {&alt, "ba", "12", 0, 0, 3, 2, 0, 0, ""},
    {&alt, "ba", "21", ALL, 0, 3, 2, 0, 0, ""},
    {&alt, "bab", "111", ALL, 0, 6, 7, 0, 0, ""},
    {&alt, "", "", 0, 1, 1, 0, 0, 0, ""},
    {&alt, "", "", 1, 1, 1, 0, 0, 0, ""},
};

static const uint32_t two_terms[4] = {20260901, 20261218, 20270104, 20270326}, every_day[2] = {19000101, 21991231};

/* Days for the digits of a row, and others for one term that has every day. */
static void put_days(const char *terms, size_t len, uint32_t *days)
{
    for (size_t i = 0; i < len; i++)
        days[i] = terms ? two_terms[2 * (terms[i] - '1') + i % 2] : every_day[i % 2];
}

/* The call of a row; with 'one' a row without terms is asked with one term. */
static uint32_t closest(const struct row *row, int one, size_t numbers, size_t costs, struct lent *lent)
{
    const struct profile *p = row->profile;
    uint8_t log[BYTES];
    uint32_t days[BYTES];
    size_t len = letters(row->log, log);
    put_days(row->terms, len, days);
    guard(lent);
    if (!row->terms && !one)
        return fumarehi_closest(p->k, p->s, p->start, p->finals, p->masks, p->k, p->moves, p->s * p->k, log, len, lent->order, len, lent->work, numbers,
                                lent->costs, costs, row->budget, lent->told);
    return fumarehi_closest_terms(p->k, p->s, p->start, p->finals, p->masks, p->k, p->moves, p->s * p->k, log, len, days, len,
                                  one ? every_day : two_terms, one ? 2 : 4, lent->order, len, lent->work, numbers, lent->costs, costs, row->budget,
                                  lent->told);
}

static uint32_t judged(const struct row *row, size_t numbers, struct lent *lent)
{
    const struct profile *p = row->profile;
    uint8_t log[BYTES];
    uint32_t days[BYTES];
    size_t len = letters(row->log, log);
    put_days(row->terms, len, days);
    guard(lent);
    if (!row->terms)
        return fumarehi_judge(p->k, p->s, p->start, p->finals, p->masks, p->k, p->moves, p->s * p->k, log, len, lent->order, len, lent->work, numbers,
                              lent->told);
    return fumarehi_judge_terms(p->k, p->s, p->start, p->finals, p->masks, p->k, p->moves, p->s * p->k, log, len, days, len, two_terms, 4, lent->order, len,
                                lent->work, numbers, lent->told);
}

static void order_of(const struct row *row)
{
    uint8_t order[BYTES];
    struct lent lent, other;
    size_t n = letters(row->order, order);
    size_t numbers = RECORD * row->prefixes, costs = row->prefixes * row->profile->s;
    uint32_t answer = closest(row, 0, numbers, costs, &lent);
    expect(answer == 0 && told_is(lent.told, 0, row->verdict, row->prefixes, row->looks, row->swaps, row->least), "verdict, P, looks, swaps and floor", row->log);
    expect(!memcmp(lent.order, order, n) && untouched(&lent, n, numbers, costs), "the order, and what stays", row->log);
    answer = judged(row, numbers, &other);
    expect(answer == 0 && !memcmp(lent.told, other.told, 4 * sizeof lent.told[0]), "the judge's answer", row->log);
    expect(!memcmp(lent.work, other.work, sizeof lent.work), "the judge's table", row->log);
    if (!row->terms) {
        answer = closest(row, 1, numbers, costs, &other);
        expect(answer == 0 && !memcmp(lent.told, other.told, sizeof lent.told), "one term, what is told", row->log);
        expect(!memcmp(lent.order, other.order, sizeof lent.order) && !memcmp(lent.work, other.work, sizeof lent.work), "one term, order and table", row->log);
        expect(untouched(&other, n, numbers, costs), "one term, what stays", row->log);
    }
    /* Every length of the cost table: 17 below P * s, whatever the verdict. */
    for (size_t few = 0; few < costs; few++) {
        answer = closest(row, 0, numbers, few, &lent);
        expect(answer == 17 && told_is(lent.told, 0, 0, 0, 0, 0, 0) && untouched(&lent, 0, numbers, 0), "a short cost table", row->log);
    }
}

/* ---- Many swaps ---- */

enum { HALF = 257, PREFIXES = (HALF + 1) * (HALF + 1) };

/* 257 b and then 257 a, where all a must come first: 66,049 swaps, more than 16 bits hold. */
static void many_swaps(void)
{
    static const uint16_t masks[2] = {2, 1};
    static const uint32_t moves[4] = {1, 2, 0, 2}; /* a* b b* */
    static uint8_t log[2 * HALF], order[2 * HALF];
    uint32_t *work = malloc(PREFIXES * RECORD * sizeof *work), *costs = malloc(PREFIXES * 2 * sizeof *costs);
    uint64_t told[6];
    if (!work || !costs) {
        expect(0, "memory", "b..ba..a");
        return;
    }
    memset(log, 1, HALF);
    for (int covered = 0; covered < 2; covered++) {
        uint32_t answer = fumarehi_closest(2, 2, 0, 2, masks, 2, moves, 4, log, 2 * HALF, order, 2 * HALF, work, PREFIXES * RECORD, costs, PREFIXES * 2,
                                           covered ? ALL : 0, told);
        expect(answer == 0 && told[1] == 1 && told[2] == PREFIXES, "verdict and P", "b..ba..a");
        expect(told[4] == (uint64_t)HALF * HALF && told[5] == (covered ? told[4] : 0), "swaps and floor", "b..ba..a");
        for (size_t i = 0; i < 2 * HALF; i++)
            expect(order[i] == (i >= HALF), "the order", "b..ba..a");
    }
    /* A prefix of i a's and any number of b's takes 257 i swaps: 258 pairs take none, and the next ones 257. */
    uint32_t answer = fumarehi_closest(2, 2, 0, 2, masks, 2, moves, 4, log, 2 * HALF, order, 2 * HALF, work, PREFIXES * RECORD, costs, PREFIXES * 2,
                                       HALF + 1, told);
    expect(answer == 0 && told[5] == HALF, "the floor behind all pairs without swaps", "b..ba..a");
    free(work);
    free(costs);
}

/* 4,000 events, b and a in turn, each two in the other of two terms: each two change places, and nothing else moves. */
static void longest(void)
{
    enum { RECORDS = 3 * MOST / 2 + 1 };
    static uint8_t log[MOST], order[MOST];
    static uint32_t days[MOST], work[RECORDS * RECORD], costs[RECORDS * 2];
    uint64_t told[6];
    for (size_t i = 0; i < MOST; i++) {
        log[i] = (uint8_t)((i + 1) % 2);
        days[i] = two_terms[2 * (i / 2 % 2)];
    }
    for (size_t less = 0; less < 2; less++) {
        uint32_t answer = fumarehi_closest_terms(2, 2, 0, 1, alt.masks, 2, alt.moves, 4, log, MOST, days, MOST, two_terms, 4, order, MOST, work,
                                                 RECORDS * RECORD, costs, RECORDS * 2 - less, ALL, told);
        expect(less ? answer == 17 : answer == 0 && told_is(told, 0, 1, RECORDS, 2 * MOST, MOST / 2, MOST / 2), "4,000 events", "baba..");
    }
    for (size_t i = 0; i < MOST; i++)
        expect(order[i] == i % 2, "the order of 4,000 events", "baba..");
}

/* ---- Refusals ---- */

struct call {
    size_t k, masks, s, moves, len, days, terms, order, work, costs;
    uint32_t finals, first_day, second_day, last_day;
    uint16_t mask;
    uint8_t letter;
};

/* Alt on ba with all that it needs and no more: four prefixes, two states; both events in the first of two terms. */
static const struct call right = {2, 2, 2, 4, 2, 2, 4, 2, 4 * RECORD, 8, 1, 20260901, 20261218, 20261218, 1, 1};

static uint32_t answered(const struct call *c, int with_terms, uint64_t budget, struct lent *lent)
{
    static uint8_t log[MOST + 1];
    static uint32_t days[MOST + 1];
    uint16_t masks[20] = {2, c->mask};
    uint32_t moves[100] = {2, 0, 0, 1}, terms[26] = {20260901, c->last_day, 20270104, 20270326};
    log[0] = c->letter;
    days[0] = c->first_day;
    days[1] = c->second_day;
    for (size_t i = 2; i <= MOST; i++)
        days[i] = 20260901;
    for (uint32_t i = 4; i < 26; i++)
        terms[i] = 20280101 + i;
    guard(lent);
    if (!with_terms)
        return fumarehi_closest(c->k, c->s, 0, c->finals, masks, c->masks, moves, c->moves, log, c->len, lent->order, c->order, lent->work, c->work,
                                lent->costs, c->costs, budget, lent->told);
    return fumarehi_closest_terms(c->k, c->s, 0, c->finals, masks, c->masks, moves, c->moves, log, c->len, days, c->days, terms, c->terms, lent->order,
                                  c->order, lent->work, c->work, lent->costs, c->costs, budget, lent->told);
}

static void moves_3(struct call *c) { c->moves = 3; }
static void own_bit(struct call *c) { c->mask = 3; }
static void final_2(struct call *c) { c->finals = 4; }
static void log_4001(struct call *c) { c->len = c->days = MOST + 1; }
static void letter_k(struct call *c) { c->letter = 2; }
static void day_less(struct call *c) { c->days = 1; }
static void day_more(struct call *c) { c->days = 3; }
static void no_date(struct call *c) { c->second_day = 20260931; }
static void no_terms(struct call *c) { c->terms = 0; }
static void half_a_term(struct call *c) { c->terms = 3; }
static void terms_13(struct call *c) { c->terms = 26; }
static void turned_term(struct call *c) { c->last_day = 20260831; }
static void shared_day(struct call *c) { c->last_day = 20270104; }
static void no_such_end(struct call *c) { c->last_day = 20261131; }
static void before_terms(struct call *c) { c->first_day = 20260831; }
static void between_terms(struct call *c) { c->first_day = 20261219; }
static void order_1(struct call *c) { c->order = 1; }
static void work_39(struct call *c) { c->work = 39; }
static void no_work(struct call *c) { c->work = 0; }
static void costs_7(struct call *c) { c->costs = 7; }
static void no_costs(struct call *c) { c->costs = 0; }

/* What damages a call, and its number, in the header's order. */
static const struct damage {
    uint32_t number;
    void (*apply)(struct call *);
} damages[] = {
    {2, moves_3}, {4, own_bit}, {6, final_2}, {7, log_4001}, {8, letter_k}, {14, day_less}, {14, day_more}, {14, no_date},
    {15, no_terms}, {15, half_a_term}, {15, terms_13}, {15, turned_term}, {15, shared_day}, {15, no_such_end}, {16, before_terms}, {16, between_terms},
    {9, order_1}, {10, work_39}, {10, no_work}, {17, costs_7}, {17, no_costs},
};

enum { DAMAGES = sizeof damages / sizeof *damages };

/* Days and terms are of no use to the call without terms. */
static int of_terms(const struct damage *damage)
{
    return damage->number >= 14 && damage->number <= 16;
}

static void refused(const struct damage *lower, const struct damage *higher, int with_terms, uint64_t budget)
{
    struct lent lent;
    struct call c = right;
    lower->apply(&c);
    higher->apply(&c);
    uint32_t answer = answered(&c, with_terms, budget, &lent);
    expect(answer == lower->number && told_is(lent.told, 0, 0, 0, 0, 0, 0), "two defects", "ba");
    expect(untouched(&lent, 0, answer == 10 || answer == 17 ? c.work : 0, 0), "what stays with two defects", "ba");
}

/* Every defect alone, and every two of them: the first in the header's order is given; order and costs stay, and the work table but for 10 and 17. */
static void refusals(int with_terms)
{
    struct lent lent;
    expect(answered(&right, with_terms, 0, &lent) == 0 && told_is(lent.told, 0, 1, 4, 4, 1, 0), "no defect", "ba");
    for (const struct damage *lower = damages; lower < damages + DAMAGES; lower++)
        for (const struct damage *higher = lower; higher < damages + DAMAGES; higher++)
            for (uint64_t budget = 0; budget < 10; budget += 3)
                if (with_terms || !(of_terms(lower) || of_terms(higher)))
                    refused(lower, higher, with_terms, budget);
}

/* The places and edges that a defect in pairs does not have. */
static void edges(int with_terms)
{
    static const uint8_t bad[4] = {1, 0, 1, 5};
    static const uint32_t days[1] = {0};
    struct lent lent;
    struct call c = right;
    guard(&lent);
    uint32_t answer = with_terms
        ? fumarehi_closest_terms(2, 2, 0, 1, alt.masks, 2, alt.moves, 4, bad, 4, days, 1, days, 0, lent.order, 0, lent.work, 0, lent.costs, 0, ALL, lent.told)
        : fumarehi_closest(2, 2, 0, 1, alt.masks, 2, alt.moves, 4, bad, 4, lent.order, 0, lent.work, 0, lent.costs, 0, ALL, lent.told);
    expect(answer == 8 && told_is(lent.told, 3, 0, 0, 0, 0, 0) && untouched(&lent, 0, 0, 0), "8 and its place", "bab?");
    c.k = 0;
    expect(answered(&c, with_terms, 0, &lent) == 2 && untouched(&lent, 0, 0, 0), "k is 0", "ba");
    c = right;
    c.s = 33;
    c.moves = 66;
    expect(answered(&c, with_terms, 0, &lent) == 2 && untouched(&lent, 0, 0, 0), "s is 33", "ba");
    /* 32 states: P * s is 128, and a table for P prefixes of one state is too short. */
    c = right;
    c.s = 32;
    c.moves = 64;
    for (size_t costs = 0; costs < 128; costs++) {
        c.costs = costs;
        expect(answered(&c, with_terms, ALL, &lent) == 17 && untouched(&lent, 0, c.work, 0), "a short cost table of 32 states", "ba");
    }
    c.costs = 128;
    expect(answered(&c, with_terms, ALL, &lent) == 0 && told_is(lent.told, 0, 1, 4, 4, 1, 1) && untouched(&lent, 2, c.work, 128), "32 states", "ba");
}

int main(void)
{
    for (size_t i = 0; i < sizeof rows / sizeof rows[0]; i++)
        order_of(&rows[i]);
    many_swaps();
    longest();
    for (int with_terms = 0; with_terms < 2; with_terms++) {
        refusals(with_terms);
        edges(with_terms);
    }
    printf("closest.c: %zu logs, %d damages; %lu comparisons, %lu failed\n", sizeof rows / sizeof rows[0], (int)DAMAGES, compared, failed);
    return failed != 0;
}
