/* A C client of the judge with terms: terms-c
 *
 * Judges worked cases in one, two and twelve terms, compares a table number by number, compares one term that has every day with the judge without terms,
 * tries days and terms at the edges of the calendar, judges 4,000 events, and makes every refused call on buffers full of guard values. Any difference
 * is printed and makes the exit status 1.
 */
#include "fumarehi.h"

#include <stdio.h>
#include <string.h>

static unsigned long compared, failed;

static void expect(int holds, const char *what, const char *which)
{
    compared++;
    if (holds)
        return;
    failed++;
    printf("FAILED: %s, %s\n", what, which);
}

enum { RECORD = 10, MOST = 4000, GUARD = 8, NUMBERS = 100, PLACES = 16 };

struct profile {
    size_t k, s, start;
    uint32_t finals;
    uint16_t masks[4];
    uint32_t moves[8];
};

static const struct profile alt = {2, 2, 0, 1, {2, 1}, {2, 0, 0, 1}};
static const uint32_t every_day[2] = {FUMAREHI_DAY(1900, 1, 1), FUMAREHI_DAY(2199, 12, 31)};

static uint32_t judge_terms(const struct profile *p, const uint8_t *log, size_t len, const uint32_t *days, size_t days_len, const uint32_t *terms,
                            size_t terms_len, uint8_t *order, size_t order_len, uint32_t *work, size_t work_len, uint64_t *told)
{
    return fumarehi_judge_terms(p->k, p->s, p->start, p->finals, p->masks, p->k, p->moves, p->s * p->k, log, len, days, days_len, terms, terms_len, order,
                                order_len, work, work_len, told);
}

/* ---- Worked cases ---- */

/* The letters of the log, and for each the term that it is in, counted from 0. The terms are three, a month each. */
static const struct row {
    const char *log, *terms;
    uint64_t verdict, prefixes, looks;
    const char *order;
    struct profile profile;
} rows[] = {
    {"", "", 1, 1, 0, "", {2, 2, 0, 1, {2, 1}, {2, 0, 0, 1}}},
    {"bbaa", "0000", 1, 9, 12, "abab", {2, 2, 0, 1, {2, 1}, {2, 0, 0, 1}}},
    {"ba", "00", 1, 4, 4, "ab", {2, 2, 0, 1, {2, 1}, {2, 0, 0, 1}}},
    {"ba", "01", 0, 3, 2, "", {2, 2, 0, 1, {2, 1}, {2, 0, 0, 1}}},
    {"ba", "10", 0, 3, 2, "", {2, 2, 0, 1, {2, 1}, {2, 0, 0, 1}}},
    {"baba", "0011", 1, 7, 8, "abab", {2, 2, 0, 1, {2, 1}, {2, 0, 0, 1}}},
    {"baba", "1100", 1, 7, 8, "abab", {2, 2, 0, 1, {2, 1}, {2, 0, 0, 1}}},
    {"baba", "0101", 0, 5, 4, "", {2, 2, 0, 1, {2, 1}, {2, 0, 0, 1}}},
    {"baba", "0010", 0, 6, 6, "", {2, 2, 0, 1, {2, 1}, {2, 0, 0, 1}}},
    {"bbaa", "0110", 0, 6, 6, "", {2, 2, 0, 1, {2, 1}, {2, 0, 0, 1}}},
    {"cab", "000", 1, 6, 7, "bca", {3, 1, 0, 1, {2, 5, 2}, {1, 1, 1}}},
    {"cab", "011", 1, 5, 5, "cab", {3, 1, 0, 1, {2, 5, 2}, {1, 1, 1}}},
    {"cab", "012", 1, 4, 3, "cab", {3, 1, 0, 1, {2, 5, 2}, {1, 1, 1}}},
    {"ba", "00", 1, 4, 4, "ab", {2, 2, 0, 1, {0, 1}, {2, 0, 0, 1}}},
    {"ba", "22", 0, 3, 2, "", {2, 2, 0, 1, {2, 0}, {2, 0, 0, 1}}},
};

static const uint32_t three_terms[6] = {20260901, 20260930, 20261001, 20261031, 20261201, 20261201};

static size_t letters_of(const struct row *row, uint8_t *log, uint32_t *days)
{
    size_t len = strlen(row->log);
    for (size_t i = 0; i < len; i++) {
        log[i] = (uint8_t)(row->log[i] - 'a');
        days[i] = three_terms[2 * (row->terms[i] - '0') + i % 2];
    }
    return len;
}

static void judged_row(const struct row *row)
{
    uint8_t log[PLACES], order[PLACES];
    uint32_t days[PLACES], work[NUMBERS];
    uint64_t told[4];
    size_t len = letters_of(row, log, days);
    memset(order, 0xA5, sizeof order);
    uint32_t answer = judge_terms(&row->profile, log, len, days, len, three_terms, 6, order, PLACES, work, NUMBERS, told);
    expect(answer == 0 && told[0] == 0 && told[1] == row->verdict && told[2] == row->prefixes && told[3] == row->looks, row->log, row->terms);
    for (size_t i = 0; i < PLACES; i++)
        expect(order[i] == (i < strlen(row->order) ? row->order[i] - 'a' : 0xA5), "the order", row->log);
    answer = judge_terms(&row->profile, log, len, days, len, three_terms, 6, order, len, work, RECORD * row->prefixes, told);
    expect(answer == 0, "a table that is just enough", row->log);
    answer = judge_terms(&row->profile, log, len, days, len, three_terms, 6, order, len, work, RECORD * row->prefixes - 1, told);
    expect(answer == 10 && told[0] == 0 && told[1] == 0 && told[2] == 0 && told[3] == 0, "a table that is one number short", row->log);
}

/* One term that has every day: the judge without terms gives the same answer, order and table. */
static void one_term(const struct row *row)
{
    uint8_t log[PLACES], order[PLACES], other_order[PLACES];
    uint32_t days[PLACES], work[NUMBERS], other_work[NUMBERS];
    uint64_t told[4], other_told[4];
    const struct profile *p = &row->profile;
    size_t len = letters_of(row, log, days);
    memset(order, 0xA5, sizeof order);
    memset(work, 0xA5, sizeof work);
    memcpy(other_order, order, sizeof order);
    memcpy(other_work, work, sizeof work);
    uint32_t answer = judge_terms(p, log, len, days, len, every_day, 2, order, PLACES, work, NUMBERS, told);
    uint32_t other = fumarehi_judge(p->k, p->s, p->start, p->finals, p->masks, p->k, p->moves, p->s * p->k, log, len, other_order, PLACES, other_work, NUMBERS,
                                    other_told);
    expect(answer == other && !memcmp(told, other_told, sizeof told), "one term, what is told", row->log);
    expect(!memcmp(order, other_order, sizeof order) && !memcmp(work, other_work, sizeof work), "one term, order and table", row->log);
}

/* Alt on baba with two events in each of two terms: the records by total and counts; numbers past them stay. */
static void table_of_terms(void)
{
    static const uint32_t records[7][RECORD] = {
        {0, 0, 0, 0, 0, 0, 0, 0, 1, 1}, {65536, 0, 0, 0, 0, 0, 0, 0, 0, 0}, {1, 0, 0, 0, 0, 0, 0, 0, 2, 2}, {65537, 0, 0, 0, 0, 0, 0, 0, 1, 1},
        {131073, 0, 0, 0, 0, 0, 0, 0, 0, 0}, {65538, 0, 0, 0, 0, 0, 0, 0, 2, 2}, {131074, 0, 0, 0, 0, 0, 0, 0, 1, 1}};
    static const uint8_t log[4] = {1, 0, 1, 0};
    static const uint32_t days[4] = {20260914, 20260914, 20261012, 20261012};
    uint32_t work[8 * RECORD];
    uint8_t order[4];
    uint64_t told[4];
    memset(work, 0xA5, sizeof work);
    uint32_t answer = judge_terms(&alt, log, 4, days, 4, three_terms, 6, order, 4, work, 8 * RECORD, told);
    expect(answer == 0 && told[1] == 1 && told[2] == 7, "a table with terms", "baba");
    for (size_t r = 0; r < 7; r++)
        expect(!memcmp(work + RECORD * r, records[r], sizeof records[r]), "a record with terms", "baba");
    for (size_t i = 7 * RECORD; i < 8 * RECORD; i++)
        expect(work[i] == 0xA5A5A5A5, "a number past the records", "baba");
}

/* Twelve terms of a day each that touch, an event of each letter in each of them: in each term the two may be exchanged. */
static void twelve_terms(void)
{
    uint32_t terms[24], days[24], work[RECORD * 37];
    uint8_t log[24], order[24];
    uint64_t told[4];
    for (uint32_t i = 0; i < 12; i++) {
        terms[2 * i] = terms[2 * i + 1] = days[2 * i] = days[2 * i + 1] = FUMAREHI_DAY(2024, 2, 20) + (i < 10 ? i : 80 + i - 9);
        log[2 * i] = 1;
        log[2 * i + 1] = 0;
    }
    uint32_t answer = judge_terms(&alt, log, 24, days, 24, terms, 24, order, 24, work, RECORD * 37, told);
    expect(answer == 0 && told[1] == 1 && told[2] == 37 && told[3] == 48, "twelve terms", "ba twelve times");
    for (size_t i = 0; i < 24; i++)
        expect(order[i] == i % 2, "the order in twelve terms", "ba twelve times");
}

/* 4,000 events, b and a in turn, each pair in the other of two terms: days fall as often as they rise. */
static void longest(void)
{
    static uint8_t log[MOST + 1], order[MOST + 1];
    static uint32_t days[MOST + 1], work[RECORD * 6001];
    static const uint32_t terms[4] = {20260901, 20261218, 20270104, 20270326};
    uint64_t told[4];
    for (size_t i = 0; i <= MOST; i++) {
        log[i] = (uint8_t)((i + 1) % 2);
        days[i] = terms[2 * (i / 2 % 2)];
    }
    uint32_t answer = judge_terms(&alt, log, MOST, days, MOST, terms, 4, order, MOST, work, RECORD * 6001, told);
    size_t wrong = 0;
    for (size_t i = 0; i < MOST; i++)
        wrong += order[i] != i % 2;
    expect(answer == 0 && told[1] == 1 && told[2] == 6001 && told[3] == 8000 && wrong == 0, "4,000 events", "two terms in turn");
    answer = judge_terms(&alt, log, MOST, days, MOST, terms, 4, order, MOST, work, RECORD * 6001 - 1, told);
    expect(answer == 10 && told[0] == 0, "4,000 events", "one number short");
    answer = judge_terms(&alt, log, MOST + 1, days, MOST + 1, terms, 4, order, MOST + 1, work, RECORD * 6001, told);
    expect(answer == 7 && told[0] == 0, "4,001 events", "as many days");
}

/* ---- Edges of the calendar ---- */

static const struct day {
    uint32_t day;
    int right;
} calendar[] = {
    {FUMAREHI_DAY(1900, 1, 1), 1},   {FUMAREHI_DAY(2199, 12, 31), 1}, {FUMAREHI_DAY(1899, 12, 31), 0}, {FUMAREHI_DAY(2200, 1, 1), 0},
    {FUMAREHI_DAY(1900, 2, 28), 1},  {FUMAREHI_DAY(1900, 2, 29), 0},  {FUMAREHI_DAY(2000, 2, 29), 1},  {FUMAREHI_DAY(2000, 2, 30), 0},
    {FUMAREHI_DAY(2100, 2, 28), 1},  {FUMAREHI_DAY(2100, 2, 29), 0},  {FUMAREHI_DAY(2024, 2, 29), 1},  {FUMAREHI_DAY(2023, 2, 29), 0},
    {FUMAREHI_DAY(2026, 1, 31), 1},  {FUMAREHI_DAY(2026, 1, 32), 0},  {FUMAREHI_DAY(2026, 4, 30), 1},  {FUMAREHI_DAY(2026, 4, 31), 0},
    {FUMAREHI_DAY(2026, 9, 31), 0},  {FUMAREHI_DAY(2026, 11, 31), 0}, {FUMAREHI_DAY(2026, 8, 31), 1},  {FUMAREHI_DAY(2026, 12, 31), 1},
    {FUMAREHI_DAY(2026, 0, 10), 0},  {FUMAREHI_DAY(2026, 13, 1), 0},  {FUMAREHI_DAY(2026, 5, 0), 0},   {FUMAREHI_DAY(2026, 5, 99), 0},
    {0, 0},                          {UINT32_MAX, 0},                 {FUMAREHI_DAY(10, 1, 1), 0},     {20261, 0},
};

/* A day as the only one of a log, and as a term of one day. */
static void edges_of_calendar(void)
{
    static const uint8_t log[1] = {0};
    for (size_t i = 0; i < sizeof calendar / sizeof *calendar; i++) {
        char name[24];
        uint8_t order[1];
        uint32_t work[2 * RECORD], term[2] = {calendar[i].day, calendar[i].day};
        uint64_t told[4];
        snprintf(name, sizeof name, "%u", (unsigned)calendar[i].day);
        uint32_t answer = judge_terms(&alt, log, 1, &calendar[i].day, 1, every_day, 2, order, 1, work, 2 * RECORD, told);
        expect(answer == (calendar[i].right ? 0 : 14), "a day", name);
        answer = judge_terms(&alt, log, 0, term, 0, term, 2, order, 1, work, 2 * RECORD, told);
        expect(answer == (calendar[i].right ? 0 : 15), "a term of a day", name);
        answer = judge_terms(&alt, log, 1, &calendar[i].day, 1, term, 2, order, 1, work, 2 * RECORD, told);
        expect(answer == (calendar[i].right ? 0 : 14), "a day and its term", name);
    }
}

/* ---- Refused calls, and what each leaves ---- */

/* All arguments; buffers have GUARD elements around the part that is lent. */
struct lent {
    size_t k, s, start, masks_len, moves_len, log_len, days_len, terms_len, order_len, work_len;
    uint64_t told[GUARD + 4 + GUARD];
    uint32_t finals, moves[8], days[MOST + 4], terms[32], work[GUARD + NUMBERS + GUARD];
    uint16_t masks[4];
    uint8_t log[MOST + 4], order[GUARD + MOST + 4 + GUARD];
};

static uint32_t call(struct lent *l)
{
    return fumarehi_judge_terms(l->k, l->s, l->start, l->finals, l->masks, l->masks_len, l->moves, l->moves_len, l->log, l->log_len, l->days, l->days_len,
                                l->terms, l->terms_len, l->order + GUARD, l->order_len, l->work + GUARD, l->work_len, l->told + GUARD);
}

/* Alt on baba, two events in each of two terms: 7 prefixes. */
static void answered_call(struct lent *l)
{
    static const uint32_t moves[4] = {2, 0, 0, 1}, terms[4] = {20260901, 20261218, 20270104, 20270326};
    memset(l, 0xA5, sizeof *l);
    l->k = l->s = l->masks_len = 2;
    l->start = 0;
    l->finals = 1;
    l->moves_len = l->log_len = l->days_len = l->terms_len = l->order_len = 4;
    l->masks[0] = 2;
    l->masks[1] = 1;
    memcpy(l->moves, moves, sizeof moves);
    for (size_t i = 0; i < MOST + 4; i++) {
        l->log[i] = (uint8_t)((i + 1) % 2);
        l->days[i] = terms[i < 2 ? 0 : 3];
    }
    for (uint32_t i = 0; i < 32; i++)
        l->terms[i] = FUMAREHI_DAY(2030, 1, 1) + i / 2 % 28;
    memcpy(l->terms, terms, sizeof terms);
    l->work_len = 7 * RECORD;
}

static void k_0(struct lent *l) { l->k = 0; }
static void k_17(struct lent *l) { l->k = 17; }
static void s_33(struct lent *l) { l->s = 33; }
static void start_2(struct lent *l) { l->start = 2; }
static void masks_1(struct lent *l) { l->masks_len = 1; }
static void moves_3(struct lent *l) { l->moves_len = 3; }
static void own_bit(struct lent *l) { l->masks[1] |= 2; }
static void bit_k(struct lent *l) { l->masks[0] |= 4; }
static void move_s(struct lent *l) { l->moves[3] |= 4; }
static void final_31(struct lent *l) { l->finals |= 0x80000000; }
static void log_4001(struct lent *l) { l->log_len = l->days_len = l->order_len = MOST + 1; }
static void letter_k(struct lent *l) { l->log[2] = 2; }
static void letter_255(struct lent *l) { l->log[2] = 255; }
static void days_0(struct lent *l) { l->days_len = 0; }
static void day_less(struct lent *l) { l->days_len--; }
static void day_more(struct lent *l) { l->days_len++; }
static void day_huge(struct lent *l) { l->days[3] = UINT32_MAX; }
static void february_29(struct lent *l) { l->days[3] = FUMAREHI_DAY(2027, 2, 29); }
static void year_1899(struct lent *l) { l->days[3] = FUMAREHI_DAY(1899, 12, 31); }
static void terms_0(struct lent *l) { l->terms_len = 0; }
static void terms_1(struct lent *l) { l->terms_len = 1; }
static void terms_3(struct lent *l) { l->terms_len = 3; }
static void terms_5(struct lent *l) { l->terms_len = 5; }
static void terms_26(struct lent *l) { l->terms_len = 26; }
static void term_april_31(struct lent *l) { l->terms[3] = FUMAREHI_DAY(2027, 4, 31); }
static void term_2200(struct lent *l) { l->terms[3] = FUMAREHI_DAY(2200, 1, 1); }
static void term_turned(struct lent *l) { l->terms[0] = FUMAREHI_DAY(2026, 12, 19); }
static void terms_share_day(struct lent *l) { l->terms[2] = FUMAREHI_DAY(2026, 12, 18); }
static void terms_fall(struct lent *l) { l->terms[2] = FUMAREHI_DAY(2026, 1, 4), l->terms[3] = FUMAREHI_DAY(2026, 3, 26); }
static void day_before(struct lent *l) { l->days[0] = FUMAREHI_DAY(2026, 8, 31); }
static void day_between(struct lent *l) { l->days[1] = FUMAREHI_DAY(2026, 12, 19); }
static void day_after(struct lent *l) { l->days[2] = FUMAREHI_DAY(2027, 3, 27); }
static void order_3(struct lent *l) { l->order_len = 3; }
static void order_0(struct lent *l) { l->order_len = 0; }
static void work_0(struct lent *l) { l->work_len = 0; }
static void work_69(struct lent *l) { l->work_len = 69; }

/* What damages a call, the number, and its rank in the order of the header. */
static const struct damage {
    const char *what;
    uint32_t number;
    int rank;
    void (*apply)(struct lent *);
} damages[] = {
    {"k 0", 2, 20, k_0},
    {"k 17", 2, 20, k_17},
    {"s 33", 2, 20, s_33},
    {"start s", 2, 20, start_2},
    {"one mask", 2, 20, masks_1},
    {"three moves", 2, 20, moves_3},
    {"a mask with its own bit", 4, 40, own_bit},
    {"a mask with bit k", 4, 40, bit_k},
    {"a move with bit s", 6, 60, move_s},
    {"a final set with bit 31", 6, 60, final_31},
    {"4,001 letters", 7, 70, log_4001},
    {"letter k", 8, 80, letter_k},
    {"letter 255", 8, 80, letter_255},
    {"no days", 14, 140, days_0},
    {"a day too few", 14, 140, day_less},
    {"a day too many", 14, 140, day_more},
    {"the largest number as a day", 14, 140, day_huge},
    {"29 February 2027", 14, 140, february_29},
    {"a day of 1899", 14, 140, year_1899},
    {"no terms", 15, 150, terms_0},
    {"a first day alone", 15, 150, terms_1},
    {"three days of terms", 15, 150, terms_3},
    {"five days of terms", 15, 150, terms_5},
    {"thirteen terms", 15, 150, terms_26},
    {"a term to 31 April", 15, 150, term_april_31},
    {"a term to 2200", 15, 150, term_2200},
    {"a first day after the last", 15, 150, term_turned},
    {"terms that share a day", 15, 150, terms_share_day},
    {"terms that fall", 15, 150, terms_fall},
    {"a day before the terms", 16, 160, day_before},
    {"a day between the terms", 16, 160, day_between},
    {"a day after the terms", 16, 160, day_after},
    {"an order buffer of 3", 9, 190, order_3},
    {"an order buffer of 0", 9, 190, order_0},
    {"no table", 10, 200, work_0},
    {"a table of 69", 10, 200, work_69},
};

enum { DAMAGES = sizeof damages / sizeof *damages };

/* A call with two damages, the first of lower rank, or twice the same: it is refused for the first, and nothing is changed but 'told', and the table at
 * 10. */
static void refused(const struct damage *lower, const struct damage *higher)
{
    static struct lent l, expected;
    answered_call(&l);
    lower->apply(&l);
    if (higher != lower)
        higher->apply(&l);
    memcpy(&expected, &l, sizeof l);
    uint32_t number = call(&l);
    memset(expected.told + GUARD, 0, 4 * sizeof *expected.told);
    expected.told[GUARD] = lower->number == 8 ? 2 : 0;
    if (lower->number == 10)
        memcpy(expected.work + GUARD, l.work + GUARD, l.work_len * sizeof *l.work);
    expect(number == lower->number, lower->what, higher->what);
    expect(!memcmp(&l, &expected, sizeof l), "what a refusal leaves", lower->what);
}

static void refused_calls(void)
{
    static struct lent l;
    answered_call(&l);
    expect(call(&l) == 0 && l.told[GUARD + 1] == 1 && l.told[GUARD + 2] == 7, "the call without damage", "baba");
    for (const struct damage *lower = damages; lower < damages + DAMAGES; lower++)
        for (const struct damage *higher = lower; higher < damages + DAMAGES; higher++)
            if (lower == higher || lower->rank < higher->rank)
                refused(lower, higher);
}

/* An empty log: its terms are checked, and nothing else of them matters. */
static void empty_log(void)
{
    static struct lent l;
    for (const struct damage *d = damages; d < damages + DAMAGES; d++)
        if (d->number == 15) {
            answered_call(&l);
            l.log_len = l.days_len = l.order_len = 0;
            d->apply(&l);
            expect(call(&l) == 15, "an empty log", d->what);
        }
    answered_call(&l);
    l.log_len = l.days_len = l.order_len = 0;
    l.work_len = RECORD;
    expect(call(&l) == 0 && l.told[GUARD + 1] == 1 && l.told[GUARD + 2] == 1 && l.told[GUARD + 3] == 0, "an empty log", "two terms");
}

int main(void)
{
    for (size_t i = 0; i < sizeof rows / sizeof *rows; i++) {
        judged_row(&rows[i]);
        one_term(&rows[i]);
    }
    table_of_terms();
    twelve_terms();
    longest();
    edges_of_calendar();
    refused_calls();
    empty_log();
    printf("terms.c: %zu logs, %zu days, %d damages; %lu comparisons, %lu failed\n", sizeof rows / sizeof *rows, sizeof calendar / sizeof *calendar,
           (int)DAMAGES, compared, failed);
    return failed > 0;
}
