/* A C client of the running judge: running-c
 *
 * Takes the logs of document 01's cases event by event and compares with the judge after each event, compares a table number by number, takes 4,000
 * events, and makes every refused call on buffers full of guard values. Any difference is printed and makes the exit status 1.
 */
#include "fumarehi.h"

#include <stdio.h>
#include <string.h>

static unsigned long compared, failed, taken;

static void expect(int holds, const char *what, const char *log)
{
    compared++;
    if (holds)
        return;
    failed++;
    printf("FAILED: %s, %s\n", what, log);
}

enum { RECORD = 10, MOST = 4000, GUARD = 8, NUMBERS = 100 };

struct profile {
    size_t k, s, start;
    uint32_t finals;
    uint16_t masks[4];
    uint32_t moves[8];
};

static uint32_t run_start(const struct profile *p, uint64_t *record, uint32_t *table, size_t len, uint64_t *told)
{
    return fumarehi_run_start(p->k, p->s, p->start, p->finals, p->masks, p->k, p->moves, p->s * p->k, record, table, len, told);
}

static uint32_t run_event(const struct profile *p, uint8_t letter, uint64_t *record, uint32_t *table, size_t len, uint64_t *told)
{
    return fumarehi_run_event(p->k, p->s, p->start, p->finals, p->masks, p->k, p->moves, p->s * p->k, letter, record, table, len, told);
}

static uint32_t run_question(const struct profile *p, const uint64_t *record, const uint32_t *table, size_t len, uint64_t *told)
{
    return fumarehi_run_question(p->k, p->s, p->start, p->finals, p->masks, p->k, p->moves, p->s * p->k, record, table, len, told);
}

static uint32_t judge(const struct profile *p, const uint8_t *log, size_t len, uint64_t *told)
{
    uint8_t order[16];
    uint32_t work[NUMBERS];
    return fumarehi_judge(p->k, p->s, p->start, p->finals, p->masks, p->k, p->moves, p->s * p->k, log, len, order, 16, work, NUMBERS, told);
}

/* ---- Document 01's cases, event by event ---- */

static const struct row {
    const char *log;
    uint64_t verdict, prefixes;
    struct profile profile;
} rows[] = {
    {"", 1, 1, {2, 2, 0, 1, {2, 1}, {2, 0, 0, 1}}},
    {"bbaa", 1, 9, {2, 2, 0, 1, {2, 1}, {2, 0, 0, 1}}},
    {"bab", 0, 6, {2, 2, 0, 1, {2, 1}, {2, 0, 0, 1}}},
    {"ba", 0, 3, {2, 2, 0, 1, {0, 0}, {2, 0, 0, 1}}},
    {"ab", 1, 4, {2, 3, 0, 4, {2, 1}, {0, 2, 4, 0, 0, 0}}},
    {"ba", 1, 4, {2, 4, 0, 8, {2, 1}, {2, 4, 0, 8, 8, 0, 0, 0}}},
    {"abcbad", 1, 9, {4, 1, 0, 1, {2, 1, 0, 0}, {1, 1, 1, 1}}},
    {"cab", 1, 6, {3, 1, 0, 1, {2, 5, 2}, {1, 1, 1}}},
    {"ba", 1, 4, {2, 2, 0, 1, {2, 1}, {2, 0, 0, 1}}},
    {"bbaa", 1, 9, {2, 2, 0, 1, {0, 1}, {2, 0, 0, 1}}},
    {"bbaa", 0, 5, {2, 2, 0, 1, {2, 0}, {2, 0, 0, 1}}},
    {"cab", 1, 6, {3, 1, 0, 1, {2, 4, 1}, {1, 1, 1}}},
    {"cab", 1, 4, {3, 1, 0, 1, {4, 1, 2}, {1, 1, 1}}},
};

/* The answers are the judge's for the events taken so far, their number is told, and the last are the row's. */
static void taken_row(const struct row *row)
{
    uint8_t log[16];
    uint32_t table[NUMBERS];
    uint64_t record[2], told[4], judged[4];
    const struct profile *p = &row->profile;
    uint32_t answer = run_start(p, record, table, NUMBERS, told);
    expect(answer == 0 && told[0] == 0 && record[0] == 1 && record[1] == 0, "a start", row->log);
    for (size_t n = 0;; n++) {
        answer = run_question(p, record, table, NUMBERS, told);
        expect(answer == 0 && told[0] == 0 && told[3] == n && record[0] == told[2] && record[1] == n, "a question", row->log);
        answer = judge(p, log, n, judged);
        expect(answer == 0 && judged[1] == told[1] && judged[2] == told[2], "the judge", row->log);
        if (!row->log[n])
            break;
        log[n] = (uint8_t)(row->log[n] - 'a');
        answer = run_event(p, log[n], record, table, NUMBERS, told);
        expect(answer == 0 && told[0] == 0, "an event", row->log);
        taken++;
    }
    run_question(p, record, table, NUMBERS, told);
    expect(told[1] == row->verdict && told[2] == row->prefixes, "the last verdict and P", row->log);
}

/* Alt on ba: the records of the empty prefix, b, a, ab; number 9 of each stays. One number less is refused at the second event, and nothing changes. */
static void table_of_ba(void)
{
    static const uint32_t records[4][RECORD - 1] = {
        {0, 0, 0, 0, 0, 0, 0, 0, 1}, {65536, 0, 0, 0, 0, 0, 0, 0, 0}, {1, 0, 0, 0, 0, 0, 0, 0, 2}, {65537, 0, 0, 0, 0, 0, 0, 0, 1}};
    const struct profile *alt = &rows[0].profile;
    uint32_t table[4 * RECORD + 1], before[4 * RECORD + 1];
    uint64_t record[2], told[4];
    memset(table, 0xA5, sizeof table);
    run_start(alt, record, table, 4 * RECORD - 1, told);
    run_event(alt, 1, record, table, 4 * RECORD - 1, told);
    memcpy(before, table, sizeof table);
    uint32_t answer = run_event(alt, 0, record, table, 4 * RECORD - 1, told);
    expect(answer == 10 && told[0] == 0 && record[0] == 2 && record[1] == 1 && !memcmp(table, before, sizeof table), "39 numbers", "ba");
    answer = run_event(alt, 0, record, table, 4 * RECORD, told);
    expect(answer == 0 && record[0] == 4 && record[1] == 2, "40 numbers", "ba");
    for (size_t r = 0; r < 4; r++)
        expect(!memcmp(table + RECORD * r, records[r], sizeof records[r]) && table[RECORD * r + 9] == 0xA5A5A5A5, "a record", "ba");
    expect(table[4 * RECORD] == 0xA5A5A5A5, "a number past the records", "ba");
}

/* 4,000 times one letter; the next event is refused by 7, also a letter that is none, and a question still answers. */
static void longest(void)
{
    static uint32_t table[RECORD * (MOST + 2)];
    const struct profile *alt = &rows[0].profile;
    uint64_t record[2], told[4], wrong = 0;
    run_start(alt, record, table, RECORD * (MOST + 2), told);
    for (size_t n = 0; n < MOST; n++, taken++)
        wrong += run_event(alt, 0, record, table, RECORD * (MOST + 2), told) != 0;
    expect(wrong == 0 && record[0] == MOST + 1 && record[1] == MOST && table[RECORD * MOST] == MOST, "4,000 events", "a");
    expect(run_event(alt, 0, record, table, RECORD * (MOST + 2), told) == 7 && told[0] == 0, "the 4,001st event", "a");
    expect(run_event(alt, 2, record, table, RECORD * (MOST + 2), told) == 7 && told[0] == 0, "a bad 4,001st event", "a");
    uint32_t answer = run_question(alt, record, table, RECORD * (MOST + 2), told);
    expect(answer == 0 && told[1] == 0 && told[2] == MOST + 1 && told[3] == MOST, "a question after 4,000 events", "a");
}

/* ---- Refused calls, and what each leaves ---- */

/* All arguments; buffers have GUARD elements around the part that is lent. */
struct lent {
    size_t k, s, start, masks_len, moves_len, table_len;
    uint64_t record[GUARD + 2 + GUARD], told[GUARD + 4 + GUARD];
    uint32_t finals, moves[8], table[GUARD + NUMBERS + GUARD];
    uint16_t masks[4];
    uint8_t letter;
};

static uint32_t start(struct lent *l)
{
    return fumarehi_run_start(l->k, l->s, l->start, l->finals, l->masks, l->masks_len, l->moves, l->moves_len, l->record + GUARD, l->table + GUARD,
                              l->table_len, l->told + GUARD);
}

static uint32_t event(struct lent *l)
{
    return fumarehi_run_event(l->k, l->s, l->start, l->finals, l->masks, l->masks_len, l->moves, l->moves_len, l->letter, l->record + GUARD,
                              l->table + GUARD, l->table_len, l->told + GUARD);
}

static uint32_t question(struct lent *l)
{
    return fumarehi_run_question(l->k, l->s, l->start, l->finals, l->masks, l->masks_len, l->moves, l->moves_len, l->record + GUARD, l->table + GUARD,
                                 l->table_len, l->told + GUARD);
}

enum { S = 1, E = 2, Q = 4, ALL = S | E | Q };

static const struct function {
    const char *name;
    unsigned bit;
    size_t told;
    uint32_t (*call)(struct lent *);
} functions[] = {{"run_start", S, 1, start}, {"run_event", E, 1, event}, {"run_question", Q, 4, question}};

/* Alt after b, b: three records; the next event is a, which brings P to 6. */
static void answered_call(struct lent *l)
{
    static const uint32_t moves[4] = {2, 0, 0, 1};
    memset(l, 0xA5, sizeof *l);
    l->k = l->s = l->masks_len = 2;
    l->start = 0;
    l->finals = 1;
    l->moves_len = 4;
    l->masks[0] = 2;
    l->masks[1] = 1;
    memcpy(l->moves, moves, sizeof moves);
    l->table_len = 6 * RECORD;
    l->letter = 1;
    start(l);
    event(l);
    event(l);
    l->letter = 0;
}

static void k_0(struct lent *l) { l->k = 0; }
static void k_17(struct lent *l) { l->k = 17; }
static void s_33(struct lent *l) { l->s = 33; }
static void start_2(struct lent *l) { l->start = 2; }
static void masks_1(struct lent *l) { l->masks_len = 1; }
static void moves_3(struct lent *l) { l->moves_len = 3; }
static void own_bit(struct lent *l) { l->masks[1] |= 2; }
static void bit_k(struct lent *l) { l->masks[0] |= 4; }
static void move_s(struct lent *l) { l->moves[3] |= 4; }
static void final_31(struct lent *l) { l->finals |= 0x80000000; }
static void taken_4000(struct lent *l) { l->record[GUARD + 1] = MOST; }
static void taken_most(struct lent *l) { l->record[GUARD + 1] = UINT64_MAX; }
static void letter_k(struct lent *l) { l->letter = 2; }
static void letter_255(struct lent *l) { l->letter = 255; }
static void table_9(struct lent *l) { l->table_len = 9; }
static void table_29(struct lent *l) { l->table_len = 29; }
static void table_59(struct lent *l) { l->table_len = 59; }
static void prefixes_7(struct lent *l) { l->record[GUARD] = 7; }
static void prefixes_most(struct lent *l) { l->record[GUARD] = UINT64_MAX; }
static void prefixes_wide(struct lent *l) { l->record[GUARD] = ((uint64_t)1 << 32) + 3; }

/* What damages a call, the functions that refuse it, the number and the rank in the order of the header. */
static const struct damage {
    const char *what;
    unsigned functions;
    uint32_t number;
    int rank;
    void (*apply)(struct lent *);
} damages[] = {
    {"k 0", ALL, 2, 20, k_0},
    {"k 17", ALL, 2, 20, k_17},
    {"s 33", ALL, 2, 20, s_33},
    {"start s", ALL, 2, 20, start_2},
    {"one mask", ALL, 2, 20, masks_1},
    {"three moves", ALL, 2, 20, moves_3},
    {"a mask with its own bit", ALL, 4, 40, own_bit},
    {"a mask with bit k", ALL, 4, 40, bit_k},
    {"a move with bit s", ALL, 6, 60, move_s},
    {"a final set with bit 31", ALL, 6, 60, final_31},
    {"4,000 events taken", E, 7, 70, taken_4000},
    {"the most events taken", E, 7, 70, taken_most},
    {"letter k", E, 8, 80, letter_k},
    {"letter 255", E, 8, 80, letter_255},
    {"a table of 9", ALL, 10, 100, table_9},
    {"a table of 29", E | Q, 10, 100, table_29},
    {"a table of 59", E, 10, 100, table_59},
    {"P 7 in the record", E | Q, 10, 100, prefixes_7},
    {"the largest P in the record", E | Q, 10, 100, prefixes_most},
    {"P past 32 bits in the record", E | Q, 10, 100, prefixes_wide},
};

enum { DAMAGES = sizeof damages / sizeof *damages, FUNCTIONS = sizeof functions / sizeof *functions };

/* A call with two damages, the first of lower rank, or twice the same: it is refused for the first, and nothing is changed but 'told'. */
static void refused(const struct function *f, const struct damage *lower, const struct damage *higher)
{
    struct lent l, expected;
    answered_call(&l);
    lower->apply(&l);
    if (higher != lower)
        higher->apply(&l);
    memcpy(&expected, &l, sizeof l);
    uint32_t number = f->call(&l);
    memset(expected.told + GUARD, 0, f->told * sizeof *expected.told);
    expected.told[GUARD] = lower->number == 8 ? l.record[GUARD + 1] : 0;
    expect(number == lower->number, f->name, lower->what);
    expect(!memcmp(&l, &expected, sizeof l), higher->what, lower->what);
}

static void refused_calls(void)
{
    for (const struct function *f = functions; f < functions + FUNCTIONS; f++)
        for (const struct damage *lower = damages; lower < damages + DAMAGES; lower++)
            for (const struct damage *higher = lower; higher < damages + DAMAGES; higher++)
                if (lower->functions & higher->functions & f->bit && (lower == higher || lower->rank < higher->rank))
                    refused(f, lower, higher);
}

/* Records and tables that no call left: each call answers, and keeps to its buffers. */
static void not_as_left(void)
{
    static const uint64_t numbers[] = {0, 1, 2, 3, 5, 6, 7, MOST - 1, MOST, UINT64_MAX};
    static const uint32_t fillings[] = {0, 1, 0xFFFF, 0xFFFFFFFF};
    for (size_t i = 0; i < 100; i++)
        for (size_t filling = 0; filling < 4; filling++)
            for (const struct function *f = functions + 1; f < functions + FUNCTIONS; f++) {
                struct lent l, before;
                answered_call(&l);
                for (size_t at = 0; at < 6 * RECORD; at++)
                    l.table[GUARD + at] = fillings[filling];
                l.record[GUARD] = numbers[i % 10];
                l.record[GUARD + 1] = numbers[i / 10];
                memcpy(&before, &l, sizeof l);
                uint32_t number = f->call(&l);
                uint32_t lowest = f->bit == E && before.record[GUARD + 1] >= MOST ? 7 : before.record[GUARD] > 6 ? 10 : 0;
                expect(lowest ? number == lowest : number == 0 || (f->bit == E && number == 10), f->name, "not as left");
                memcpy(l.record + GUARD, before.record + GUARD, 2 * sizeof *l.record);
                memcpy(l.told + GUARD, before.told + GUARD, f->told * sizeof *l.told);
                memcpy(l.table + GUARD, before.table + GUARD, 6 * RECORD * sizeof *l.table);
                expect(!memcmp(&l, &before, sizeof l), f->name, "guards");
            }
}

int main(void)
{
    for (size_t i = 0; i < sizeof rows / sizeof *rows; i++)
        taken_row(&rows[i]);
    table_of_ba();
    longest();
    refused_calls();
    not_as_left();
    printf("running.c: %zu logs, %lu events; %lu comparisons, %lu failed\n", sizeof rows / sizeof *rows, taken, compared, failed);
    return failed > 0;
}
