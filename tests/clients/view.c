/* A C client of a teacher's view: view-c
 *
 * Views of Alt and of a small profile by hand, a table number by number, 4,000 letters, every refusal alone and in pairs on buffers full of guard values,
 * and logs with one visible part. Any difference is printed and makes the exit status 1.
 */
#include "fumarehi.h"

#include <stdio.h>
#include <string.h>

static unsigned long compared, failed;

static void expect(int holds, const char *what, const char *log)
{
    compared++;
    if (holds)
        return;
    failed++;
    printf("FAILED: %s, %s\n", what, log);
}

enum { RECORD = 10, MOST = 4000, NUMBERS = 100, BYTES = 16 };

struct profile {
    size_t k, s, start;
    uint32_t finals;
    uint16_t masks[4];
    uint32_t moves[8];
};

/* Alt of document 01; and courses 'bac': the hidden c between a and b does not hold them apart. */
static const struct profile alt = {2, 2, 0, 1, {2, 1}, {2, 0, 0, 1}};
static const struct profile bac = {3, 2, 0, 2, {2, 1, 0}, {1, 1, 2, 0, 0, 0}};

struct lent {
    uint8_t order[BYTES];
    uint32_t work[NUMBERS];
    uint64_t told[4];
};

static void guard(struct lent *lent)
{
    memset(lent, 0xA5, sizeof *lent);
}

static size_t letters(const char *text, uint8_t *log)
{
    size_t n = strlen(text);
    for (size_t i = 0; i < n; i++)
        log[i] = (uint8_t)(text[i] - 'a');
    return n;
}

static uint32_t view(const struct profile *p, uint32_t visible, const uint8_t *log, size_t len, size_t room, size_t numbers, struct lent *lent)
{
    guard(lent);
    return fumarehi_view(p->k, p->s, p->start, p->finals, visible, p->masks, p->k, p->moves, p->s * p->k, log, len, lent->order, room, lent->work, numbers,
                         lent->told);
}

static int untouched(const struct lent *lent, size_t bytes, size_t numbers)
{
    struct lent before;
    guard(&before);
    return !memcmp(lent->order + bytes, before.order + bytes, sizeof before.order - bytes)
        && !memcmp(lent->work + numbers, before.work + numbers, sizeof before.work - numbers * sizeof before.work[0]);
}

static int told_is(const struct lent *lent, uint64_t place, uint64_t verdict, uint64_t prefixes, uint64_t looks)
{
    return lent->told[0] == place && lent->told[1] == verdict && lent->told[2] == prefixes && lent->told[3] == looks;
}

/* ---- Views by hand ---- */

static const struct row {
    const struct profile *profile;
    uint32_t visible;
    const char *log;
    uint64_t verdict, prefixes, looks;
    const char *order;
} rows[] = {
    {&alt, 1, "ba", 1, 2, 1, "a"},      /* b is hidden: ab has the visible part a */
    {&alt, 1, "bbbaab", 1, 3, 2, "aa"}, /* abab */
    {&alt, 2, "bb", 1, 3, 2, "bb"},
    {&alt, 0, "bab", 1, 1, 0, ""},      /* the empty list is accepted */
    {&alt, 3, "bab", 0, 6, 7, ""},      /* the judge: M3 */
    {&alt, 3, "bbaa", 1, 9, 12, "abab"},
    {&bac, 3, "acb", 1, 4, 4, "ab"},
    {&bac, 7, "acb", 0, 4, 3, ""},
    {&bac, 3, "ab", 1, 4, 4, "ab"},     /* c is needed behind the last visible letter */
    {&bac, 7, "ab", 0, 4, 4, ""},
};

static void viewed_row(const struct row *row)
{
    uint8_t log[BYTES], order[BYTES];
    struct lent lent;
    size_t len = letters(row->log, log), n = letters(row->order, order);
    uint32_t answer = view(row->profile, row->visible, log, len, BYTES, NUMBERS, &lent);
    expect(answer == 0 && told_is(&lent, 0, row->verdict, row->prefixes, row->looks), "a view", row->log);
    expect(!memcmp(lent.order, order, n) && untouched(&lent, n, RECORD * row->prefixes), "its order", row->log);
}

/* Alt on ba, a visible: from the start b leads nowhere, a to state 1, and the hidden b from there to 0. */
static void table_of_ba(void)
{
    static const uint32_t records[2][RECORD] = {{0, 0, 0, 0, 0, 0, 0, 0, 1, 3}, {1, 0, 0, 0, 0, 0, 0, 0, 3, 3}};
    static const uint8_t ba[2] = {1, 0};
    struct lent lent;
    expect(view(&alt, 1, ba, 2, 1, 2 * RECORD, &lent) == 0, "a table with place for two records", "ba");
    expect(!memcmp(lent.work, records, sizeof records), "the records", "ba");
    expect(view(&alt, 1, ba, 2, 1, 2 * RECORD - 1, &lent) == 10 && told_is(&lent, 0, 0, 0, 0), "one number less", "ba");
    for (size_t i = 0; i < RECORD; i++)
        expect(lent.work[i] == 0, "a usable number after 10 is 0", "ba");
    expect(untouched(&lent, 0, RECORD), "the rest stays after 10", "ba");
}

/* ---- Refusals ---- */

static uint8_t long_log[MOST + 1];

static void refused(const char *what, uint32_t number, uint64_t place, uint32_t answer, const struct lent *lent)
{
    expect(answer == number && told_is(lent, place, 0, 0, 0) && untouched(lent, 0, 0), "a refusal and nothing changed", what);
}

static void refusals(void)
{
    static const uint8_t bad[4] = {1, 0, 1, 5}, aab[3] = {0, 0, 1};
    struct lent lent;
    struct profile p = alt;
    p.k = 0;
    refused("2 before 20", 2, 0, view(&p, 4, long_log, MOST + 1, 0, 0, &lent), &lent);
    p = alt;
    p.start = 2;
    refused("2, start", 2, 0, view(&p, 1, aab, 3, 0, 0, &lent), &lent);
    p = alt;
    p.masks[0] = 1;
    refused("4 before 20", 4, 0, view(&p, 4, long_log, MOST + 1, 0, 0, &lent), &lent);
    p = alt;
    p.finals = 4;
    refused("6 before 20", 6, 0, view(&p, 4, long_log, MOST + 1, 0, 0, &lent), &lent);
    for (unsigned bit = 2; bit < 32; bit++)
        refused("20 before 7", 20, 0, view(&alt, (uint32_t)1 << bit | 1, long_log, MOST + 1, 0, 0, &lent), &lent);
    refused("20 before 8", 20, 0, view(&alt, 7, bad, 4, 0, 0, &lent), &lent);
    refused("7 before 9", 7, 0, view(&alt, 2, long_log, MOST + 1, 0, 0, &lent), &lent);
    refused("8 in the whole log", 8, 3, view(&alt, 1, bad, 4, 0, 0, &lent), &lent);
    refused("8 with none visible", 8, 3, view(&alt, 0, bad, 4, 0, 0, &lent), &lent);
    refused("9 before 10", 9, 0, view(&alt, 1, aab, 3, 1, 0, &lent), &lent);
    expect(view(&alt, 1, aab, 3, 2, 3 * RECORD, &lent) == 0, "9 asks for the visible length", "aab");
    expect(view(&alt, 1, long_log, MOST, 0, RECORD, &lent) == 0 && told_is(&lent, 0, 1, 1, 0), "4,000 hidden letters", "b...");
}

/* ---- One visible part ---- */

/* Each pair of logs of at most five letters a and b with as many a, seen by one who sees a: equal answers, and equal buffers for each size. */
static void secrets(void)
{
    static struct lent first[6][64];
    static int met[6][64];
    memset(met, 0, sizeof met);
    for (size_t len = 0; len <= 5; len++) {
        for (unsigned bits = 0; bits < 1u << len; bits++) {
            uint8_t log[5];
            size_t seen = 0;
            for (size_t i = 0; i < len; i++) {
                log[i] = (uint8_t)(bits >> i & 1);
                seen += log[i] == 0;
            }
            for (size_t size = 0; size < 64; size++) {
                struct lent lent;
                uint64_t answer = view(&alt, 1, log, len, size % 6, size, &lent);
                lent.told[0] += answer << 32;
                if (!met[seen][size]++)
                    first[seen][size] = lent;
                expect(!memcmp(&first[seen][size], &lent, sizeof lent), "logs with one visible part", "a and b");
            }
        }
    }
}

int main(void)
{
    memset(long_log, 1, sizeof long_log);
    for (size_t i = 0; i < sizeof rows / sizeof rows[0]; i++)
        viewed_row(&rows[i]);
    table_of_ba();
    refusals();
    secrets();
    printf("view.c: %lu comparisons, %lu failed\n", compared, failed);
    return failed != 0;
}
