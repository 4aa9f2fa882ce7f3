/* A C client of the static library: client-c SAMPLE.log ...
 *
 * Judges the samples as the program 'judge' does and compares with SAMPLE.txt, reads their logs event by event, makes the calls of document 01's
 * cases, also with their courses typed, and makes every refused call on buffers full of guard values. Any difference is printed and makes the exit
 * status 1.
 */
#define _DEFAULT_SOURCE /* for MAP_NORESERVE */

#include "fumarehi.h"

#include <stdarg.h>
#include <stdio.h>
#include <stdlib.h>
#include <string.h>
#include <sys/mman.h>

static unsigned long compared, failed;

/* Counts a comparison, and says what was compared where it fails. */
__attribute__((format(printf, 2, 3))) static void expect(int holds, const char *what, ...)
{
    compared++;
    if (holds)
        return;
    failed++;
    va_list arguments;
    va_start(arguments, what);
    printf("FAILED: ");
    vprintf(what, arguments);
    printf("\n");
    va_end(arguments);
}

/* ---- Samples ---- */

enum { INPUT = 65536, TABLE = 16380, MOST = 4000, TEXT = 16384 };

static size_t load(const char *path, uint8_t *to, size_t room)
{
    FILE *file = fopen(path, "rb");
    if (!file) {
        perror(path);
        exit(2);
    }
    size_t len = fread(to, 1, room, file);
    fclose(file);
    return len;
}

static int print_order(char *text, const uint8_t *order, size_t len)
{
    int at = sprintf(text, "order");
    for (size_t i = 0; i < len; i++)
        at += sprintf(text + at, " %u", order[i]);
    return at + sprintf(text + at, "\n");
}

/* What the program prints for a file. */
static size_t report(const uint8_t *file, size_t file_len, char *text)
{
    static uint32_t table[TABLE];
    uint16_t masks[16];
    uint32_t moves[512];
    uint8_t order[MOST];
    uint64_t head[6], part[3], told[4];
    if (file_len > INPUT)
        return (size_t)sprintf(text, "too long\n");
    uint32_t refused = fumarehi_read_file(file, file_len, masks, 16, moves, 512, head);
    if (!refused)
        refused = fumarehi_log_part(file, file_len, part);
    if (!refused)
        refused = fumarehi_judge(head[1], head[2], head[3], (uint32_t)head[4], masks, head[1], moves, head[2] * head[1],
                                 file + part[1], part[2], order, sizeof order, table, TABLE, told);
    if (refused)
        return (size_t)sprintf(text, "refused %u\n", (unsigned)refused);
    int len = sprintf(text, "verdict %u\nprefixes %llu\n", (unsigned)told[1], (unsigned long long)told[2]);
    if (told[1])
        len += print_order(text + len, order, part[2]);
    return (size_t)len;
}

static unsigned long events;

/* Reads a log event by event; the end comes once none is left, and stays. */
static void walk(const char *name, const uint8_t *log, size_t len)
{
    size_t at = 0;
    for (size_t i = 0; i < len; i++, events++) {
        uint32_t event = fumarehi_next_event(log, len, &at);
        expect(event == log[i] && at == i + 1, "%s: event %zu is %u, then place %zu", name, i, (unsigned)event, at);
    }
    for (int again = 0; again < 2; again++) {
        uint32_t event = fumarehi_next_event(log, len, &at);
        expect(event == FUMAREHI_END && at == len, "%s: the end is %u at place %zu", name, (unsigned)event, at);
    }
    size_t past[] = {len + 1, SIZE_MAX};
    for (int i = 0; i < 2; i++) {
        at = past[i];
        uint32_t event = fumarehi_next_event(log, len, &at);
        expect(event == FUMAREHI_END && at == past[i], "%s: past the end %u at place %zu", name, (unsigned)event, at);
    }
}

static void sample(const char *path)
{
    static uint8_t file[INPUT + 1];
    char text[TEXT], text_path[4096];
    uint8_t expected[TEXT];
    size_t len = load(path, file, sizeof file), stem = strlen(path);
    if (stem < 4 || strcmp(path + stem - 4, ".log") || stem >= sizeof text_path) {
        printf("FAILED: %s is no sample\n", path);
        exit(2);
    }
    sprintf(text_path, "%.*s.txt", (int)(stem - 4), path);
    size_t expected_len = load(text_path, expected, sizeof expected), text_len = report(file, len, text);
    expect(text_len == expected_len && !memcmp(text, expected, text_len), "%s gives %.*s", path, (int)text_len, text);
    uint64_t part[3];
    uint32_t refused = fumarehi_log_part(file, len, part);
    expect(refused || part[1] + part[2] <= len, "%s: the log part lies outside", path);
    walk(path, file + part[1], part[2]);
}

/* ---- Document 01's cases ---- */

/* Numbers of a record, and those of them that have the counts. */
enum { RECORD = 10, COUNTS = 8 };

/* The header's limits are those whose edges are tried here, by numbers of their own. */
_Static_assert(FUMAREHI_LONGEST == MOST && FUMAREHI_RECORD_NUMBERS == RECORD && FUMAREHI_COUNT_NUMBERS == COUNTS, "the log and its records");
_Static_assert(FUMAREHI_MOST_LETTERS == 16 && FUMAREHI_MOST_STATES == 32 && FUMAREHI_MOST_MOVES == 512, "a profile");
_Static_assert(FUMAREHI_TRAILER_LENGTH == 16 && FUMAREHI_DEEPEST_BRACKETS == 16 && FUMAREHI_MOST_TYPED == 31, "a file and typed courses");

struct profile {
    size_t k, s, start;
    uint32_t finals;
    uint16_t masks[4];
    uint32_t moves[20];
};

static const struct profile alt = {2, 2, 0, 1, {2, 1}, {2, 0, 0, 1}};
static const struct profile alt_dependent = {2, 2, 0, 1, {0, 0}, {2, 0, 0, 1}};
static const struct profile only_ba = {2, 3, 0, 4, {2, 1}, {0, 2, 4, 0, 0, 0}};
static const struct profile ab_and_ba = {2, 4, 0, 8, {2, 1}, {2, 4, 0, 8, 8, 0, 0, 0}};
static const struct profile all_of_four = {4, 1, 0, 1, {2, 1, 0, 0}, {1, 1, 1, 1}};
static const struct profile all_of_three = {3, 1, 0, 1, {2, 5, 2}, {1, 1, 1}};

/* The same courses with one-way masks: of ab only b may be moved past, or only a; three letters in a ring, either way round. */
static const struct profile alt_past_b = {2, 2, 0, 1, {0, 1}, {2, 0, 0, 1}};
static const struct profile alt_past_a = {2, 2, 0, 1, {2, 0}, {2, 0, 0, 1}};
static const struct profile only_ba_past_a = {2, 3, 0, 4, {2, 0}, {0, 2, 4, 0, 0, 0}};
static const struct profile ab_and_ba_past_b = {2, 4, 0, 8, {0, 1}, {2, 4, 0, 8, 8, 0, 0, 0}};
static const struct profile all_of_four_past_b = {4, 1, 0, 1, {0, 1, 0, 0}, {1, 1, 1, 1}};
static const struct profile ring = {3, 1, 0, 1, {2, 4, 1}, {1, 1, 1}};
static const struct profile ring_back = {3, 1, 0, 1, {4, 1, 2}, {1, 1, 1}};

static const struct worked {
    const char *mark;
    const struct profile *profile;
    const char *log;
    uint64_t verdict, prefixes, looks;
    const char *order, *first_order, *courses;
} cases[] = {
    {"M1", &alt, "", 1, 1, 0, "", "", "(ab)*"},
    {"M2", &alt, "bbaa", 1, 9, 12, "abab", "aabb", "(ab)*"},
    {"M3", &alt, "bab", 0, 6, 7, "", "abb", "(ab)*"},
    {"M4", &alt_dependent, "ba", 0, 3, 2, "", "ba", "(ab)*"},
    {"M5", &only_ba, "ab", 1, 4, 4, "ba", "ab", "ba"},
    {"M6", &ab_and_ba, "ba", 1, 4, 4, "ab", "ab", "ab|ba"},
    {"M7", &all_of_four, "abcbad", 1, 9, 10, "abcabd", "abcabd", "(a|b|c|d)*"},
    {"M8", &all_of_three, "cab", 1, 6, 7, "bca", "bca", "(a*b*c*)*"},
    {"M9", &alt, "ba", 1, 4, 4, "ab", "ab", "(ab)*"},
    {"M2 past b", &alt_past_b, "bbaa", 1, 9, 12, "abab", "aabb", "(ab)*"},
    {"M2 past a", &alt_past_a, "bbaa", 0, 5, 4, "", "bbaa", "(ab)*"},
    {"M3 past b", &alt_past_b, "bab", 0, 5, 5, "", "abb", "(ab)*"},
    {"M3 past a", &alt_past_a, "bab", 0, 5, 5, "", "bab", "(ab)*"},
    {"M5 past a", &only_ba_past_a, "ab", 1, 4, 4, "ba", "ab", "ba"},
    {"M6 past b", &ab_and_ba_past_b, "ba", 1, 4, 4, "ab", "ab", "ab|ba"},
    {"M7 past b", &all_of_four_past_b, "abcbad", 1, 8, 8, "abcabd", "abcabd", "(a|b|c|d)*"},
    {"M8 in a ring", &ring, "cab", 1, 6, 7, "acb", "acb", "(a|b|c)*"},
    {"M8 in a ring back", &ring_back, "cab", 1, 4, 3, "cab", "cab", "(a|b|c)*"},
    {"M9 past b", &alt_past_b, "ba", 1, 4, 4, "ab", "ab", "(ab)*"},
    {"M9 past a", &alt_past_a, "ba", 0, 3, 2, "", "ba", "(ab)*"},
};

/* The letters of a word: a is 0. */
static size_t spell(const char *word, uint8_t *log)
{
    size_t len = strlen(word);
    for (size_t i = 0; i < len; i++)
        log[i] = (uint8_t)(word[i] - 'a');
    return len;
}

static void judged(const struct worked *c, const struct profile *p)
{
    uint8_t log[16], order[16], expected[16];
    uint32_t table[9 * RECORD];
    uint64_t told[4];
    size_t len = spell(c->log, log);
    memset(order, 0xA5, sizeof order);
    memset(expected, 0xA5, sizeof expected);
    spell(c->order, expected);
    uint32_t answer = fumarehi_judge(p->k, p->s, p->start, p->finals, p->masks, p->k, p->moves, p->s * p->k, log, len,
                                     order, sizeof order, table, 9 * RECORD, told);
    expect(answer == 0 && told[0] == 0, "%s: judge answers %u", c->mark, (unsigned)answer);
    expect(told[1] == c->verdict && told[2] == c->prefixes, "%s: verdict %u, P %u", c->mark, (unsigned)told[1], (unsigned)told[2]);
    expect(told[3] == c->looks, "%s: looks %u", c->mark, (unsigned)told[3]);
    expect(!memcmp(order, expected, sizeof order), "%s: the order buffer", c->mark);
}

/* The same with the case's courses typed. */
static void typed(const struct worked *c)
{
    struct profile made = *c->profile;
    uint64_t told[4];
    size_t room = sizeof made.moves / sizeof *made.moves;
    uint32_t answer = fumarehi_expression(made.k, (const uint8_t *)c->courses, strlen(c->courses), made.moves, room, told);
    expect(answer == 0 && told[0] == 0 && told[2] == 0, "%s: expression answers %u", c->mark, (unsigned)answer);
    made.s = told[1];
    made.start = told[2];
    made.finals = (uint32_t)told[3];
    judged(c, &made);
}

static void first_ordered(const struct worked *c)
{
    uint8_t log[16], order[16], expected[16];
    uint64_t told[1];
    size_t len = spell(c->log, log);
    memset(order, 0xA5, sizeof order);
    memset(expected, 0xA5, sizeof expected);
    spell(c->first_order, expected);
    uint32_t answer = fumarehi_first_order(c->profile->k, c->profile->masks, c->profile->k, log, len, order, sizeof order, told);
    expect(answer == 0 && told[0] == 0, "%s: first_order answers %u", c->mark, (unsigned)answer);
    expect(!memcmp(order, expected, sizeof order), "%s: the first order", c->mark);
}

/* The table with exactly P records, and refused with one number less. */
static void tabled(const struct worked *c)
{
    const struct profile *p = c->profile;
    uint8_t log[16];
    uint32_t table[9 * RECORD + 1];
    uint64_t told[3];
    size_t len = spell(c->log, log), needed = RECORD * c->prefixes;
    memset(table, 0xA5, sizeof table);
    uint32_t answer = fumarehi_table(p->k, p->s, p->start, p->finals, p->masks, p->k, p->moves, p->s * p->k, log, len, table, needed, told);
    expect(answer == 0 && told[0] == 0 && told[1] == c->prefixes, "%s: table answers %u, P %u", c->mark, (unsigned)answer, (unsigned)told[1]);
    expect(told[2] == c->looks, "%s: looks %u", c->mark, (unsigned)told[2]);
    expect(table[needed] == 0xA5A5A5A5, "%s: a number past the table", c->mark);
    answer = fumarehi_table(p->k, p->s, p->start, p->finals, p->masks, p->k, p->moves, p->s * p->k, log, len, table, needed - 1, told);
    expect(answer == 10 && !told[0] && !told[1] && !told[2], "%s: a short table answers %u", c->mark, (unsigned)answer);
}

/* M9's records: the empty prefix, b, a, ab. */
static void sets_of_m9(void)
{
    static const uint32_t records[4][RECORD] = {
        {0, 0, 0, 0, 0, 0, 0, 0, 1, 1},
        {65536, 0, 0, 0, 0, 0, 0, 0, 0, 0},
        {1, 0, 0, 0, 0, 0, 0, 0, 2, 2},
        {65537, 0, 0, 0, 0, 0, 0, 0, 1, 1},
    };
    const uint8_t log[] = {1, 0};
    uint32_t table[4 * RECORD];
    uint64_t told[3];
    fumarehi_table(2, 2, 0, 1, alt.masks, 2, alt.moves, 4, log, 2, table, 4 * RECORD, told);
    expect(!memcmp(table, records, sizeof records), "M9: the records");
}

/* The search among 'len' numbers for the counts of a and b, and of c, tells found and number. */
static void told_of(const uint32_t *table, size_t len, uint32_t ab, uint32_t c, uint64_t found, uint64_t number)
{
    const uint32_t counts[COUNTS] = {ab, c};
    uint64_t told[2] = {7, 7};
    uint32_t answer = fumarehi_find(table, len, counts, COUNTS, told);
    expect(answer == 0 && told[0] == found && told[1] == number, "find %u, %u in %zu numbers: %u, %u, %u", (unsigned)ab, (unsigned)c, len,
           (unsigned)answer, (unsigned)told[0], (unsigned)told[1]);
}

/* M9's prefixes are found where they stand, in the whole table and in the part of one total; other counts have their place. */
static void searched(void)
{
    static const uint32_t first[4] = {0, 65536, 1, 65537}, none[12] = {0};
    const uint8_t log[] = {1, 0};
    uint32_t table[4 * RECORD];
    uint64_t told[3];
    fumarehi_table(2, 2, 0, 1, alt.masks, 2, alt.moves, 4, log, 2, table, 4 * RECORD, told);
    for (uint64_t r = 0; r < 4; r++)
        told_of(table, 4 * RECORD, first[r], 0, 1, r);
    told_of(table, 4 * RECORD, 131072, 0, 0, 3);
    told_of(table, 4 * RECORD, 2, 0, 0, 4);
    told_of(table, 4 * RECORD, 0, 1, 0, 1);
    told_of(table, 4 * RECORD, 0, 4000, 0, 4);
    told_of(table + RECORD, 2 * RECORD, 1, 0, 1, 1);
    told_of(table + RECORD, 3 * RECORD - 1, 65537, 0, 0, 2);
    told_of(table + RECORD, 2 * RECORD, 0, 0, 0, 0);
    told_of(table, 0, 0, 0, 0, 0);
    for (size_t len = 0; len < 12; len++) {
        told[0] = told[1] = 7;
        uint32_t answer = fumarehi_find(table, 4 * RECORD, none, len, told);
        expect(answer == (len == COUNTS ? 0 : 2) && told[0] == (len == COUNTS) && told[1] == 0, "find with %zu numbers of counts: %u", len,
               (unsigned)answer);
    }
}

/* Of all words as long as the log, those listed are the same as it and have the first of them as first order; no other is the same. */
static void reached(const struct profile *p, const char *log_word, const char *const *listed, size_t count, const char *first)
{
    uint8_t log[8], word[8] = {0}, order[8], expected[8], member[8];
    uint64_t told[3];
    size_t len = spell(log_word, log), at = 0, found = 0;
    spell(first, expected);
    do {
        uint64_t is_listed = 0;
        for (size_t i = 0; i < count; i++) {
            spell(listed[i], member);
            is_listed |= !memcmp(member, word, len);
        }
        uint32_t answer = fumarehi_same(p->k, p->masks, p->k, log, len, word, len, told);
        expect(answer == 0 && told[0] == 0 && told[1] == 0 && told[2] == is_listed, "%s: same with another word", log_word);
        fumarehi_first_order(p->k, p->masks, p->k, word, len, order, len, told);
        uint64_t is_first = memcmp(order, expected, len) == 0;
        expect(is_first == is_listed, "%s: first order of another word", log_word);
        found += is_listed;
        for (at = 0; at < len && ++word[at] == p->k; at++)
            word[at] = 0;
    } while (at < len);
    expect(found == count, "%s: %zu words were met", log_word, found);
}

/* With only b to be moved past, ba leads to ab and not back: they are not the same, though both have the first order ab. */
static void one_way_pair(void)
{
    static const uint8_t word[2][2] = {{0, 1}, {1, 0}};
    uint8_t order[2];
    uint64_t told[3];
    for (size_t i = 0; i < 2; i++) {
        for (size_t j = 0; j < 2; j++) {
            uint32_t answer = fumarehi_same(2, alt_past_b.masks, 2, word[i], 2, word[j], 2, told);
            expect(answer == 0 && told[2] == (i == j), "one way: same of words %zu and %zu", i, j);
        }
        uint32_t answer = fumarehi_first_order(2, alt_past_b.masks, 2, word[i], 2, order, 2, told);
        expect(answer == 0 && !memcmp(order, word[0], 2), "one way: the first order of word %zu", i);
    }
}

/* n times one letter: n + 1 records, the last of which counts n in the letter's half of its number; with one number less they do not fit. */
static void length(uint8_t letter, size_t n)
{
    static uint8_t log[MOST], order[MOST];
    static uint32_t table[RECORD * (MOST + 1)];
    uint64_t told[4];
    size_t needed = RECORD * (n + 1);
    memset(log, letter, sizeof log);
    uint32_t answer = fumarehi_judge(2, 2, 0, 1, alt.masks, 2, alt.moves, 4, log, n, order, n, table, needed, told);
    expect(answer == 0 && told[2] == n + 1 && told[3] == n, "%zu letters: %u, P %u, looks %u", n, (unsigned)answer, (unsigned)told[2], (unsigned)told[3]);
    expect(table[needed - RECORD] == (uint32_t)n << 16 * letter, "%zu letters: the last count", n);
    answer = fumarehi_judge(2, 2, 0, 1, alt.masks, 2, alt.moves, 4, log, n, order, n, table, needed - 1, told);
    expect(answer == 10 && told[2] == 0, "%zu letters in a short table: %u", n, (unsigned)answer);
}

static void lengths(void)
{
    static const size_t admitted[] = {254, 255, 256, 257, MOST - 1, MOST};
    static const uint8_t log[MOST + 1] = {0};
    static uint32_t table[RECORD * (MOST + 2)];
    static uint8_t order[MOST + 1];
    uint8_t ab[] = {0, 1, 1};
    uint64_t told[4];
    for (size_t i = 0; i < sizeof admitted / sizeof *admitted; i++) {
        length(0, admitted[i]);
        length(1, admitted[i]);
    }
    uint32_t answer = fumarehi_judge(2, 2, 0, 1, alt.masks, 2, alt.moves, 4, log, MOST + 1, order, MOST + 1, table, RECORD * (MOST + 2), told);
    expect(answer == 7 && told[2] == 0, "4,001 letters: %u", (unsigned)answer);
    answer = fumarehi_same(2, alt.masks, 2, ab, 2, ab, 3, told);
    expect(answer == 0 && told[2] == 0, "ab and abb: %u, %u", (unsigned)answer, (unsigned)told[2]);
}

/* Counts of both letters past one byte. Alt on SIDE times b and then SIDE times a: any counts up to SIDE are a prefix, and the records stand by total and
 * then by the count of a. */
static void square(void)
{
    enum { SIDE = 300, RECORDS = (SIDE + 1) * (SIDE + 1) };
    static uint8_t log[2 * SIDE], order[2 * SIDE];
    static uint32_t table[RECORD * RECORDS];
    uint64_t told[4], wrong = 0;
    memset(log, 1, SIDE);
    uint32_t answer = fumarehi_judge(2, 2, 0, 1, alt.masks, 2, alt.moves, 4, log, 2 * SIDE, order, 2 * SIDE, table, RECORD * RECORDS, told);
    expect(answer == 0 && told[1] == 1 && told[2] == RECORDS && told[3] == 2 * SIDE * (SIDE + 1), "a square: %u, P %u, looks %u", (unsigned)answer,
           (unsigned)told[2], (unsigned)told[3]);
    const uint32_t *record = table;
    for (uint32_t total = 0; total <= 2 * SIDE; total++)
        for (uint32_t a = total > SIDE ? total - SIDE : 0; a <= SIDE && a <= total; a++, record += RECORD) {
            uint32_t b = total - a, set = a == b ? 1 : a == b + 1 ? 2 : 0;
            uint32_t expected[RECORD] = {a | b << 16, 0, 0, 0, 0, 0, 0, 0, set, set};
            wrong += memcmp(record, expected, sizeof expected) != 0;
        }
    for (size_t i = 0; i < 2 * SIDE; i++)
        wrong += order[i] != i % 2;
    expect(wrong == 0 && record == table + RECORD * RECORDS, "a square: %u wrong", (unsigned)wrong);
}

static const uint8_t alt_file[40] = {
    0x02, 0x00, 0x01, 0x00, 0x02, 0x00, 0x00, 0x00, 0x00, 0x00, 0x00, 0x00, 0x00, 0x00, 0x00, 0x00, 0x01, 0x00, 0x00, 0x00,
    0x01, 0x01, 0x00, 0x00, 0x02, 0x02, 0x00, 0x04, 0x18, 0x00, 0x14, 0x00, 0x04, 0x00, 0x00, 0x00, 0x01, 0x00, 0x00, 0x00,
};

/* Lengths beyond 32 bits: only the first pages of the table are ever touched. */
static const char *large_table(void)
{
    size_t len = ((size_t)1 << 32) + 23, bytes = len * sizeof(uint32_t);
    uint32_t *table = mmap(NULL, bytes, PROT_READ | PROT_WRITE, MAP_PRIVATE | MAP_ANONYMOUS | MAP_NORESERVE, -1, 0);
    if (table == MAP_FAILED)
        return "not tried, no room for addresses";
    const uint8_t log[] = {1, 0};
    uint8_t order[2];
    uint64_t told[4];
    uint32_t answer = fumarehi_judge(2, 2, 0, 1, alt.masks, 2, alt.moves, 4, log, 2, order, 2, table, len, told);
    expect(answer == 0 && told[1] == 1 && told[2] == 4 && table[4 * RECORD] == 0, "a large table: %u", (unsigned)answer);
    munmap(table, bytes);
    return "answered";
}

/* Texts and what is told of them: number, place, s, final set. */
static const struct text {
    size_t k;
    const char *text;
    uint64_t number, place, s, finals;
} texts[] = {
    {2, "a", 0, 0, 2, 2},
    {2, "a*", 0, 0, 2, 3},
    {2, "(ab)*", 0, 0, 3, 5},
    {2, "a(b|a)*", 0, 0, 4, 14},
    {16, "p|o", 0, 0, 3, 6},
    {1, "((((((((((((((((a))))))))))))))))", 0, 0, 2, 2},
    {1, "(((((((((((((((((a)))))))))))))))))", 12, 0, 0, 0},
    {3, "abcabcabcabcabcabcabcabcabcabca", 0, 0, 32, 0x80000000},
    {3, "abcabcabcabcabcabcabcabcabcabcab", 13, 0, 0, 0},
    {3, "(((((((((((((((((abcabcabcabcabcabcabcabcabcabcab)))))))))))))))))", 12, 0, 0, 0},
    {1, "(((((((((((((((((a))))))))))))))))))", 11, 35, 0, 0},
    {1, "(((((((((((((((((", 11, 17, 0, 0},
    {1, "(((((((((((((((((b", 11, 17, 0, 0},
    {3, "abcabcabcabcabcabcabcabcabcabcabcd", 11, 33, 0, 0},
    {2, "", 11, 0, 0, 0},
    {2, "()", 11, 1, 0, 0},
    {2, "a|", 11, 2, 0, 0},
    {2, "|a", 11, 0, 0, 0},
    {2, "a||b", 11, 2, 0, 0},
    {2, "(|a)", 11, 1, 0, 0},
    {2, "(a|)", 11, 3, 0, 0},
    {2, "*a", 11, 0, 0, 0},
    {2, "(*a)", 11, 1, 0, 0},
    {2, "a)", 11, 1, 0, 0},
    {2, "(a", 11, 2, 0, 0},
    {1, "ab", 11, 1, 0, 0},
    {16, "apq", 11, 2, 0, 0},
    {16, "aA", 11, 1, 0, 0},
    {16, "a b", 11, 1, 0, 0},
    {0, "", 2, 0, 0, 0},
    {17, "a", 2, 0, 0, 0},
};

/* The move buffer has room for 32 states of 16 letters, and keeps what it had past the moves, or whole if the text is refused. */
static void texted(const struct text *t)
{
    uint32_t moves[513], before[513];
    uint64_t told[4];
    memset(moves, 0xA5, sizeof moves);
    memcpy(before, moves, sizeof moves);
    uint32_t answer = fumarehi_expression(t->k, (const uint8_t *)t->text, strlen(t->text), moves, 512, told);
    expect(answer == t->number && told[0] == t->place, "'%s': %u at %u", t->text, (unsigned)answer, (unsigned)told[0]);
    expect(told[1] == t->s && told[2] == 0 && told[3] == t->finals, "'%s': s %u, finals %x", t->text, (unsigned)told[1], (unsigned)told[3]);
    size_t written = t->s * t->k;
    expect(!memcmp(moves + written, before + written, (513 - written) * sizeof *moves), "'%s': moves past the end", t->text);
}

/* Stars make a text as long as one likes; the place of a fault is told behind them too. */
static void long_text(void)
{
    static uint8_t text[100000];
    uint32_t moves[4];
    uint64_t told[4];
    memset(text, '*', sizeof text);
    text[0] = 'a';
    uint32_t answer = fumarehi_expression(2, text, sizeof text, moves, 4, told);
    expect(answer == 0 && told[1] == 2 && told[3] == 3, "a long text: %u", (unsigned)answer);
    expect(moves[0] == 2 && moves[1] == 0 && moves[2] == 2 && moves[3] == 0, "a long text: moves");
    text[sizeof text - 1] = '|';
    answer = fumarehi_expression(2, text, sizeof text, moves, 4, told);
    expect(answer == 11 && told[0] == sizeof text, "a long text with a fault: %u", (unsigned)answer);
}

static void worked_cases(void)
{
    static const char *const m7[] = {"abcbad", "bacbad", "abcabd", "bacabd"}, *const m8[] = {"cab", "cba", "bca"};
    for (size_t i = 0; i < sizeof cases / sizeof *cases; i++) {
        judged(&cases[i], cases[i].profile);
        typed(&cases[i]);
        first_ordered(&cases[i]);
        tabled(&cases[i]);
    }
    sets_of_m9();
    searched();
    reached(&all_of_four, "abcbad", m7, 4, "abcabd");
    reached(&all_of_three, "cab", m8, 3, "bca");
    one_way_pair();
    lengths();
    square();
    for (size_t i = 0; i < sizeof texts / sizeof *texts; i++)
        texted(&texts[i]);
    long_text();
}

/* ---- Refused calls, and what each call leaves ---- */

enum { AROUND = 8 };

/* The file that is read: Alt's log at LOG_AT, zeros up to FRONT, so that a longer log fits, then Alt's masks, moves and trailer. */
enum { LOG_AT = 16, FRONT = 4096, READ = FRONT + 40 };

/* All arguments of all functions. Every buffer has AROUND guard elements before and after the part that is lent. */
struct lent {
    size_t k, s, start, masks_len, moves_len, log_len, second_len, order_len, table_len, file_len, text_len;
    uint64_t told[1 + 6 + 1];
    uint32_t finals;
    uint32_t moves[AROUND + 16 + AROUND], table[AROUND + 100 + AROUND];
    uint16_t masks[AROUND + 8 + AROUND];
    uint8_t log[AROUND + MOST + 1 + AROUND], second[AROUND + MOST + 1 + AROUND], order[AROUND + 16 + AROUND], file[AROUND + READ + 24 + AROUND];
    uint8_t text[AROUND + 96 + AROUND];
};

static uint32_t judge(struct lent *l)
{
    return fumarehi_judge(l->k, l->s, l->start, l->finals, l->masks + AROUND, l->masks_len, l->moves + AROUND, l->moves_len,
                          l->log + AROUND, l->log_len, l->order + AROUND, l->order_len, l->table + AROUND, l->table_len, l->told + 1);
}

static uint32_t table(struct lent *l)
{
    return fumarehi_table(l->k, l->s, l->start, l->finals, l->masks + AROUND, l->masks_len, l->moves + AROUND, l->moves_len,
                          l->log + AROUND, l->log_len, l->table + AROUND, l->table_len, l->told + 1);
}

static uint32_t same(struct lent *l)
{
    return fumarehi_same(l->k, l->masks + AROUND, l->masks_len, l->log + AROUND, l->log_len, l->second + AROUND, l->second_len, l->told + 1);
}

static uint32_t first_order(struct lent *l)
{
    return fumarehi_first_order(l->k, l->masks + AROUND, l->masks_len, l->log + AROUND, l->log_len, l->order + AROUND, l->order_len, l->told + 1);
}

static uint32_t read_file(struct lent *l)
{
    return fumarehi_read_file(l->file + AROUND, l->file_len, l->masks + AROUND, l->masks_len, l->moves + AROUND, l->moves_len, l->told + 1);
}

static uint32_t log_part(struct lent *l)
{
    return fumarehi_log_part(l->file + AROUND, l->file_len, l->told + 1);
}

static uint32_t write_file(struct lent *l)
{
    return fumarehi_write_file(l->k, l->s, l->start, l->finals, l->masks + AROUND, l->masks_len, l->moves + AROUND, l->moves_len,
                               l->log + AROUND, l->log_len, l->file + AROUND, l->file_len, l->told + 1);
}

static uint32_t expression(struct lent *l)
{
    return fumarehi_expression(l->k, l->text + AROUND, l->text_len, l->moves + AROUND, l->moves_len, l->told + 1);
}

enum { J = 1, T = 2, S = 4, F = 8, R = 16, L = 32, W = 64, E = 128, PROFILE = J | T | W, RELATION = PROFILE | S | F, FILES = R | L };

static const struct function {
    const char *name;
    unsigned bit;
    size_t told;
    uint32_t (*call)(struct lent *);
} functions[] = {
    {"judge", J, 4, judge},         {"table", T, 3, table},       {"same", S, 3, same},          {"first_order", F, 1, first_order},
    {"read_file", R, 6, read_file}, {"log_part", L, 3, log_part}, {"write_file", W, 2, write_file}, {"expression", E, 4, expression},
};

enum { FUNCTIONS = sizeof functions / sizeof *functions };

/* The trailer of the file that is read, and its masks and moves. */
static uint8_t *trailer(struct lent *l) { return l->file + AROUND + FRONT + 24; }
static uint8_t *in_file(struct lent *l, size_t at) { return l->file + AROUND + FRONT + at; }

/* A call that is answered: Alt on bbaa, second log abab; the reader has a file and room to spare, the writer only room; Alt's courses are typed, with
 * room to spare for their moves. */
static void answered_call(struct lent *l, unsigned function)
{
    static const uint8_t bbaa[] = {1, 1, 0, 0}, abab[] = {0, 1, 0, 1};
    memset(l, 0xA5, sizeof *l);
    l->k = l->s = l->masks_len = 2;
    l->start = 0;
    l->finals = 1;
    l->moves_len = l->log_len = l->second_len = 4;
    l->order_len = 6;
    l->table_len = 100;
    l->file_len = function == W ? 50 : READ;
    memcpy(l->log + AROUND, bbaa, 4);
    memcpy(l->second + AROUND, abab, 4);
    memcpy(l->text + AROUND, "(ab)*", l->text_len = 5);
    if (function == E) {
        l->moves_len = 7;
    } else if (function & FILES) {
        l->masks_len = 5;
        l->moves_len = 7;
        memset(l->file + AROUND, 0, FRONT);
        memcpy(l->file + AROUND + LOG_AT, bbaa, 4);
        memcpy(l->file + AROUND + FRONT, alt_file, sizeof alt_file);
        trailer(l)[8] = (READ - 16 - LOG_AT) % 256;
        trailer(l)[9] = (READ - 16 - LOG_AT) / 256;
    } else {
        memcpy(l->masks + AROUND, alt.masks, 2 * sizeof *alt.masks);
        memcpy(l->moves + AROUND, alt.moves, 4 * sizeof *alt.moves);
    }
}

static void tell(struct lent *l, size_t count, const uint64_t *told)
{
    memcpy(l->told + 1, told, count * sizeof *told);
}

/* What the answered call leaves. The records are compared elsewhere; here nothing past them may change. */
static void answer(struct lent *l, const struct lent *after, unsigned function, uint64_t verdict)
{
    static const uint8_t abab[] = {0, 1, 0, 1}, aabb[] = {0, 0, 1, 1};
    static const uint32_t made[] = {2, 0, 0, 4, 2, 0};
    if (function & (J | T))
        memcpy(l->table + AROUND, after->table + AROUND, 9 * RECORD * sizeof *l->table);
    if (function == J && verdict)
        memcpy(l->order + AROUND, abab, 4);
    if (function == F)
        memcpy(l->order + AROUND, aabb, 4);
    if (function == R) {
        memcpy(l->masks + AROUND, alt.masks, 2 * sizeof *alt.masks);
        memcpy(l->moves + AROUND, alt.moves, 4 * sizeof *alt.moves);
    }
    if (function == W)
        memcpy(l->file + AROUND, alt_file, sizeof alt_file);
    if (function == E)
        memcpy(l->moves + AROUND, made, sizeof made);
    switch (function) {
    case J: tell(l, 4, (uint64_t[]){0, verdict, 9, after->told[4]}); break;
    case T: tell(l, 3, (uint64_t[]){0, 9, after->told[3]}); break;
    case S: tell(l, 3, (uint64_t[]){0, 0, 1}); break;
    case F: tell(l, 1, (uint64_t[]){0}); break;
    case R: tell(l, 6, (uint64_t[]){0, 2, 2, 0, 1, 4}); break;
    case L: tell(l, 3, (uint64_t[]){0, LOG_AT, 4}); break;
    case W: tell(l, 2, (uint64_t[]){0, 40}); break;
    case E: tell(l, 4, (uint64_t[]){0, 3, 0, 5}); break;
    }
}

enum { REFUSALS = 13 };

static unsigned long answers[FUNCTIONS][REFUSALS + 1];

static void answered(size_t f, uint64_t verdict)
{
    struct lent l, expected;
    answered_call(&l, functions[f].bit);
    if (!verdict)
        l.finals = 2;
    memcpy(&expected, &l, sizeof l);
    uint32_t number = functions[f].call(&l);
    answer(&expected, &l, functions[f].bit, verdict);
    answers[f][0]++;
    expect(number == 0, "%s is refused by %u", functions[f].name, (unsigned)number);
    expect(!memcmp(&l, &expected, sizeof l), "%s: told or a buffer", functions[f].name);
}

/* Sets bits of a mask, of a move and of the final set, for direct calls and in the file. */
static void mask_bits(struct lent *l, size_t i, unsigned bits)
{
    l->masks[AROUND + i] |= (uint16_t)bits;
    *in_file(l, 2 * i) |= (uint8_t)bits;
    *in_file(l, 2 * i + 1) |= (uint8_t)(bits >> 8);
}

static void move_bits(struct lent *l, size_t i, uint32_t bits)
{
    l->moves[AROUND + i] |= bits;
    for (size_t byte = 0; byte < 4; byte++)
        *in_file(l, 4 + 4 * i + byte) |= (uint8_t)(bits >> 8 * byte);
}

/* Adds a byte to the text, so many times. */
static void type(struct lent *l, char byte, size_t count)
{
    memset(l->text + AROUND + l->text_len, byte, count);
    l->text_len += count;
}

static void letter(struct lent *l, size_t at, uint8_t a) { l->log[AROUND + at] = l->file[AROUND + LOG_AT + at] = a; }

/* 4,001 letters in the log, and 4,005 in the file. The bits that n has stay, so that it can be too large for its distance as well. */
static void long_log(struct lent *l, uint8_t a)
{
    l->log_len = MOST + 1;
    memset(l->log + AROUND, a, MOST + 1);
    memset(l->file + AROUND + LOG_AT + 4, a, MOST + 1);
    trailer(l)[3] |= 0xA1;
    trailer(l)[10] |= 0x0F;
}

static void short_file(struct lent *l) { l->file_len = 15; }
static void no_file(struct lent *l) { l->file_len = 0; }
static void k_0(struct lent *l) { l->k = trailer(l)[0] = 0; }
static void k_17(struct lent *l) { l->k = trailer(l)[0] = 17; }
static void k_most(struct lent *l) { l->k = SIZE_MAX; }
static void k_wide(struct lent *l) { l->k = ((size_t)1 << 32) + 2; }
static void s_0(struct lent *l) { l->s = trailer(l)[1] = 0; }
static void s_33(struct lent *l) { l->s = trailer(l)[1] = 33; }
static void s_most(struct lent *l) { l->s = SIZE_MAX; }
static void s_wide(struct lent *l) { l->s = ((size_t)1 << 63) + 2; }
static void start_2(struct lent *l) { l->start = trailer(l)[2] = 2; }
static void start_most(struct lent *l) { l->start = SIZE_MAX, trailer(l)[2] = 255; }
static void masks_1(struct lent *l) { l->masks_len = 1; }
static void masks_3(struct lent *l) { l->masks_len = 3; }
static void moves_3(struct lent *l) { l->moves_len = 3; }
static void moves_5(struct lent *l) { l->moves_len = 5; }
static void byte_10(struct lent *l) { trailer(l)[10] = 255; }
static void byte_11(struct lent *l) { trailer(l)[11] = 128; }
static void masks_near(struct lent *l) { trailer(l)[4] = 3; }
static void masks_far(struct lent *l) { trailer(l)[5] = (READ - 15) / 256 + 1; }
static void moves_near(struct lent *l) { trailer(l)[6] = 15; }
static void moves_far(struct lent *l) { trailer(l)[7] = (READ - 15) / 256 + 1; }
static void log_near(struct lent *l) { trailer(l)[8] = 3, trailer(l)[9] = 0; }
static void log_far(struct lent *l) { trailer(l)[8] = (READ - 15) % 256, trailer(l)[9] = (READ - 15) / 256; }
static void own_bit(struct lent *l) { mask_bits(l, 1, 2); }
static void bit_k(struct lent *l) { mask_bits(l, 0, 4); }
static void bit_15(struct lent *l) { mask_bits(l, 1, 0x8000); }
static void move_s(struct lent *l) { move_bits(l, 0, 4); }
static void move_31(struct lent *l) { move_bits(l, 3, 0x80000000); }
static void final_s(struct lent *l) { l->finals |= 4, trailer(l)[12] |= 4; }
static void log_4001(struct lent *l) { long_log(l, 0); }
static void log_bad_4001(struct lent *l) { long_log(l, 9); }
static void letter_first(struct lent *l) { letter(l, 0, 2); }
static void letter_last(struct lent *l) { letter(l, 3, 255); }
static void letters_two(struct lent *l) { letter(l, 1, 16), letter(l, 2, 32); }
static void second_4001(struct lent *l) { l->second_len = MOST + 1, memset(l->second + AROUND, 0, MOST + 1); }
static void second_letter(struct lent *l) { l->second[AROUND + 2] = 2; }
static void text_letter(struct lent *l) { l->text[AROUND + 2] = 'c'; }
static void text_choice(struct lent *l) { l->text[AROUND] = '|'; }
static void text_star(struct lent *l) { l->text[AROUND + 1] = '*'; }
static void text_closed(struct lent *l) { l->text[AROUND + 4] = ')'; }
static void text_byte(struct lent *l) { l->text[AROUND + 3] = 255; }
static void deep_17(struct lent *l) { type(l, '(', 17), type(l, 'a', 1), type(l, ')', 17); }
static void letters_32(struct lent *l) { type(l, 'b', 30); }
static void moves_0(struct lent *l) { l->moves_len = 0; }
static void order_3(struct lent *l) { l->order_len = 3; }
static void order_0(struct lent *l) { l->order_len = 0; }
static void file_39(struct lent *l) { l->file_len = 39; }
static void table_89(struct lent *l) { l->table_len = 89; }
static void table_9(struct lent *l) { l->table_len = 9; }
static void table_0(struct lent *l) { l->table_len = 0; }

/* By rank, the order in which refusals are given; the second log of fumarehi_same comes after the first. */
static const struct damage {
    const char *what;
    unsigned functions;
    uint32_t number;
    uint64_t place, log;
    int rank;
    void (*apply)(struct lent *);
} damages[] = {
    {"a file of 15 bytes", FILES, 1, 0, 0, 10, short_file},
    {"no file", FILES, 1, 0, 0, 10, no_file},
    {"k 0", RELATION | FILES | E, 2, 0, 0, 20, k_0},
    {"k 17", RELATION | FILES | E, 2, 0, 0, 20, k_17},
    {"the largest k", RELATION | E, 2, 0, 0, 20, k_most},
    {"k 2 in its low 32 bits", RELATION | E, 2, 0, 0, 20, k_wide},
    {"s 0", PROFILE | FILES, 2, 0, 0, 20, s_0},
    {"s 33", PROFILE | FILES, 2, 0, 0, 20, s_33},
    {"the largest s", PROFILE, 2, 0, 0, 20, s_most},
    {"s with the right product", PROFILE, 2, 0, 0, 20, s_wide},
    {"start s", PROFILE | FILES, 2, 0, 0, 20, start_2},
    {"the largest start", PROFILE | FILES, 2, 0, 0, 20, start_most},
    {"one mask", RELATION, 2, 0, 0, 20, masks_1},
    {"three masks", RELATION, 2, 0, 0, 20, masks_3},
    {"three moves", PROFILE, 2, 0, 0, 20, moves_3},
    {"five moves", PROFILE, 2, 0, 0, 20, moves_5},
    {"trailer byte 11", FILES, 2, 0, 0, 20, byte_11},
    {"a letter k in the text", E, 11, 2, 0, 21, text_letter},
    {"an empty choice in the text", E, 11, 0, 0, 21, text_choice},
    {"a star after a bracket opens", E, 11, 1, 0, 21, text_star},
    {"a bracket that nothing opened", E, 11, 4, 0, 21, text_closed},
    {"byte 255 in the text", E, 11, 3, 0, 21, text_byte},
    {"17 brackets deep", E, 12, 0, 0, 22, deep_17},
    {"32 letters typed", E, 13, 0, 0, 23, letters_32},
    {"masks too near", FILES, 3, 0, 0, 30, masks_near},
    {"masks too far", FILES, 3, 0, 0, 30, masks_far},
    {"moves too near", FILES, 3, 0, 0, 30, moves_near},
    {"moves too far", FILES, 3, 0, 0, 30, moves_far},
    {"log too near", FILES, 3, 0, 0, 30, log_near},
    {"trailer byte 10 past the file", FILES, 3, 0, 0, 30, byte_10},
    {"log too far", FILES, 3, 0, 0, 30, log_far},
    {"a mask with its own bit", RELATION | FILES, 4, 0, 0, 40, own_bit},
    {"a mask with bit k", RELATION | FILES, 4, 0, 0, 40, bit_k},
    {"a mask with bit 15", RELATION | FILES, 4, 0, 0, 40, bit_15},
    {"a move with bit s", PROFILE | FILES, 6, 0, 0, 60, move_s},
    {"a move with bit 31", PROFILE | FILES, 6, 0, 0, 60, move_31},
    {"a final set with bit s", PROFILE | FILES, 6, 0, 0, 60, final_s},
    {"4,001 letters", RELATION | FILES, 7, 0, 1, 70, log_4001},
    {"4,001 bad letters", RELATION | FILES, 7, 0, 1, 70, log_bad_4001},
    {"letter k first", RELATION | FILES, 8, 0, 1, 80, letter_first},
    {"letter 255 last", RELATION | FILES, 8, 3, 1, 80, letter_last},
    {"two bad letters", RELATION | FILES, 8, 1, 1, 80, letters_two},
    {"4,001 letters in the second log", S, 7, 0, 2, 81, second_4001},
    {"a bad letter in the second log", S, 8, 2, 2, 82, second_letter},
    {"an order buffer of 3", J | F, 9, 0, 0, 90, order_3},
    {"no order buffer", J | F, 9, 0, 0, 90, order_0},
    {"a file buffer of 39", W, 9, 0, 0, 90, file_39},
    {"no file buffer", W, 9, 0, 0, 90, no_file},
    {"a mask buffer of 1", R, 9, 0, 0, 90, masks_1},
    {"a move buffer of 3", R, 9, 0, 0, 90, moves_3},
    {"a buffer of 5 for typed courses", E, 9, 0, 0, 90, moves_5},
    {"no buffer for typed courses", E, 9, 0, 0, 90, moves_0},
    {"a table of 89", J | T, 10, 0, 0, 100, table_89},
    {"a table of 9", J | T, 10, 0, 0, 100, table_9},
    {"no table", J | T, 10, 0, 0, 100, table_0},
};

enum { DAMAGES = sizeof damages / sizeof *damages };

/* A call with two damages, the first of lower rank, or twice the same: it is refused for the first, and nothing is changed. */
static void refused(size_t f, const struct damage *lower, const struct damage *higher)
{
    struct lent l, expected;
    answered_call(&l, functions[f].bit);
    lower->apply(&l);
    if (higher != lower)
        higher->apply(&l);
    memcpy(&expected, &l, sizeof l);
    uint32_t number = functions[f].call(&l);
    memset(expected.told + 1, 0, functions[f].told * sizeof *expected.told);
    expected.told[1] = lower->place;
    if (functions[f].bit == S)
        expected.told[2] = lower->log;
    if (lower->number == 10)
        memcpy(expected.table + AROUND, l.table + AROUND, l.table_len * sizeof *l.table);
    answers[f][lower->number]++;
    expect(number == lower->number, "%s with %s and %s: refused by %u", functions[f].name, lower->what, higher->what, (unsigned)number);
    expect(!memcmp(&l, &expected, sizeof l), "%s with %s and %s: told or a buffer", functions[f].name, lower->what, higher->what);
}

static void refused_calls(size_t f)
{
    for (const struct damage *lower = damages; lower < damages + DAMAGES; lower++)
        for (const struct damage *higher = lower; higher < damages + DAMAGES; higher++)
            if (lower->functions & higher->functions & functions[f].bit && (lower == higher || lower->rank < higher->rank))
                refused(f, lower, higher);
}

/* The refusals of each function, as the header lists them, ':' for 10, ';' for 11 and so on. */
static const char *const possible[FUNCTIONS] = {"246789:", "24678:", "2478", "24789", "12346789", "1234678", "246789", "29;<="};

static void print_answers(void)
{
    printf("%-12s%9s", "function", "answered");
    for (int number = 1; number <= REFUSALS; number++)
        printf("%7d", number);
    printf("\n");
    for (size_t f = 0; f < FUNCTIONS; f++) {
        printf("%-12s%9lu", functions[f].name, answers[f][0]);
        for (int number = 1; number <= REFUSALS; number++) {
            int can = strchr(possible[f], '0' + number) != NULL;
            if (can)
                printf("%7lu", answers[f][number]);
            else
                printf("%7s", "-");
            expect(can == (answers[f][number] > 0), "%s: refusal %d met %lu times", functions[f].name, number, answers[f][number]);
        }
        printf("\n");
    }
}

int main(int count, char **paths)
{
    for (int i = 1; i < count; i++)
        sample(paths[i]);
    expect(count > 1, "no sample was given");
    worked_cases();
    for (size_t f = 0; f < FUNCTIONS; f++) {
        answered(f, 1);
        refused_calls(f);
    }
    answered(0, 0);
    const char *large = large_table();
    print_answers();
    printf("client.c: %d samples, %lu events, %zu worked cases, %zu texts, a table of more than 2^32 numbers %s; %lu comparisons, %lu failed\n", count - 1,
           events, sizeof cases / sizeof *cases, sizeof texts / sizeof *texts, large, compared, failed);
    return failed > 0;
}
