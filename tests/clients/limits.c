/* The constants of the header are the library's: at each the library answers, one past it (or one short of it) it refuses. With an argument it
 * prints the constants, name and value, for a comparison with those of the Rust bindings.
 */
#include "fumarehi.h"

#include <stdio.h>
#include <string.h>

enum { LETTERS = FUMAREHI_MOST_LETTERS, STATES = FUMAREHI_MOST_STATES, EVENTS = FUMAREHI_LONGEST, RECORD = FUMAREHI_RECORD_NUMBERS };

static uint16_t masks[LETTERS + 1], rules[FUMAREHI_MOST_RULES + 1], groups[FUMAREHI_MOST_GROUPS + 1], sets[4];
static uint32_t moves[(STATES + 1) * (LETTERS + 1)], work[RECORD * (EVENTS + 1)], terms[2 * FUMAREHI_MOST_TERMS + 2], counts[FUMAREHI_COUNT_NUMBERS + 1];
static uint8_t events[EVENTS + 1], order[EVENTS], file[FUMAREHI_LONGEST_FILE], text[2 * FUMAREHI_DEEPEST_BRACKETS + FUMAREHI_MOST_TYPED + 3];
static uint64_t told[6];
static unsigned compared, failed;

static void expect(const char *what, uint64_t found, uint64_t expected)
{
    compared++;
    if (found == expected)
        return;
    failed++;
    printf("FAILED: %s is %llu, expected %llu\n", what, (unsigned long long)found, (unsigned long long)expected);
}

static uint32_t judge(size_t k, size_t s, size_t log_len, size_t work_len)
{
    return fumarehi_judge(k, s, 0, 1, masks, k, moves, s * k, events, log_len, order, EVENTS, work, work_len, told);
}

/* Brackets around one letter, or letters one after the other. */
static uint32_t typed(size_t brackets, size_t letters)
{
    memset(text, '(', brackets);
    memset(text + brackets, 'a', letters);
    memset(text + brackets + letters, ')', brackets);
    return fumarehi_expression(1, text, 2 * brackets + letters, moves, STATES, told);
}

static uint32_t with_terms(size_t count)
{
    for (size_t i = 0; i < 2 * count; i++)
        terms[i] = FUMAREHI_DAY(2000 + i / 2, 1, 1);
    return fumarehi_judge_terms(1, 1, 0, 1, masks, 1, moves, 1, events, 0, terms, 0, terms, 2 * count, order, EVENTS, work, RECORD, told);
}

static uint32_t ceiling(size_t count)
{
    for (size_t i = 0; i < count; i++)
        groups[i] = 1;
    return fumarehi_ceiling(1, masks, 1, events, 0, groups, count, told);
}

static uint32_t grammar(size_t names, size_t count)
{
    return fumarehi_grammar(1, masks, 1, names, rules, count, events, 0, order, EVENTS, work, RECORD, sets, 1, told);
}

static void compare(void)
{
    expect("most letters", judge(LETTERS, 1, 0, RECORD), 0);
    expect("one letter more", judge(LETTERS + 1, 1, 0, RECORD), FUMAREHI_OUT_OF_RANGE);
    expect("most states", judge(1, STATES, 0, RECORD), 0);
    expect("one state more", judge(1, STATES + 1, 0, RECORD), FUMAREHI_OUT_OF_RANGE);
    expect("most moves", FUMAREHI_MOST_MOVES, (uint64_t)STATES * LETTERS);
    expect("most events", judge(1, 1, EVENTS, RECORD * (EVENTS + 1)), 0);
    expect("one event more", judge(1, 1, EVENTS + 1, RECORD * (EVENTS + 1)), FUMAREHI_LONG_LOG);
    expect("one number less than a record", judge(1, 1, 0, RECORD - 1), FUMAREHI_FULL_TABLE);
    expect("numbers of counts", fumarehi_find(work, 0, counts, FUMAREHI_COUNT_NUMBERS, told), 0);
    expect("one number of counts more", fumarehi_find(work, 0, counts, FUMAREHI_COUNT_NUMBERS + 1, told), FUMAREHI_OUT_OF_RANGE);
    expect("one number of counts less", fumarehi_find(work, 0, counts, FUMAREHI_COUNT_NUMBERS - 1, told), FUMAREHI_OUT_OF_RANGE);
    expect("the smallest file", fumarehi_write_file(1, 1, 0, 1, masks, 1, moves, 1, events, 0, file, sizeof file, told), 0);
    expect("its length", told[1], 2 + 4 + FUMAREHI_TRAILER_LENGTH);
    expect("the longest file", fumarehi_write_file(LETTERS, STATES, 0, 1, masks, LETTERS, moves, FUMAREHI_MOST_MOVES, events, EVENTS, file, sizeof file, told), 0);
    expect("its length", told[1], FUMAREHI_LONGEST_FILE);
    expect("deepest brackets", typed(FUMAREHI_DEEPEST_BRACKETS, 1), 0);
    expect("one bracket deeper", typed(FUMAREHI_DEEPEST_BRACKETS + 1, 1), FUMAREHI_DEEP_TEXT);
    expect("most typed", typed(0, FUMAREHI_MOST_TYPED), 0);
    expect("one letter typed more", typed(0, FUMAREHI_MOST_TYPED + 1), FUMAREHI_LONG_TEXT);
    memset(moves, 0, sizeof moves);
    expect("most terms", with_terms(FUMAREHI_MOST_TERMS), 0);
    expect("one term more", with_terms(FUMAREHI_MOST_TERMS + 1), FUMAREHI_BAD_TERM);
    expect("most groups", ceiling(FUMAREHI_MOST_GROUPS), 0);
    expect("one group more", ceiling(FUMAREHI_MOST_GROUPS + 1), FUMAREHI_BAD_GROUPS);
    expect("most names", grammar(FUMAREHI_MOST_NAMES, 0), 0);
    expect("one name more", grammar(FUMAREHI_MOST_NAMES + 1, 0), FUMAREHI_BAD_RULE);
    expect("most rules", grammar(1, FUMAREHI_MOST_RULES), 0);
    expect("one rule more", grammar(1, FUMAREHI_MOST_RULES + 1), FUMAREHI_BAD_RULE);
    expect("the end of a log", fumarehi_next_event(events, 0, &(size_t){0}), FUMAREHI_END);
}

#define SHOW(name) printf(#name " %u\n", (unsigned)FUMAREHI_##name)

static void print(void)
{
    printf("VERSION %s\n", FUMAREHI_VERSION);
    SHOW(MOST_LETTERS);
    SHOW(MOST_STATES);
    SHOW(MOST_MOVES);
    SHOW(LONGEST);
    SHOW(RECORD_NUMBERS);
    SHOW(COUNT_NUMBERS);
    SHOW(TRAILER_LENGTH);
    SHOW(LONGEST_FILE);
    SHOW(DEEPEST_BRACKETS);
    SHOW(MOST_TYPED);
    SHOW(MOST_TERMS);
    SHOW(MOST_GROUPS);
    SHOW(MOST_NAMES);
    SHOW(MOST_RULES);
    SHOW(END);
}

int main(int count, char **arguments)
{
    (void)arguments;
    if (count > 1) {
        print();
        return 0;
    }
    compare();
    printf("limits.c: %u compared, %u failed\n", compared, failed);
    return failed != 0;
}
