/* Fumarehi: a proved judge of loan logs. The C interface of the static library libfumarehi.a, as './install PREFIX' puts it in place
 * ('./library' makes it, as target/staticlib/libcapi.a). docs/RULES.md has the rules, docs/FORMAT.md the log file.
 *
 * Answers. Every function but fumarehi_next_event returns 0, or the number of the refusal that applies. If several do, it is the first of them in
 * this list, which is not by number throughout: those from 11 on stand where they are checked.
 *
 *    1  file under 16 bytes
 *    2  k, s or start out of range; trailer byte 11 not zero; masks_len is not k, or moves_len is not s * k; counts_len is not 8
 *   11  the text of typed courses breaks their rules or uses a letter from k on; the place in the text is told, from 0
 *   12  brackets of the text go deeper than 16
 *   13  more than 31 letters are typed
 *    3  a distance of the file is out of its range
 *    4  a mask has a bit from k on, or its own bit
 *    5  unused: masks need not be symmetric
 *    6  a move or the final set has a bit from s on
 *   20  the mask of visible letters has a bit from k on
 *   21  a rule of a grammar uses a name or letter out of range or is of neither kind, or there are no names, more than 16 names or more than 64 rules
 *    7  the log has more than 4,000 letters; in a file too, before 8 is looked for
 *    8  a letter of the log is k or more; its first place in the log is told, from 0
 *   14  the days are not as many as the letters of the log, or one is no date from 1900-01-01 to 2199-12-31
 *   15  the terms break their rules: none or more than 12, a first day without a last, no such date, a first day after the last, not rising, overlapping
 *   16  the day of an event is in no term
 *   18  the letter groups of a ceiling break their rules, are none or above 16, or hold a bit from k on
 *   19  the ceiling is above 4,294,967,295
 *    9  an output buffer is shorter than what it must receive
 *   10  the records of all prefixes do not fit the work table, or the table of a running judge
 *   17  the cost table has fewer than P * s numbers
 *   22  fewer than P * P sets of names
 *
 * Each call writes every element of 'told'. Element 0 is the refusal's place (fumarehi_find tells none): 0 but for refusals 8 and 11, and 0 where
 * nothing is refused. After a refusal the other elements are 0 (fumarehi_same also tells the log). Each array lent as a buffer is unchanged after a
 * refusal, but for the work table of fumarehi_judge, fumarehi_judge_terms, fumarehi_table, fumarehi_closest, fumarehi_closest_terms and fumarehi_grammar
 * after refusal 10, of the two for the closest order after 17 and of fumarehi_grammar after 22, whose content is then free, and that of fumarehi_view after
 * 10, which is then cleared.
 *
 * Arguments. A slice is a pointer and its length in elements. No argument is out of bounds for these functions: they answer for all numbers and all
 * lengths. What the caller owes, since nothing here can test it:
 *   - every pointer is not null and is aligned for its type, also where the length is 0;
 *   - it points to as many elements as the length says, which stay allocated and, unless the type is const, are no other argument's, during the call;
 *   - no other thread writes them meanwhile.
 * The functions keep no pointer, use no global data, no heap and no file, and may be called by several threads at once. The most stack measured is
 * 23.1 KB in fumarehi_judge_terms and fumarehi_closest_terms, 17.3 KB in fumarehi_view, 11.4 KB in the others.
 *
 * A profile is k letters (1 to 16), s states (1 to 32), the start state (below s), the set of final states (bit q for state q), k masks (bit j of mask i
 * is set where letter i directly followed by j may become j followed by i: an exchange; the other direction is bit i of mask j) and s * k moves (at
 * q * k + a, bit r is set where letter a may lead from state q to state r). A log is a letter per byte, 0 to k - 1.
 */
#ifndef FUMAREHI_H
#define FUMAREHI_H

#include <stddef.h>
#include <stdint.h>

#ifdef __cplusplus
extern "C" {
#endif

/* The version of this interface. The first number grows where a call or a record changes its meaning, the second where something is added. */
#define FUMAREHI_VERSION_MAJOR 1
#define FUMAREHI_VERSION_MINOR 0
#define FUMAREHI_VERSION_PATCH 0
#define FUMAREHI_VERSION "1.0.0"

/* The refusals by name. */
enum {
    FUMAREHI_SHORT_FILE = 1,
    FUMAREHI_OUT_OF_RANGE = 2,
    FUMAREHI_DISTANCE = 3,
    FUMAREHI_MASK_BIT = 4,
    FUMAREHI_STATE_BIT = 6,
    FUMAREHI_LONG_LOG = 7,
    FUMAREHI_BAD_LETTER = 8,
    FUMAREHI_SHORT_BUFFER = 9,
    FUMAREHI_FULL_TABLE = 10,
    FUMAREHI_BAD_TEXT = 11,
    FUMAREHI_DEEP_TEXT = 12,
    FUMAREHI_LONG_TEXT = 13,
    FUMAREHI_BAD_DAY = 14,
    FUMAREHI_BAD_TERM = 15,
    FUMAREHI_NO_TERM = 16,
    FUMAREHI_SHORT_COSTS = 17,
    FUMAREHI_BAD_GROUPS = 18,
    FUMAREHI_HIGH_CEILING = 19,
    FUMAREHI_VIEW_BIT = 20,
    FUMAREHI_BAD_RULE = 21,
    FUMAREHI_SHORT_SETS = 22
};

/* The limits by name: the most letters, states and moves of a profile, the most letters of a log; the numbers of a record and those of them that have the
 * counts; the bytes that a file has beside its sections (2 for a mask, 4 for a move, 1 for a letter), and the most that fumarehi_write_file writes; the most
 * brackets inside each other and the most letters in typed courses; the most terms, each of two days; the most groups of a ceiling; the most names and rules of
 * a grammar. */
#define FUMAREHI_MOST_LETTERS 16u
#define FUMAREHI_MOST_STATES 32u
#define FUMAREHI_MOST_MOVES (FUMAREHI_MOST_STATES * FUMAREHI_MOST_LETTERS)
#define FUMAREHI_LONGEST 4000u
#define FUMAREHI_RECORD_NUMBERS 10u
#define FUMAREHI_COUNT_NUMBERS 8u
#define FUMAREHI_TRAILER_LENGTH 16u
#define FUMAREHI_LONGEST_FILE (2u * FUMAREHI_MOST_LETTERS + 4u * FUMAREHI_MOST_MOVES + FUMAREHI_LONGEST + FUMAREHI_TRAILER_LENGTH)
#define FUMAREHI_DEEPEST_BRACKETS 16u
#define FUMAREHI_MOST_TYPED 31u
#define FUMAREHI_MOST_TERMS 12u
#define FUMAREHI_MOST_GROUPS 16u
#define FUMAREHI_MOST_NAMES 16u
#define FUMAREHI_MOST_RULES 64u

/* Judges a log. told: place, verdict, P, looks.
 * Verdict 1: some log that exchanges of neighbouring letters reach from the given one is accepted; the first log_len bytes of 'order' are the earliest such
 * log in letter order, the others stay. Verdict 0: none is; 'order' stays. P is the number of prefixes of the log; the work table then holds a
 * record of ten numbers for each (see fumarehi_table). Looks is the number of pairs of a prefix and a letter such that adding one of that letter
 * gives a prefix again; it may exceed 32 bits. Logs that exchanges turn into each other have equal P and looks.
 * Refused by 2, 4 and 6 to 10; 9 if order_len is below log_len, also where the verdict would be 0. */
uint32_t fumarehi_judge(size_t k, size_t s, size_t start, uint32_t finals,
                        const uint16_t *masks, size_t masks_len,
                        const uint32_t *moves, size_t moves_len,
                        const uint8_t *log, size_t log_len,
                        uint8_t *order, size_t order_len,
                        uint32_t *work, size_t work_len,
                        uint64_t told[4]);

/* A day as a number: year * 10,000 + month * 100 + day, as 20260914. */
#define FUMAREHI_DAY(year, month, day) ((uint32_t)(year) * 10000u + (uint32_t)(month) * 100u + (uint32_t)(day))

/* Judges a log with terms: events of different terms keep their order. told: place, verdict, P, looks.
 * 'days' has a day for each event, a Gregorian date from 1900-01-01 to 2199-12-31. Days need not rise: only the term that a day is in counts. 'terms' has
 * the first and the last day of each of 1 to 12 terms in turn, both inside it; terms rise and do not overlap, and need not touch. terms_len is twice
 * the number of terms. An exchange now also needs both events in one term; all else, the order, P, looks, the work table and what stays, is as of
 * fumarehi_judge, which judges logs without terms. With two terms, and the masks and moves of letters 0 and 1 that may be exchanged both ways:
 *
 *     uint32_t terms[4] = {FUMAREHI_DAY(2026, 9, 1), FUMAREHI_DAY(2026, 12, 18), FUMAREHI_DAY(2027, 1, 4), FUMAREHI_DAY(2027, 3, 26)};
 *     uint32_t days[4] = {FUMAREHI_DAY(2026, 9, 14), FUMAREHI_DAY(2026, 9, 14), FUMAREHI_DAY(2027, 1, 11), FUMAREHI_DAY(2027, 1, 11)};
 *     uint8_t log[4] = {1, 0, 1, 0}, order[4];
 *     refused = fumarehi_judge_terms(2, 2, 0, 1, masks, 2, moves, 4, log, 4, days, 4, terms, 4, order, 4, work, work_len, told);
 *
 * Refused by 2, 4, 6, 7, 8, 14, 15, 16, 9 and 10, in this order; by 15 for an empty log too. */
uint32_t fumarehi_judge_terms(size_t k, size_t s, size_t start, uint32_t finals,
                              const uint16_t *masks, size_t masks_len,
                              const uint32_t *moves, size_t moves_len,
                              const uint8_t *log, size_t log_len,
                              const uint32_t *days, size_t days_len,
                              const uint32_t *terms, size_t terms_len,
                              uint8_t *order, size_t order_len,
                              uint32_t *work, size_t work_len,
                              uint64_t told[4]);

/* Builds the prefix table of a log. told: place, P, looks; both as of fumarehi_judge.
 * A record is ten numbers, one record for each prefix by rising total count, and within one total by the counts, the count of letter 0 first, the
 * smaller first: numbers 0 to 7 have the counts, 16 bits each, letter i in number i div 2, the even letter in the low half; number 8 is the set of
 * states that an order of the prefix leads to from the start; number 9 is the set of states from which an order of the rest leads to a final state.
 * Numbers past record P - 1 stay.
 * Refused by 2, 4, 6 to 8 and 10. */
uint32_t fumarehi_table(size_t k, size_t s, size_t start, uint32_t finals,
                        const uint16_t *masks, size_t masks_len,
                        const uint32_t *moves, size_t moves_len,
                        const uint8_t *log, size_t log_len,
                        uint32_t *table, size_t table_len,
                        uint64_t told[3]);

/* Searches records for counts: numbers 0 to 7 of a record. told: found, number (and no place).
 * The records are those of 'table', a rest below ten unused: lend the first 10 * P numbers of a table after an answer, or the part of it that has the
 * records of one total. Found is 1 and number is the record that has the counts, from 0 in what was lent; or found is 0, exactly when none has, and
 * number says how many records stand before their place. For records in another order than that of fumarehi_table the two say nothing.
 * Refused by 2, if counts_len is not 8; found and number are then 0. */
uint32_t fumarehi_find(const uint32_t *table, size_t table_len,
                       const uint32_t *counts, size_t counts_len,
                       uint64_t told[2]);

/* Compares two logs. told: place, log, same.
 * Same is 1 exactly when exchanges lead from each log to the other, each way. Refused by 2 and 4, then by 7 and 8 of the first log, then by 7 and 8 of the
 * second; log is 1 or 2 at 7 and 8, and 0 otherwise. */
uint32_t fumarehi_same(size_t k,
                       const uint16_t *masks, size_t masks_len,
                       const uint8_t *first, size_t first_len,
                       const uint8_t *second, size_t second_len,
                       uint64_t told[3]);

/* Writes the earliest log in letter order that exchanges reach from the given one to the first log_len bytes of 'order'. told: place.
 * Refused by 2, 4, 7, 8 and 9. Logs with equal first orders are the same where the masks are symmetric; else they need not be. */
uint32_t fumarehi_first_order(size_t k,
                              const uint16_t *masks, size_t masks_len,
                              const uint8_t *log, size_t log_len,
                              uint8_t *order, size_t order_len,
                              uint64_t told[1]);

/* Reads a log file. told: place, k, s, start, final set, log length.
 * Fills the first k masks and the first s * k moves; further elements stay. Refused by 1 to 4 and 6 to 9. */
uint32_t fumarehi_read_file(const uint8_t *file, size_t file_len,
                            uint16_t *masks, size_t masks_len,
                            uint32_t *moves, size_t moves_len,
                            uint64_t told[6]);

/* Finds the log in a log file. told: place, offset, length.
 * The log is the part file[offset] to file[offset + length - 1]. Refused by 1 to 4 and 6 to 8; the part is then empty. */
uint32_t fumarehi_log_part(const uint8_t *file, size_t file_len,
                           uint64_t told[3]);

/* Writes a log file: masks, moves, log, trailer, without gaps. told: place, file length.
 * Bytes past the file's end stay. Refused by 2, 4 and 6 to 9. */
uint32_t fumarehi_write_file(size_t k, size_t s, size_t start, uint32_t finals,
                             const uint16_t *masks, size_t masks_len,
                             const uint32_t *moves, size_t moves_len,
                             const uint8_t *log, size_t log_len,
                             uint8_t *file, size_t file_len,
                             uint64_t told[2]);

/* What fumarehi_next_event returns at the end of a log. */
#define FUMAREHI_END 256u

/* The event at place *at of a log, for reading it event by event from place 0: returns the letter and adds 1 to *at, or returns FUMAREHI_END, exactly
 * when none is left, and leaves *at. */
uint32_t fumarehi_next_event(const uint8_t *log, size_t log_len, size_t *at);

/* Makes a profile of courses typed as an expression, in ASCII and of any length. told: place, s, start, final set.
 * Letters are a to p, for 0 to 15; '|' separates choices, neighbours follow each other, '*' repeats what it follows zero or more times, '(' and ')'
 * are the brackets. A bracket holds a whole expression. A choice, a bracket or the text may not be empty; a '*' follows a letter, a closing bracket or
 * another '*'. No other byte is right, a space or a newline neither.
 * State 0 starts, state i is the i-th letter typed, and s is one more than the letters typed. That letter leads from state q to state i exactly when it
 * may come directly after the q-th letter typed, or first for q = 0. Final are the states that a described log may end in, 0 for the empty log: the
 * profile accepts exactly the logs that the expression describes. The first s * k moves are written, further elements stay; s * k is at most 512.
 * Of k only its range is checked, and no masks are given: the caller adds its own for fumarehi_judge.
 * Refused by 2, 11, 12, 13 and 9, in this order; 9 if moves_len is below s * k. The place of 11 is that of the first byte that no right text with the
 * same beginning has there, whatever its depth and number of letters, or text_len if the text ends too early. */
uint32_t fumarehi_expression(size_t k,
                             const uint8_t *text, size_t text_len,
                             uint32_t *moves, size_t moves_len,
                             uint64_t told[4]);

/* Finds the order closest to what was recorded. told: place, verdict, P, looks, swaps, floor.
 * Verdict, P, looks and the work table are those of fumarehi_judge; with verdict 0 'order' stays, and swaps and floor are told as 0. With verdict 1 the
 * first log_len bytes of 'order' are an accepted log that exchanges reach, the others stay. The swaps of an order are the pairs of events that stand the
 * other way round in it than in the log. The budget counts pairs of a prefix and a state of its forward set (number 8 of its record): with as many pairs
 * as bits are set in these numbers of all records, or more, the order is the one with the fewest swaps, of several the earliest in letter order, and floor
 * is its swaps; UINT64_MAX is always enough. With a smaller budget the order is the judge's, and floor is the smaller of the fewest swaps of any accepted
 * order and the swaps of the pair that stands after 'budget' others when all are ranked by the fewest swaps with which the prefix, brought to the front,
 * leads to the state. No accepted order has fewer swaps than floor. 'costs' has P * s numbers, whose content after an answer is free.
 * Refused by 2, 4, 6 to 10 and 17, in this order, also where the verdict would be 0. */
uint32_t fumarehi_closest(size_t k, size_t s, size_t start, uint32_t finals,
                          const uint16_t *masks, size_t masks_len,
                          const uint32_t *moves, size_t moves_len,
                          const uint8_t *log, size_t log_len,
                          uint8_t *order, size_t order_len,
                          uint32_t *work, size_t work_len,
                          uint32_t *costs, size_t costs_len,
                          uint64_t budget,
                          uint64_t told[6]);

/* The same for a log with a day for each event and with terms, given as to fumarehi_judge_terms: an exchange also needs both events in one term. Verdict, P,
 * looks and the work table are those of fumarehi_judge_terms, and so is the order with a small budget. Swaps, pairs, floor and costs are as above, for these
 * exchanges and for the prefixes that they have.
 * Refused by 2, 4, 6 to 8, 14 to 16, 9, 10 and 17, in this order, also where the verdict would be 0. */
uint32_t fumarehi_closest_terms(size_t k, size_t s, size_t start, uint32_t finals,
                                const uint16_t *masks, size_t masks_len,
                                const uint32_t *moves, size_t moves_len,
                                const uint8_t *log, size_t log_len,
                                const uint32_t *days, size_t days_len,
                                const uint32_t *terms, size_t terms_len,
                                uint8_t *order, size_t order_len,
                                uint32_t *work, size_t work_len,
                                uint32_t *costs, size_t costs_len,
                                uint64_t budget,
                                uint64_t told[6]);

/* A running judge: the verdict while events come in. Its record belongs to the caller: P, then the number of events taken. Start it once, then give it
 * events and ask it at any moment, with the same profile, and with the record and the table lent each time as the last call left them:
 *
 *     uint64_t record[2], place, told[4];
 *     refused = fumarehi_run_start(k, s, start, finals, masks, k, moves, s * k, record, table, table_len, &place);
 *     while (!refused && more_events()) {
 *         refused = fumarehi_run_event(k, s, start, finals, masks, k, moves, s * k, next_letter(), record, table, table_len, &place);
 *         if (!refused && !fumarehi_run_question(k, s, start, finals, masks, k, moves, s * k, record, table, table_len, told))
 *             show(told[1], told[2], told[3]);
 *     }
 *
 * What a question tells is then what fumarehi_judge tells for the list of events taken, refused ones left out, and its length. The table has the
 * records of fumarehi_table, but in order of arrival: those of one event stand behind all earlier ones, in the order of the records that the event is
 * added to. Number 9 of a record is never written. An event costs time for the records that stand, and not for the events taken.
 * A refused call leaves the record and the whole table. With a record or table not as left, or another profile, a call still answers; 10 is then given
 * where the record's P does not fit the table and nothing before it in the list applies, and what it tells and writes otherwise is free. The table may
 * be longer or shorter than at the call before, as long as the records stand in it. */

/* Starts a running judge. told: place. The record becomes 1, 0, and the table's first record that of the empty prefix.
 * Refused by 2, 4, 6 and 10: no place for one record. */
uint32_t fumarehi_run_start(size_t k, size_t s, size_t start, uint32_t finals,
                            const uint16_t *masks, size_t masks_len,
                            const uint32_t *moves, size_t moves_len,
                            uint64_t record[2],
                            uint32_t *table, size_t table_len,
                            uint64_t told[1]);

/* Takes an event. told: place, which at 8 is the number of events taken.
 * Refused by 2, 4, 6, 7: 4,000 events are taken, 8: the letter is k or more, and 10: the record's P, or P after the event, does not fit the table. */
uint32_t fumarehi_run_event(size_t k, size_t s, size_t start, uint32_t finals,
                            const uint16_t *masks, size_t masks_len,
                            const uint32_t *moves, size_t moves_len,
                            uint8_t letter,
                            uint64_t record[2],
                            uint32_t *table, size_t table_len,
                            uint64_t told[1]);

/* Asks for the verdict. told: place, verdict, P, number of events taken. Nothing is written but 'told'.
 * Refused by 2, 4, 6 and 10: the record's P does not fit the table. */
uint32_t fumarehi_run_question(size_t k, size_t s, size_t start, uint32_t finals,
                               const uint16_t *masks, size_t masks_len,
                               const uint32_t *moves, size_t moves_len,
                               const uint64_t record[2],
                               const uint32_t *table, size_t table_len,
                               uint64_t told[4]);

/* A teacher's view: the judge for one who sees some letters and nothing about the others. Bit a of 'visible' is set where letter a is visible. The visible
 * part of a list is its visible letters, in their order. told: place, verdict, P, looks.
 * Verdict 1: some list of letters, of any length, leads the profile from its start to a final state, and its visible part is reachable from the log's.
 * 'order' then begins with the earliest such visible part. P, looks and the work table's records are those of the log's visible part; forward and
 * backward allow hidden letters anywhere, at either end too. With all letters visible it is fumarehi_judge; with none P is 1, and verdict 1 says that a
 * final state can be reached at all.
 * Refused by 2, 4, 6, 20, 7, 8, 9 and 10: 7 and 8 look at the whole log, 9 asks for the length of the visible part, 10 for its records. After 10 the numbers of
 * the work table that have place for records are 0. Logs that pass 7 and 8 and have one visible part are told the same and leave the same, also when they
 * are refused: nothing else of a log crosses. The time that a call takes is no part of this. */
uint32_t fumarehi_view(size_t k, size_t s, size_t start, uint32_t finals, uint32_t visible,
                       const uint16_t *masks, size_t masks_len,
                       const uint32_t *moves, size_t moves_len,
                       const uint8_t *log, size_t log_len,
                       uint8_t *order, size_t order_len,
                       uint32_t *work, size_t work_len,
                       uint64_t told[4]);

/* A rule of a grammar: name n gives the names l and r one behind the other, or name n gives letter a. Names are 0 to 15. */
#define FUMAREHI_NAMES_RULE(n, l, r) ((uint16_t)(4096u + 256u * (n) + 16u * (l) + (r)))
#define FUMAREHI_LETTER_RULE(n, a) ((uint16_t)(256u * (n) + (a)))

/* Judges a log by a grammar, for loans that contain loans: sets in sets, which no automaton follows. A grammar has 1 to 16 names and up to 64 rules, made
 * by the two macros above; name 0 starts. A log can be derived from a name where a rule gives the name the log's one letter, or two names, from which
 * the log's two parts can be derived, the first part from the first. told: place, verdict, P, looks.
 * Verdict 1 exactly when some log that exchanges reach can be derived from name 0; such a log is then in the first log_len bytes of 'order', whichever.
 * Verdict 0 leaves 'order'; an empty log gets 0. P, looks and the records in 'work' are as with fumarehi_judge, but forward and backward are 0.
 * 'sets' has one element for each pair of prefixes, P * P of them: its content after a verdict is free. Its size and the time, which grows with P * P * P,
 * are what P costs here: see docs/SPEED.md.
 * Refused by 2, 4, 21, 7, 8, 9, 10 and 22, in this order; there are no states, so 2 is of k and masks_len alone. */
uint32_t fumarehi_grammar(size_t k,
                          const uint16_t *masks, size_t masks_len,
                          size_t names,
                          const uint16_t *rules, size_t rules_len,
                          const uint8_t *log, size_t log_len,
                          uint8_t *order, size_t order_len,
                          uint32_t *work, size_t work_len,
                          uint16_t *sets, size_t sets_len,
                          uint64_t told[4]);

/* Tells a ceiling of P before a log is judged: how large a table to buy. told: place, ceiling.
 * Groups are 1 to 16 masks, bit j for letter j. Together they hold every letter, and no two letters of one group may be exchanged, in either direction;
 * a group may be empty, and a letter may be in several. The ceiling is the product, over the groups, of one plus the number of events in that group. P
 * never exceeds it for this k, masks and log, whatever the states and moves are, with terms or without. Few groups, of letters that often come together
 * in a log, give low ceilings; one group for each letter is always right. No buffer is lent. A table that is long enough, for a ceiling up to 429,496,729:
 *
 *     size_t work_len = told[1] * FUMAREHI_RECORD_NUMBERS;
 *
 * Refused by 2, 4, 7, 8, 18 and 19. */
uint32_t fumarehi_ceiling(size_t k,
                          const uint16_t *masks, size_t masks_len,
                          const uint8_t *log, size_t log_len,
                          const uint16_t *groups, size_t groups_len,
                          uint64_t told[2]);

#ifdef __cplusplus
}
#endif

#endif
