/* The most stack that calls of the static library take: stack.
 *
 * Each call runs on a stack of its own that was painted before; what is no longer paint was used. The calls have the most letters, states, events and
 * brackets that are answered. The exit status is 1 if one takes more than the header states, or is refused.
 */
#define _XOPEN_SOURCE 700

#include "fumarehi.h"

#include <stdio.h>
#include <string.h>
#include <ucontext.h>

enum { STACK = 1 << 18, PAINT = 0xA5, STATED = 231 * 1024 / 10 }; /* 23.1 KB */

static uint8_t stack[STACK] __attribute__((aligned(64)));
static ucontext_t outside, inside;

static size_t used(void (*call)(void))
{
    memset(stack, PAINT, STACK);
    getcontext(&inside);
    inside.uc_stack.ss_sp = stack;
    inside.uc_stack.ss_size = STACK;
    inside.uc_link = &outside;
    makecontext(&inside, call, 0);
    swapcontext(&outside, &inside);
    size_t untouched = 0;
    while (untouched < STACK && stack[untouched] == PAINT)
        untouched++;
    return STACK - untouched;
}

/* ---- Calls ---- */

static uint16_t masks[16], groups[2] = {0xFFFD, 2};
enum { EVENTS = 4000, NUMBERS = 10 * 4400, COSTS = 32 * 4400 }; /* the log has 4,251 prefixes */

static uint32_t moves[512], table[NUMBERS], costs[COSTS];
static uint32_t days[EVENTS], terms[24];
static uint8_t log[EVENTS], order[EVENTS], file[6144], text[4096];
static size_t text_len, file_len;
enum { HALVED = 1024 }; /* letters that a grammar halves ten times */

static uint16_t rules[64], sets[(HALVED + 1) * (HALVED + 1)];
static uint64_t told[6], record[2];
static uint32_t answer;

static void nothing(void) {}
static void judge(void) { answer = fumarehi_judge(16, 32, 0, 1, masks, 16, moves, 512, log, EVENTS, order, EVENTS, table, NUMBERS, told); }
static void judge_terms(void) { answer = fumarehi_judge_terms(16, 32, 0, 1, masks, 16, moves, 512, log, EVENTS, days, EVENTS, terms, 24, order, EVENTS, table, NUMBERS, told); }
static void closest(void) { answer = fumarehi_closest(16, 32, 0, 1, masks, 16, moves, 512, log, EVENTS, order, EVENTS, table, NUMBERS, costs, COSTS, UINT64_MAX, told); }
static void closest_terms(void) { answer = fumarehi_closest_terms(16, 32, 0, 1, masks, 16, moves, 512, log, EVENTS, days, EVENTS, terms, 24, order, EVENTS, table, NUMBERS, costs, COSTS, UINT64_MAX, told); }
static void judged(void) { answer = fumarehi_closest(16, 32, 0, 1, masks, 16, moves, 512, log, EVENTS, order, EVENTS, table, NUMBERS, costs, COSTS, 0, told); }
static void view(void) { answer = fumarehi_view(16, 32, 0, 1, 0xFFFF, masks, 16, moves, 512, log, EVENTS, order, EVENTS, table, NUMBERS, told); }
static void build(void) { answer = fumarehi_table(16, 32, 0, 1, masks, 16, moves, 512, log, EVENTS, table, NUMBERS, told); }
static void same(void) { answer = fumarehi_same(16, masks, 16, log, EVENTS, log, EVENTS, told); }
static void first_order(void) { answer = fumarehi_first_order(16, masks, 16, log, EVENTS, order, EVENTS, told); }
static void write_file(void) { answer = fumarehi_write_file(16, 32, 0, 1, masks, 16, moves, 512, log, EVENTS, file, sizeof file, told); }
static void read_file(void) { answer = fumarehi_read_file(file, file_len, masks, 16, moves, 512, told); }
static void log_part(void) { answer = fumarehi_log_part(file, file_len, told); }
static void run_event_of(uint8_t letter) { answer = fumarehi_run_event(16, 32, 0, 1, masks, 16, moves, 512, letter, record, table, NUMBERS, told); }
static void run_start(void) { answer = fumarehi_run_start(16, 32, 0, 1, masks, 16, moves, 512, record, table, NUMBERS, told); }
static void run_event(void) { run_event_of(0); }
static void run_question(void) { answer = fumarehi_run_question(16, 32, 0, 1, masks, 16, moves, 512, record, table, NUMBERS, told); }
static void grammar(void) { answer = fumarehi_grammar(16, masks, 16, 16, rules, 64, log, HALVED, order, EVENTS, table, NUMBERS, sets, (HALVED + 1) * (HALVED + 1), told); }
static void ceiling(void) { answer = fumarehi_ceiling(16, masks, 16, log, EVENTS, groups, 2, told); }
static void expression(void) { answer = fumarehi_expression(16, text, text_len, moves, 512, told); }

static void type(const char *part, size_t count)
{
    size_t len = strlen(part);
    for (size_t i = 0; i < count; i++, text_len += len)
        memcpy(text + text_len, part, len);
}

/* 31 letters typed, the last in brackets: every letter before it and every bracket around it keeps the walk open. */
static void type_nested(const char *before, size_t depth)
{
    text_len = 0;
    type(before, 30);
    type("(", depth);
    type("a", 1);
    type(")", depth);
}

static size_t most;
static int refused;

static void print(const char *name, void (*call)(void))
{
    size_t bytes = used(call) - used(nothing);
    printf("%-44s%7zu bytes%s\n", name, bytes, answer ? ", REFUSED" : "");
    most = bytes > most ? bytes : most;
    refused |= answer != 0;
}

int main(void)
{
    memset(moves, 0xFF, sizeof moves);
    for (size_t i = 0; i < EVENTS; i++)
        log[i] = (uint8_t)(i % 16);
    masks[0] = 2;
    masks[1] = 1;
    for (uint32_t i = 0; i < 24; i++)
        terms[i] = FUMAREHI_DAY(2026, 9, 1) + i;
    for (size_t i = 0; i < EVENTS; i++)
        days[i] = terms[i % 24];
    print("judge", judge);
    print("judge_terms", judge_terms);
    print("closest, all pairs", closest);
    print("closest, budget 0", judged);
    print("closest_terms, all pairs", closest_terms);
    print("view", view);
    print("table", build);
    print("same", same);
    print("first_order", first_order);
    print("write_file", write_file);
    file_len = told[1];
    print("read_file", read_file);
    print("log_part", log_part);
    print("run_start", run_start);
    for (size_t i = 0; i < EVENTS - 1; i++)
        run_event_of(log[i]);
    print("run_event", run_event);
    print("run_question", run_question);
    print("ceiling", ceiling);
    memset(log, 0, HALVED);
    for (size_t i = 0; i < 64; i++)
        rules[i] = i < 10 ? FUMAREHI_NAMES_RULE(i, i + 1, i + 1) : FUMAREHI_LETTER_RULE(10, 0);
    print("grammar, 1,024 letters halved", grammar);
    type_nested("a", 0);
    print("expression, 31 letters in a row", expression);
    type_nested("a|", 0);
    print("expression, 31 choices", expression);
    type_nested("a", 16);
    print("expression, 31 letters, 16 brackets", expression);
    type_nested("a|", 16);
    print("expression, 31 choices, 16 brackets", expression);
    printf("stack: at most %zu bytes, stated %d; %s\n", most, STATED, most > STATED || refused ? "FAILED" : "0 failed");
    return most > STATED || refused;
}
