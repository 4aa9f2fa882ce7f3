/* From typed courses to a verdict and a log file: courses K TEXT PAIRS LOG FILE
 *
 *   K      the number of letters, 1 to 16
 *   TEXT   a file with the permitted courses as an expression, or '=' and the expression itself: '=(ab)*'
 *   PAIRS  the independent letters, two by two: 'abac' for a and b, a and c; '' for none
 *   LOG    the letters recorded: 'bbaa'
 *   FILE   where the log file is written, for the program 'judge'
 *
 * Prints the verdict and the order, or a refusal; a fault in the courses is shown by a caret. Exit status 0 where nothing is refused.
 */
#include "fumarehi.h"

#include <stdio.h>
#include <stdlib.h>
#include <string.h>

enum { LETTERS = FUMAREHI_MOST_LETTERS, MOVES = FUMAREHI_MOST_MOVES, EVENTS = FUMAREHI_LONGEST, TEXT = 4096, WORK = 16380 };

enum { FILE_BYTES = FUMAREHI_LONGEST_FILE };

/* All that a profile needs; the library keeps none of it. */
struct profile {
    size_t k, s, start;
    uint32_t finals;
    uint16_t masks[LETTERS];
    uint32_t moves[MOVES];
};

static int refused(const char *call, uint32_t number)
{
    printf("%s: refused %u\n", call, (unsigned)number);
    return 1;
}

static void stop(const char *what, const char *why)
{
    fprintf(stderr, "%s: %s\n", what, why);
    exit(2);
}

/* A text without the newline that an editor leaves at a file's end: no newline is right in a text. */
static size_t read_text(const char *path, char *text)
{
    FILE *file = fopen(path, "rb");
    if (!file)
        stop(path, "cannot be read");
    size_t len = fread(text, 1, TEXT, file);
    fclose(file);
    if (len == TEXT)
        stop(path, "is too long for this example");
    return len > 0 && text[len - 1] == '\n' ? len - 1 : len;
}

/* Fills states and moves by the courses; at refusal 11 the place is told, which may be the text's end. */
static int make_profile(struct profile *p, const char *text, size_t len)
{
    uint64_t told[4]; /* place, s, start, final set */
    uint32_t number = fumarehi_expression(p->k, (const uint8_t *)text, len, p->moves, MOVES, told);
    if (number == FUMAREHI_BAD_TEXT)
        printf("%.*s\n%*s\n", (int)len, text, (int)told[0] + 1, "^");
    if (number)
        return refused("courses", number);
    p->s = told[1];
    p->start = told[2];
    p->finals = (uint32_t)told[3];
    printf("courses: %zu states\n", p->s);
    return 0;
}

/* Independence is no part of the courses: each pair sets a bit in two masks. A pair with a letter from k on is left to the library to refuse. */
static void add_pairs(struct profile *p, const char *pairs)
{
    for (; *pairs; pairs += 2) {
        unsigned i = (unsigned)(pairs[0] - 'a'), j = (unsigned)(pairs[1] - 'a');
        if (i >= LETTERS || j >= LETTERS)
            stop(pairs, "is no list of pairs");
        p->masks[i] |= (uint16_t)(1u << j);
        p->masks[j] |= (uint16_t)(1u << i);
    }
}

static int judge(const struct profile *p, const uint8_t *log, size_t len)
{
    static uint32_t work[WORK]; /* ten numbers for each prefix; as many as the program 'judge' has */
    uint8_t order[EVENTS];
    uint64_t told[4]; /* place, verdict, P, looks */
    uint32_t number = fumarehi_judge(p->k, p->s, p->start, p->finals, p->masks, p->k, p->moves, p->s * p->k, log, len, order, EVENTS, work, WORK, told);
    if (number)
        return refused("judge", number);
    printf("verdict %u\nprefixes %llu\n", (unsigned)told[1], (unsigned long long)told[2]);
    if (told[1] == 1) {
        printf("order ");
        for (size_t i = 0; i < len; i++)
            putchar('a' + order[i]);
        printf("\n");
    }
    return 0;
}

static int write_log_file(const struct profile *p, const uint8_t *log, size_t len, const char *path)
{
    uint8_t bytes[FILE_BYTES];
    uint64_t told[2]; /* place, file length */
    uint32_t number = fumarehi_write_file(p->k, p->s, p->start, p->finals, p->masks, p->k, p->moves, p->s * p->k, log, len, bytes, FILE_BYTES, told);
    if (number)
        return refused("file", number);
    FILE *file = fopen(path, "wb");
    if (!file || fwrite(bytes, 1, told[1], file) != told[1] || fclose(file))
        stop(path, "cannot be written");
    return 0;
}

int main(int count, char **arguments)
{
    if (count != 6)
        stop("usage", "courses K TEXT PAIRS LOG FILE");
    struct profile p = {.k = strtoul(arguments[1], NULL, 10)};
    char file_text[TEXT];
    int typed = arguments[2][0] == '=';
    const char *text = typed ? arguments[2] + 1 : file_text;
    size_t text_len = typed ? strlen(text) : read_text(arguments[2], file_text);
    uint8_t *log = (uint8_t *)arguments[4];
    size_t log_len = strlen(arguments[4]);
    for (size_t i = 0; i < log_len; i++)
        log[i] = (uint8_t)(log[i] - 'a'); /* a is letter 0; what is no letter is refused by 8 */
    add_pairs(&p, arguments[3]);
    return make_profile(&p, text, text_len) || judge(&p, log, log_len) || write_log_file(&p, log, log_len, arguments[5]);
}
