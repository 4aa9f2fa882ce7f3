/* Judges one log file: judge FILE
 *
 * Prints what the program 'judge' prints. Where the records of all prefixes do not fit the table it takes a table twice as long.
 * Exit status 0 with a verdict, 1 where the file is refused, 2 where it cannot be read or memory is short.
 */
#include "fumarehi.h"

#include <stdio.h>
#include <stdlib.h>

enum { MOST_BYTES = 65536 };

static uint8_t file[MOST_BYTES + 1], order[FUMAREHI_LONGEST];
static uint16_t masks[FUMAREHI_MOST_LETTERS];
static uint32_t moves[FUMAREHI_MOST_MOVES];

static int refused(uint32_t number, uint64_t place)
{
    printf("refused %u\n", (unsigned)number);
    if (number == FUMAREHI_BAD_LETTER)
        fprintf(stderr, "at place %llu of the log\n", (unsigned long long)place);
    return 1;
}

static int stop(const char *what)
{
    fprintf(stderr, "%s\n", what);
    return 2;
}

int main(int count, char **arguments)
{
    FILE *input = count == 2 ? fopen(arguments[1], "rb") : NULL;
    if (!input)
        return stop("judge FILE: one file that can be read");
    size_t len = fread(file, 1, sizeof file, input);
    if (ferror(input) || len > MOST_BYTES)
        return stop("the file cannot be read, or is too long");

    uint64_t head[6], part[3], told[4]; /* place, k, s, start, final set, length; place, offset, length; place, verdict, P, looks */
    uint32_t number = fumarehi_read_file(file, len, masks, FUMAREHI_MOST_LETTERS, moves, FUMAREHI_MOST_MOVES, head);
    if (number || (number = fumarehi_log_part(file, len, part)))
        return refused(number, head[0]);
    size_t k = head[1], s = head[2], log_len = part[2], numbers = 1000 * FUMAREHI_RECORD_NUMBERS;
    uint32_t *work = NULL;
    do {
        free(work);
        numbers *= 2;
        if (!(work = malloc(numbers * sizeof *work)))
            return stop("no memory for the table");
        number = fumarehi_judge(k, s, head[3], (uint32_t)head[4], masks, k, moves, s * k, file + part[1], log_len, order, sizeof order, work, numbers, told);
    } while (number == FUMAREHI_FULL_TABLE);
    if (number)
        return refused(number, told[0]);
    printf("verdict %u\nprefixes %llu\n%s", (unsigned)told[1], (unsigned long long)told[2], told[1] ? "order" : "");
    for (size_t i = 0; told[1] && i < log_len; i++)
        printf(" %u", order[i]);
    printf("%s", told[1] ? "\n" : "");
    return 0;
}
