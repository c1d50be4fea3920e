/* The cuts of Staubecken and Wachstube: how they can be cut into becken, ecken, stau, staub, stube, tube, wach and wachs.
 *
 * From the repository's root:
 *
 *     scripts/library.sh
 *     gcc -Iinclude examples/cuts.c target/staticlib/libcapi.a -o target/cuts && target/cuts
 *
 * It prints what examples/cuts.out holds.
 */
#include "readings.h"

#include <stdio.h>

/* The list in dictionary order, each word as its length and its letters: a is 1, z is 26. */
static const uint8_t words[] = {
    6, 2,  5,  3,  11, 5, 14, /* becken */
    5, 5,  3,  11, 5,  14,    /* ecken */
    4, 19, 20, 1,  21,        /* stau */
    5, 19, 20, 1,  21, 2,     /* staub */
    5, 19, 20, 21, 2,  5,     /* stube */
    4, 20, 21, 2,  5,         /* tube */
    4, 23, 1,  3,  8,         /* wach */
    5, 23, 1,  3,  8,  19,    /* wachs */
};

static uint16_t table[RD_TREE_CELLS];
static uint32_t stack[RD_STACK_CELLS(RD_MOST_WORD, RD_MOST_STATES)];
static uint8_t output[RD_OUTPUT_LETTERS(RD_MOST_WORD, RD_MOST_STATES)];

static int refused(const char *call, rd_answer answer) {
    fprintf(stderr, "%s: refusal %u\n", call, (unsigned)answer.number);
    return 1;
}

/* A reading on a line, with a bar for each cut. */
static void show(size_t letters) {
    for (size_t i = 0; i < letters; i++) putchar(output[i] == RD_CUT ? '|' : 'a' + output[i] - 1);
    putchar('\n');
}

/* Shows all cuts of a word of so many letters, over a table of so many cells. */
static int cut(size_t cells, const uint8_t *word, size_t letters) {
    rd_run run;
    rd_answer answer = rd_start(table, cells, RD_SYNTHESIS, RD_MOST_CEILING, word, letters, RD_NO_LETTERS, 0, &run).answer;
    if (answer.kind == RD_REFUSED) return refused("rd_start", answer);
    do {
        answer = rd_next(table, cells, word, letters, RD_NO_LETTERS, 0, &run, stack, sizeof stack / sizeof *stack, 1000, output,
                         sizeof output);
        if (answer.kind == RD_REFUSED) return refused("rd_next", answer);
        if (answer.kind == RD_FOUND) show(answer.length);
    } while (answer.kind != RD_ENDED);
    return 0;
}

int main(void) {
    const uint8_t staubecken[] = {19, 20, 1, 21, 2, 5, 3, 11, 5, 14};
    const uint8_t wachstube[] = {23, 1, 3, 8, 19, 20, 21, 2, 5};

    rd_answer read = rd_words_read(words, sizeof words, table, RD_TREE_CELLS);
    if (read.kind == RD_REFUSED) return refused("rd_words_read", read);

    if (cut(read.length, staubecken, sizeof staubecken)) return 1;
    return cut(read.length, wachstube, sizeof wachstube);
}
